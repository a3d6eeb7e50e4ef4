sh ../periods.sh 1000
