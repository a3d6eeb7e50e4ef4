sh ../periods.sh 1001
