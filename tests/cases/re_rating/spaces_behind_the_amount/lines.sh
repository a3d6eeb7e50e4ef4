. ../records.sh

echo "5.0000  $(cdr 20 G1) "
printf '4.9999 %s\r\n' "$(cdr 20 G1)"
