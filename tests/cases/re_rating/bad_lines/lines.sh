. ../records.sh

record 4.9999 20
record five 20
record 4.9998 20
echo
echo 5.0000
echo '5.0000 {"country_code":'
record 4.9997 -1
echo '5.0000 []'
echo " $(record 5.0000 20)"
echo "5.0000	$(cdr 20 G1)"
cdr 20 G1
record 4.9996 20
