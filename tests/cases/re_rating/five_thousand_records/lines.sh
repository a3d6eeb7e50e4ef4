. ../records.sh

# Every hundredth record from the first on is booked at 5.0001, and the others at 5.0000.
awk -v cdr="$(cdr 20 G1)" 'BEGIN { for (index_of = 0; index_of < 5000; index_of++) print (index_of % 100 == 0 ? "5.0001" : "5.0000"), cdr }'
