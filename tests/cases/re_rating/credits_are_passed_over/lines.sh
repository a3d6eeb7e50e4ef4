. ../records.sh

record 5.0000 20
credit -5.0000 -20
credit -4.0000 -20
credit 7.0000 20
record 5.0001 20
