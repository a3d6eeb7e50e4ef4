. ../records.sh

record 5.0000 20
record 4.9999 20
