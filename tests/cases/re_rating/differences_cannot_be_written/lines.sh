. ../records.sh

record 4.9999 20
