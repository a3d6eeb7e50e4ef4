. ../records.sh

record 5.0000 20
record 5.0000 20 G2
record 0.0000 0 G2
