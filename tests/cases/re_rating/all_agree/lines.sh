. ../records.sh

record 5.0000 20
record 0.0000 0
record 0.2500 1
record 2.6250 10.5
