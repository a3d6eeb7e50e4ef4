. ../records.sh

record 5 20
record 5.0 20
record 5.000000 20
record 5.00000000000000000000000000000 20
record 5.0000004 20
record -0 0
record 5.00001 20
record 5.0000005 20
record 05 20
record +5 20
record 5. 20
record 5e0 20
record '' 20
record 1000000000 20
record 999999999.9999 20
record -5 20
record 0.00004 0
record 0 0.0002
