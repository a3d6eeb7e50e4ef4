. ../records.sh

for turn in 0 1 2 3 4 5 6 7 8 9; do
    for place in 0 1 2 3 4 5 6 7 8 9 10 11 12 13 14 15 16 17 18 19 20 21 22 23 24 25 26 27 28; do
        record 5.0000 20
    done
    record "$turn.5000" 20
done
