. ../records.sh

for turn in 0 1 2 3; do
    for place in 0 1 2 3 4 5 6 7 8 9 10 11 12 13 14; do
        record 5.0000 20
    done
    record "$turn.5000" 20
done
