. ../records.sh

printf '5.0000 \377\n'
printf '\377 %s\n' "$(cdr 20 G1)"
record 4.9999 20
