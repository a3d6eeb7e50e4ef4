. ../records.sh

record 5.0000 20
printf '%s' "$(record 4.9999 20)"
