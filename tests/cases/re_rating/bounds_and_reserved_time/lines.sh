. ../records.sh

# bounded: the records of standard input, of which the one element is restricted to at most 11 kW.
bounded() {
    sed 's/"elements":\[{/&"restrictions":{"max_power":11},/'
}

# reserved HOURS: the records of standard input with so much reserved time.
reserved() {
    sed 's/"dimensions":\[/&{"type":"RESERVATION_TIME","volume":'"$1"'},/'
}

record 4.9999 20
record 5.0000 20 | bounded
record 4.9998 20 | bounded
record 5.0000 20 | reserved 1
record 5.0000 20 | reserved 0
record 5.0000 20 | reserved 1 | bounded
record 5.0000 20 G2 | bounded
credit 5.0000 20 | bounded
record 4.9997 20
