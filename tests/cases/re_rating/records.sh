# Prints records for clear re_rate, one a line.

# cdr KWH TARIFF CREDIT: a CDR with one charging period of so many kWh that names this tariff. It has the tariff G1, by which
# 1 kWh costs 0.25. CREDIT is what it says of a Credit CDR, or nothing.
cdr() {
    session='"start_date_time":"2024-07-01T10:00:00Z","end_date_time":"2024-07-01T11:00:00Z"'
    token='{"country_code":"NL","party_id":"MSA","uid":"U1","type":"RFID","contract_id":"NL-MSA-C1"}'
    elements='[{"price_components":[{"type":"ENERGY","price":0.25,"step_size":1}]}]'
    tariff='{"country_code":"NL","party_id":"CPA","id":"G1","currency":"EUR","elements":'$elements',"last_updated":"2024-06-01T00:00:00Z"}'
    period='{"start_date_time":"2024-07-01T10:00:00Z","dimensions":[{"type":"ENERGY","volume":'$1'}],"tariff_id":"'$2'"}'
    totals='"total_cost":{"excl_vat":5},"total_energy":'$1',"total_time":1'
    echo '{"country_code":"NL","party_id":"CPA","id":"S1",'"$session"',"cdr_token":'"$token"',"auth_method":"WHITELIST","currency":"EUR","tariffs":['"$tariff"'],"charging_periods":['"$period"'],'"$totals"','"$3"'"last_updated":"2024-07-01T11:05:00Z"}'
}

# record BOOKED KWH [TARIFF]
record() {
    echo "$1 $(cdr "$2" "${3:-G1}")"
}

# credit BOOKED KWH: of a Credit CDR.
credit() {
    echo "$1 $(cdr "$2" G1 '"credit":true,"credit_reference_id":"S0",')"
}
