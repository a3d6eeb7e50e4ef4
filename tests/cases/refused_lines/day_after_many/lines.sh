# A tariff whose last day of 65,537 is none, and one whose last day of 65,536 is none.
for most in 65536 65535; do
    printf '{"platform":"cpo","do":"put_tariff","tariff":{"country_code":"NL","party_id":"CPA","id":"G1","currency":"EUR","elements":[{"price_components":[{"type":"ENERGY","price":0.25,"step_size":1}],"restrictions":{"day_of_week":['
    awk "BEGIN { for (day = 0; day < $most; day++) printf \"\\\"MONDAY\\\",\" }"
    printf '"NODAY"]}}],"last_updated":"2024-06-01T00:00:00Z"}}\n'
done
