# periods.sh COUNT: a CDR of so many charging periods.
cat <<'END'
{
  "country_code": "NL",
  "party_id": "CPA",
  "id": "S1",
  "start_date_time": "2024-07-01T10:00:00Z",
  "end_date_time": "2024-07-02T00:00:00Z",
  "cdr_token": {"country_code": "NL", "party_id": "MSA", "uid": "U1", "type": "RFID", "contract_id": "NL-MSA-C1"},
  "auth_method": "WHITELIST",
  "currency": "EUR",
  "tariffs": [
    {"country_code": "NL", "party_id": "CPA", "id": "T1", "currency": "EUR", "elements": [{"price_components": [{"type": "ENERGY", "price": 0.25, "step_size": 1000}]}], "last_updated": "2024-06-01T00:00:00Z"}
  ],
  "charging_periods": [
END
period='{"start_date_time": "2024-07-01T10:00:00Z", "dimensions": [{"type": "ENERGY", "volume": 0.0101}], "tariff_id": "T1"}'
number=1
while [ "$number" -lt "$1" ]; do
    echo "    $period,"
    number=$((number + 1))
done
cat <<END
    $period
  ],
  "total_cost": {"excl_vat": 0},
  "total_energy": 0,
  "total_time": 0,
  "last_updated": "2024-07-02T00:00:00Z"
}
END
