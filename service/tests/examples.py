"""The configuration and the objects of the tests."""

from __future__ import annotations

import copy
import json
from typing import Any

Object = dict[str, Any]

ZONE = "CET-1CEST,M3.5.0,M10.5.0/3"
CONFIGURATION: Object = {
    "version": 2,
    "tolerance": 100,
    "currencies": ["EUR"],
    "operators": [{"party": "NL/CPA", "zone": ZONE}, {"party": "NL/CPB", "zone": ZONE}],
    "providers": [{"party": "NL/MSA", "limits": [{"currency": "EUR", "limit": 1000000, "hold": 200000}]}],
    "platforms": [
        {"name": "cpo", "parties": ["NL/CPA"]},
        {"name": "cpb", "parties": ["NL/CPB"]},
        {"name": "both", "parties": ["NL/CPA", "NL/CPB"]},
        {"name": "emp", "parties": ["NL/MSA"]},
        {"name": "hub", "parties": [], "hub": True},
    ],
    "credit_window": 0,
}
CONFIG = json.dumps(CONFIGURATION)

TOKEN: Object = {
    "country_code": "NL",
    "party_id": "MSA",
    "uid": "U1",
    "type": "RFID",
    "contract_id": "NL-MSA-C1",
    "issuer": "Müller",
    "valid": True,
    "whitelist": "NEVER",
    "last_updated": "2024-07-01T00:00:00Z",
}
TARIFF: Object = {
    "country_code": "NL",
    "party_id": "CPA",
    "id": "G1",
    "currency": "EUR",
    "elements": [{"price_components": [{"type": "ENERGY", "price": 0.25, "step_size": 1}]}],
    "last_updated": "2024-06-01T00:00:00Z",
}
TOKENS = "/ocpi/2.2.1/tokens/NL/MSA/U1"
TARIFFS = "/ocpi/2.2.1/tariffs/NL/CPA/G1"
CDRS = "/ocpi/2.2.1/cdrs"
AUTHORIZE = "/ocpi/2.2.1/tokens/U1/authorize"
FROM = {
    "OCPI-from-country-code": "NL",
    "OCPI-from-party-id": "CPA",
    "OCPI-to-country-code": "NL",
    "OCPI-to-party-id": "MSA",
}


def changed(value: Object, **members: object) -> Object:
    """A copy of the object with other members."""
    return {**copy.deepcopy(value), **members}


def tariff(party: str = "CPA", price: float = 0.25) -> Object:
    made = changed(TARIFF, party_id=party)
    made["elements"][0]["price_components"][0]["price"] = price
    return made


def cdr(cdr_id: str = "S1", kwh: float = 20, cost: float = 5.0, party: str = "CPA", **members: Any) -> Object:
    made = {
        "country_code": "NL",
        "party_id": party,
        "id": cdr_id,
        "start_date_time": "2024-07-01T10:00:00Z",
        "end_date_time": "2024-07-01T11:00:00Z",
        "session_id": f"SES-{cdr_id}",
        "cdr_token": {
            name: TOKEN[name] for name in ("country_code", "party_id", "uid", "type", "contract_id")
        },
        "auth_method": "WHITELIST",
        "cdr_location": {"id": "L1"},
        "currency": "EUR",
        "tariffs": [tariff(party)],
        "charging_periods": [
            {
                "start_date_time": "2024-07-01T10:00:00Z",
                "dimensions": [{"type": "ENERGY", "volume": kwh}],
                "tariff_id": "G1",
            }
        ],
        "total_cost": {"excl_vat": cost},
        "total_energy": kwh,
        "total_time": 1,
        "last_updated": "2024-07-01T11:05:00Z",
    }
    return {**made, **members}


def credit(cdr_id: str, of: str, cost: float = -5.0, **members: Any) -> Object:
    return cdr(cdr_id, 20, cost, credit=True, credit_reference_id=of, **members)


def line(do: str, **members: object) -> str:
    """A request line without its platform."""
    return json.dumps({"do": do, **members})
