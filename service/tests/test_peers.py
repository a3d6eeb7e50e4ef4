"""Peers by the standard: registration, objects in both directions, pages, the clients of the hub, a month."""

from __future__ import annotations

import json
from collections.abc import Callable, Iterator
from concurrent.futures import ThreadPoolExecutor
from decimal import Decimal
from pathlib import Path
from typing import Any

import httpx
import pytest
from clear_service.senders import REGISTER, TokenFile

from conftest import Make, Service, wait_until
from examples import ZONE, Object, changed
from ocpi_peer import APP_USER, CDR, TARIFF, TOKEN, OcpiError, OcpiPeer

LIMITS = [{"currency": "EUR", "limit": 100_000_000, "hold": 100_000}]
CONFIGURATION: Object = {
    "version": 2,
    "tolerance": 100,
    "currencies": ["EUR"],
    "operators": [{"party": "BE/BEC", "zone": ZONE}, {"party": "NL/CPB", "zone": ZONE}],
    "providers": [{"party": "DE/TNM", "limits": LIMITS}, {"party": "FR/OTH", "limits": LIMITS}],
    "platforms": [
        {"name": "bec", "parties": ["BE/BEC"]},
        {"name": "cpb", "parties": ["NL/CPB"]},
        {"name": "tnm", "parties": ["DE/TNM"]},
        {"name": "oth", "parties": ["FR/OTH"]},
        {"name": "hub", "parties": [], "hub": True},
    ],
    "credit_window": 1,
}
PARTIES = {
    "bec": ("CPO", "BE", "BEC"),
    "cpb": ("CPO", "NL", "CPB"),
    "tnm": ("EMSP", "DE", "TNM"),
    "oth": ("EMSP", "FR", "OTH"),
}
HUB = ("NL", "HUB")
MakePeer = Callable[[str], OcpiPeer]


class Hub:
    """A service, and the peers that register at it."""

    def __init__(self, make: Make, folder: Path, store: str | None = None, **settings: Any) -> None:
        (folder / "config.json").write_text(json.dumps(CONFIGURATION))
        self.peers: dict[str, OcpiPeer] = {name: OcpiPeer(*PARTIES[name], name) for name in PARTIES}
        # A file of tokens that is there when the service starts is read at once.
        self.file = TokenFile(str(folder / "tokens"))
        self.tokens_a = {name: [self.file.add(REGISTER + name) for _ in range(2)] for name in PARTIES}
        self.static = {name: self.file.add(name) for name in PARTIES}
        hosts = ",".join(urlhost(peer.url) for peer in self.peers.values())
        given = {"peer_hosts": hosts, "peer_seconds": 20, "peer_pause": 2, **settings}
        self.service: Service = make(store, folder=folder, **given)
        self.service.tokens |= {f"{name}_static": token for name, token in self.static.items()}

    def token_a(self, platform: str) -> str:
        return self.tokens_a[platform].pop()

    def register(self, *platforms: str) -> None:
        for name in platforms:
            self.peers[name].register(f"{self.service.url}/ocpi/versions", self.token_a(name))

    def seen(self) -> dict[str, Object]:
        """The peers as the hub sees them."""
        return {each["platform"]: each for each in self.service.get("hub", "/clearing/peers").json()}


def urlhost(url: str) -> str:
    return httpx.URL(url).netloc.decode()


@pytest.fixture
def hub(make: Make, tmp_path: Path) -> Iterator[Hub]:
    made = Hub(make, tmp_path)
    yield made
    for peer in made.peers.values():
        peer.close()
        peer.client.close()
        assert peer.faults == []


def refusal(work: Callable[[], object]) -> tuple[int, int]:
    """The HTTP status and the status code of a request that is refused."""
    with pytest.raises(OcpiError) as error:
        work()
    return error.value.answer.http, error.value.answer.status_code


def test_registration(hub: Hub) -> None:
    bec = hub.peers["bec"]
    versions = f"{hub.service.url}/ocpi/versions"
    token_a = hub.token_a("bec")
    bec.register(versions, token_a)
    assert bec.hub == HUB and bec.token != token_a
    token_c = bec.token
    given = bec.call("GET", bec.credentials_url).data
    assert given["token"] == token_c and given["url"] == versions
    assert refusal(lambda: bec.call("POST", bec.credentials_url, json=bec.credentials())) == (405, 2000)
    bec.token = token_a
    assert refusal(lambda: bec.call("GET", versions)) == (401, 2000)
    bec.token = token_c
    bec.update()
    assert bec.token != token_c
    after, bec.token = bec.token, token_c
    assert refusal(lambda: bec.call("GET", versions)) == (401, 2000)
    bec.token = after
    assert hub.seen()["bec"]["roles"] == [{"role": "CPO", "party": "BE/BEC"}]
    bec.unregister()
    assert refusal(lambda: bec.call("GET", versions)) == (401, 2000)
    assert hub.seen() == {}
    hub.register("bec")
    assert hub.seen()["bec"]["status"] == "CONNECTED"


def test_what_token_a_may_do(hub: Hub) -> None:
    bec = hub.peers["bec"]
    bec.token = hub.token_a("bec")
    bec.discover(f"{hub.service.url}/ocpi/versions")
    assert bec.call("GET", bec.credentials_url).data["token"] == bec.token
    assert refusal(lambda: bec.put("tariffs", "12", TARIFF))[0] == 401
    assert refusal(lambda: bec.pull("tokens"))[0] == 401
    for method in ("PUT", "DELETE"):
        assert refusal(lambda: bec.call(method, bec.credentials_url, json=bec.credentials())) == (405, 2000)
    headers = {"Authorization": f"Token {bec.token}"}
    assert hub.service.get(None, "/clearing/sender", headers=headers).status_code == 401


def test_a_token_of_the_file_registers_nobody(hub: Hub) -> None:
    bec = hub.peers["bec"]
    bec.token = hub.static["bec"]
    bec.discover(f"{hub.service.url}/ocpi/versions")
    for method in ("POST", "PUT", "DELETE"):
        assert refusal(lambda: bec.call(method, bec.credentials_url, json=bec.credentials())) == (405, 2000)


MALFORMED: list[tuple[Object, tuple[int, int]]] = [
    ({"token": ""}, (400, 2001)),
    ({"token": "x" * 65}, (400, 2001)),
    ({"token": 7}, (400, 2001)),
    ({"url": "ftp://127.0.0.1/versions"}, (400, 2001)),
    ({"url": "http://127.0.0.1:1/versions"}, (400, 2001)),
    ({"url": "http://user@127.0.0.1:1/versions"}, (400, 2001)),
    ({"roles": []}, (400, 2001)),
    ({"roles": [{"role": "NAP", "country_code": "BE", "party_id": "BEC"}]}, (400, 2001)),
    ({"roles": [{"role": "EMSP", "country_code": "BE", "party_id": "BEC"}]}, (200, 2000)),
    ({"roles": [{"role": "CPO", "country_code": "NL", "party_id": "CPB"}]}, (200, 2000)),
    ({"roles": [{"role": "CPO", "country_code": "XX", "party_id": "XXX"}]}, (200, 2000)),
    ({"roles": [7]}, (400, 2001)),
    ({"token": "wrong"}, (200, 3001)),
]


def test_credentials_that_are_refused(hub: Hub) -> None:
    bec = hub.peers["bec"]
    bec.token = token_a = hub.token_a("bec")
    bec.discover(f"{hub.service.url}/ocpi/versions")
    for changes, wanted in MALFORMED:
        given = {**bec.credentials(), **changes}
        found = refusal(lambda: bec.call("POST", bec.credentials_url, json=given))
        assert found == wanted, changes
    assert hub.seen() == {}
    bec.register(f"{hub.service.url}/ocpi/versions", token_a)
    assert list(hub.seen()) == ["bec"]


OTHERWISE: list[tuple[Any, Any, int]] = [
    ([{"version": "2.1.1", "url": "URL/2.1.1"}], None, 3002),
    ([{"version": "2.2.1", "url": "http://127.0.0.1:1/"}], None, 3002),
    ({"version": "2.2.1"}, None, 3001),
    (None, {"version": "2.2.1"}, 3001),
    (None, {"endpoints": []}, 3003),
    (None, {"endpoints": [{"identifier": "cdrs", "role": "RECEIVER", "url": "URL/x"}]}, 3003),
    (None, {"endpoints": [{"identifier": "credentials", "role": "SENDER", "url": "gopher://x"}]}, 3003),
    (None, {"endpoints": [7]}, 3001),
]


def test_a_peer_whose_versions_are_otherwise(hub: Hub, monkeypatch: pytest.MonkeyPatch) -> None:
    bec = hub.peers["bec"]
    respond = bec.respond
    versions: Any = None
    details: Any = None

    def other(request: Any, http: int, status_code: int, data: Any) -> None:
        text = request.path.rpartition("/")[2]
        chosen = versions if text == "versions" and versions is not None else data
        chosen = details if text == "2.2.1" and details is not None else chosen
        respond(request, http, status_code, json.loads(json.dumps(chosen).replace("URL", bec.url)))

    monkeypatch.setattr(bec, "respond", other)
    token_a = hub.token_a("bec")
    for versions, details, wanted in OTHERWISE:
        found = refusal(lambda: bec.register(f"{hub.service.url}/ocpi/versions", token_a))
        assert found == (200, wanted), (versions, details)
        assert hub.seen() == {}


def test_tokens_at_rest(hub: Hub) -> None:
    """Neither the tokens of the peers nor those by which they are called can be read in a file of the service."""
    hub.register("bec", "tnm")
    folder = hub.service.folder
    files = [path for path in folder.rglob("*") if path.is_file() and path.name != "config.json"]
    if not hub.service.settings.is_postgres:
        files += [path for path in Path(hub.service.settings.store).iterdir()]
        assert Path(hub.service.settings.store, "service-records") in files
    texts = b"".join(path.read_bytes() for path in files)
    for name in ("bec", "tnm"):
        for token in (hub.peers[name].token, *hub.peers[name].tokens):
            assert token.encode() not in texts
    for path in files:
        assert path.stat().st_mode & 0o077 == 0 or path.name == "requests", path


def test_a_registration_outlasts_a_restart(hub: Hub) -> None:
    hub.register("bec", "tnm")
    hub.service.stop()
    hub.service.start()
    assert set(hub.seen()) == {"bec", "tnm"}
    hub.peers["tnm"].put("tokens", TOKEN["uid"], TOKEN)
    assert wait_until(lambda: hub.peers["bec"].names("tokens") == [TOKEN["uid"]])


def test_each_announced_url_answers(hub: Hub) -> None:
    hub.register("bec", "tnm")
    bec, tnm = hub.peers["bec"], hub.peers["tnm"]
    tnm.put("tokens", TOKEN["uid"], TOKEN)
    bec.put("tariffs", "12", TARIFF)
    location = bec.post_cdr(CDR)
    announced = set(bec.endpoints)
    assert announced == {
        ("credentials", "SENDER"),
        ("hubclientinfo", "SENDER"),
        *((module, role) for module in ("tariffs", "tokens", "cdrs") for role in ("SENDER", "RECEIVER")),
    }
    for module in ("tariffs", "tokens", "cdrs", "hubclientinfo"):
        assert bec.call("GET", bec.endpoints[module, "SENDER"]).http == 200
    assert bec.call("GET", bec.credentials_url).http == 200
    assert bec.get("tariffs", "12") == TARIFF
    assert tnm.get("tokens", TOKEN["uid"], type="RFID") == TOKEN
    assert bec.call("GET", location).data == CDR == tnm.call("GET", location).data
    hub.register("oth")
    assert refusal(lambda: hub.peers["oth"].call("GET", location))[0] == 404


def test_tokens_are_put_read_and_patched(hub: Hub) -> None:
    hub.register("tnm", "oth")
    tnm, oth = hub.peers["tnm"], hub.peers["oth"]
    for given in (TOKEN, APP_USER):
        tnm.put("tokens", given["uid"], given)
        assert tnm.get("tokens", given["uid"], type=given["type"]) == given
    assert refusal(lambda: tnm.get("tokens", APP_USER["uid"])) == (404, 2004)
    later = {"valid": False, "last_updated": "2015-06-30T22:39:09Z"}
    tnm.patch("tokens", TOKEN["uid"], later)
    assert tnm.get("tokens", TOKEN["uid"]) == {**TOKEN, **later}
    assert refusal(lambda: tnm.patch("tokens", TOKEN["uid"], {"valid": True})) == (400, 2001)
    assert refusal(lambda: tnm.patch("tokens", "none", later)) == (404, 2004)
    assert refusal(lambda: tnm.patch("tokens", TOKEN["uid"], {**later, "uid": "x"})) == (400, 2001)
    refused = refusal(lambda: tnm.patch("tokens", TOKEN["uid"], {**later, "valid": "yes"}))
    assert refused == (200, 2001)
    url = tnm.url_of("tokens", TOKEN["uid"])
    for method, body in (("GET", None), ("PATCH", later), ("PUT", TOKEN)):
        assert refusal(lambda: oth.call(method, url, HUB, json=body))[0] == 404


def test_patches_at_once(hub: Hub) -> None:
    """None of them undoes another one."""
    hub.register("tnm")
    tnm = hub.peers["tnm"]
    tnm.put("tokens", TOKEN["uid"], TOKEN)
    notes = {f"note{number}": number for number in range(12)}

    def patch(name: str) -> None:
        tnm.patch("tokens", TOKEN["uid"], {"last_updated": TOKEN["last_updated"], name: notes[name]})

    with ThreadPoolExecutor(12) as pool:
        list(pool.map(patch, notes))
    assert tnm.get("tokens", TOKEN["uid"]) == {**TOKEN, **notes}


def test_tariffs_are_put_read_and_deleted(hub: Hub) -> None:
    hub.register("bec", "tnm", "cpb")
    bec, tnm = hub.peers["bec"], hub.peers["tnm"]
    newer = changed(TARIFF, last_updated="2015-03-02T14:15:01Z")
    bec.put("tariffs", "12", newer)
    bec.put("tariffs", "12", TARIFF)
    assert bec.get("tariffs", "12") == newer
    assert tnm.pull("tariffs") == [newer] and hub.peers["cpb"].pull("tariffs") == []
    bec.delete("tariffs", "12")
    assert refusal(lambda: bec.get("tariffs", "12"))[0] == 404
    assert refusal(lambda: bec.delete("tariffs", "12"))[0] == 404
    assert tnm.pull("tariffs") == [] == bec.pull("tariffs")
    tnm.put("tokens", TOKEN["uid"], TOKEN)
    assert bec.call("GET", bec.post_cdr(CDR)).data == CDR
    hub.service.stop()
    hub.service.start()
    assert tnm.pull("tariffs") == []
    bec.put("tariffs", "12", TARIFF)
    assert tnm.pull("tariffs") == [newer]
    url = bec.url_of("tariffs", "12")
    for method in ("GET", "DELETE"):
        assert refusal(lambda: hub.peers["cpb"].call(method, url, HUB))[0] == 404


def test_authorization_by_the_token_alone(hub: Hub) -> None:
    """A request to the hub's own party is answered by the provider of the token."""
    hub.register("bec", "tnm", "oth")
    bec, tnm, oth = (hub.peers[name] for name in ("bec", "tnm", "oth"))
    tnm.put("tokens", TOKEN["uid"], TOKEN)
    answer = bec.authorize(TOKEN["uid"])
    assert answer.data["allowed"] == "ALLOWED" and answer.data["token"] == TOKEN
    assert answer.headers["OCPI-from-country-code"] == "DE" and answer.headers["OCPI-from-party-id"] == "TNM"
    assert refusal(lambda: bec.authorize("nobody's")) == (404, 2004)
    other = changed(TOKEN, country_code="FR", party_id="OTH")
    oth.put("tokens", TOKEN["uid"], other)
    assert refusal(lambda: bec.authorize(TOKEN["uid"])) == (400, 2001)
    assert bec.authorize(TOKEN["uid"], ("FR", "OTH")).data["token"] == other
    assert refusal(lambda: bec.authorize(TOKEN["uid"], ("XX", "XXX"))) == (200, 4001)


def test_routing_headers(hub: Hub) -> None:
    hub.register("bec", "tnm")
    bec, url = hub.peers["bec"], hub.peers["bec"].endpoints["tokens", "SENDER"]
    other = {"OCPI-from-country-code": "NL", "OCPI-from-party-id": "CPB"}
    with pytest.raises(OcpiError) as error:
        bec.call("GET", url, headers=other)
    assert (error.value.answer.http, error.value.answer.status_code) == (404, 2000)
    hub.service.tokens["bec"] = bec.token
    for wrong in ({"OCPI-from-country-code": "BE"}, {"OCPI-to-party-id": "TNM"}):
        response = hub.service.get("bec", "/ocpi/2.2.1/tokens", headers=wrong)
        assert (response.status_code, response.json()["status_code"]) == (400, 2001)
    answer = bec.call("GET", url, ("de", "tnm"))
    assert answer.headers["OCPI-from-party-id"] == "tnm" and answer.headers["OCPI-to-party-id"] == "BEC"
    assert "OCPI-from-party-id" not in bec.call("GET", url).headers


def many_cdrs(count: int) -> list[Object]:
    """CDRs that were updated a minute after one another."""
    return [
        changed(CDR, id=f"C{nth:03}", last_updated=f"2015-06-29T{22 + nth // 60}:{nth % 60:02}:00Z")
        for nth in range(count)
    ]


def test_pages_of_cdrs(hub: Hub) -> None:
    hub.register("bec", "tnm", "cpb")
    bec, tnm = hub.peers["bec"], hub.peers["tnm"]
    tnm.put("tokens", TOKEN["uid"], TOKEN)
    bec.put("tariffs", "12", TARIFF)
    made = many_cdrs(23)
    for each in made:
        bec.post_cdr(each)
    booked = {"clearing": {"amount": "4.0000", "period": 0, "credited": False}}
    wanted = [{**each, **booked} for each in made]
    for peer in (bec, tnm):
        for limit in (1, 7, 23, 100):
            assert peer.pull("cdrs", limit=limit) == wanted
        assert peer.pull("cdrs", limit=5, offset=20) == wanted[20:]
        assert peer.pull("cdrs", offset=23) == []
        dates = {"date_from": "2015-06-29T22:05:00Z", "date_to": "2015-06-29T22:10:00.000Z"}
        assert peer.pull("cdrs", limit=2, **dates) == wanted[5:10]
        assert peer.pull("cdrs", date_from="2015-06-29T22:05:00.001Z", limit=9) == wanted[6:]
    assert hub.peers["cpb"].pull("cdrs") == []
    first = bec.call("GET", bec.endpoints["cdrs", "SENDER"], HUB, params={"limit": 2})
    assert first.headers["X-Total-Count"] == "23" and first.headers["X-Limit"] == "100"


def test_pages_that_are_malformed(hub: Hub) -> None:
    hub.service.tokens["bec"] = hub.static["bec"]
    for query in ("limit=0", "limit=-1", "limit=x", "offset=-1", "date_from=now", "date_to=2015-06-29"):
        for module in ("cdrs", "tariffs", "tokens", "hubclientinfo"):
            response = hub.service.get("bec", f"/ocpi/2.2.1/{module}?{query}")
            assert (response.status_code, response.json()["status_code"]) == (400, 2001), query


def test_long_objects_make_short_pages(hub: Hub) -> None:
    hub.register("tnm", "bec")
    tnm, bec = hub.peers["tnm"], hub.peers["bec"]
    made = [changed(TOKEN, uid=f"U{nth}", note="x" * 900_000) for nth in range(5)]
    for each in made:
        tnm.put("tokens", each["uid"], each)
    first = bec.call("GET", bec.endpoints["tokens", "SENDER"], HUB)
    assert len(first.data) == 3 and first.headers["X-Total-Count"] == "5"
    assert bec.pull("tokens") == made


def test_the_clients_of_the_hub(hub: Hub) -> None:
    hub.register("bec")
    bec = hub.peers["bec"]
    rows = bec.pull("hubclientinfo", limit=3)
    statuses = {(each["country_code"], each["party_id"], each["role"]): each["status"] for each in rows}
    assert statuses == {
        ("BE", "BEC", "CPO"): "CONNECTED",
        ("NL", "CPB", "CPO"): "PLANNED",
        ("DE", "TNM", "EMSP"): "PLANNED",
        ("FR", "OTH", "EMSP"): "PLANNED",
    }
    hub.register("tnm")
    tnm = hub.peers["tnm"]
    bec.close()
    tnm.put("tokens", TOKEN["uid"], TOKEN)

    def status() -> str:
        return {each["party_id"]: str(each["status"]) for each in tnm.pull("hubclientinfo")}["BEC"]

    assert wait_until(lambda: status() == "OFFLINE")
    bec.open()
    assert wait_until(lambda: status() == "CONNECTED")
    assert wait_until(lambda: bec.names("tokens") == [TOKEN["uid"]])


ENERGY: Object = {
    "country_code": "NL",
    "party_id": "CPB",
    "id": "E",
    "currency": "EUR",
    "elements": [{"price_components": [{"type": "ENERGY", "price": 0.25, "step_size": 1}]}],
    "last_updated": "2015-02-02T14:15:01Z",
}


def energy_cdr(name: str, kwh: int, token: Object, **members: Any) -> Object:
    """A CDR of the second operator."""
    made = changed(CDR, country_code="NL", party_id="CPB", id=name, tariffs=[ENERGY], total_energy=kwh)
    made["charging_periods"][0] |= {"dimensions": [{"type": "ENERGY", "volume": kwh}], "tariff_id": "E"}
    made["total_cost"] = {"excl_vat": kwh * 0.25}
    made["cdr_token"] = {
        name: token[name] for name in ("country_code", "party_id", "uid", "type", "contract_id")
    }
    return {**made, **members}


def sums(rows: list[Object], period: int) -> dict[str, Decimal]:
    """What the CDRs of a period come to for each operator."""
    found: dict[str, Decimal] = {}
    for each in rows:
        if each["clearing"]["period"] == period:
            operator = f"{each['country_code']}/{each['party_id']}"
            found[operator] = found.get(operator, Decimal(0)) + Decimal(each["clearing"]["amount"])
    return found


def a_day(hub: Hub, day: int) -> None:
    """Two sessions of authorised drivers, one at each operator."""
    bec, cpb = hub.peers["bec"], hub.peers["cpb"]
    info = bec.authorize(TOKEN["uid"]).data
    bec.post_cdr(changed(CDR, id=f"B{day}", authorization_reference=info["authorization_reference"]))
    info = cpb.authorize(APP_USER["uid"], type="APP_USER").data
    reference = info["authorization_reference"]
    cpb.post_cdr(energy_cdr(f"E{day}", 1 + day, APP_USER, authorization_reference=reference))


def test_a_month_of_peers(hub: Hub) -> None:
    """Two operators and a provider register, charge, credit and pull; the hub closes two periods, and all sums agree."""
    hub.register("bec", "cpb", "tnm")
    bec, cpb, tnm = (hub.peers[name] for name in ("bec", "cpb", "tnm"))
    for token in (TOKEN, APP_USER):
        tnm.put("tokens", token["uid"], token)
    bec.put("tariffs", "12", TARIFF)
    cpb.put("tariffs", "E", ENERGY)
    for day in range(8):
        a_day(hub, day)
    credited = changed(CDR, id="B3-C", credit=True, credit_reference_id="B3", total_cost={"excl_vat": -4.00})
    bec.post_cdr(credited)
    assert hub.service.send("hub", "POST", "/clearing/close", json={"period": 0}).status_code == 200
    for day in range(8, 12):
        a_day(hub, day)
    cpb.post_cdr(
        energy_cdr("E5-C", 6, APP_USER, credit=True, credit_reference_id="E5", total_cost={"excl_vat": -1.5})
    )
    assert hub.service.send("hub", "POST", "/clearing/close", json={"period": 1}).status_code == 200
    assert refusal(lambda: bec.post_cdr(changed(CDR, id="B1", total_energy=15.343)))[0] == 200
    for owner, of in ((bec, ("BE/BEC",)), (cpb, ("NL/CPB",)), (tnm, ("BE/BEC", "NL/CPB"))):
        pulled = owner.pull("cdrs", limit=5)
        for period in (0, 1):
            found = sums(pulled, period)
            assert set(found) == set(of)
            rows = hub.service.get("hub", f"/clearing/statements/{period}/DE-TNM").json()["rows"]
            assert {row["counterpart"]: Decimal(row["payable"]) for row in rows}.items() >= found.items()
    assert wait_until(lambda: len(tnm.names("cdrs")) == 26)
    assert sorted(tnm.names("cdrs")) == sorted(each["id"] for each in tnm.pull("cdrs"))
    assert tnm.pull("cdrs")[-1]["id"] == "E5-C" and hub.service.get("hub", "/clearing/holds").json() == []
    settled = {"provider": "DE/TNM", "currency": "EUR", "period": 0}
    assert hub.service.send("hub", "POST", "/clearing/settlements", json=settled).status_code == 200
    (row,) = [each for each in bec.pull("cdrs") if each["id"] == "B3"]
    assert row["clearing"] == {"amount": "4.0000", "period": 0, "credited": True}
    for peer in (bec, cpb, tnm):
        peer.unregister()
    assert hub.seen() == {}
