"""What is delivered to peers: to whom, in which order, again and again until it is taken, and also after a restart."""

from __future__ import annotations

import asyncio
import contextlib
from collections.abc import Iterator
from dataclasses import replace
from pathlib import Path
from typing import Any

import pytest
from clear_service import outbox
from clear_service.peer_calls import CallError, Refused, data_of

from conftest import Make, MakeStore, wait_until
from examples import Object, changed, line
from ocpi_peer import CDR, TARIFF, TOKEN, Behaviour, OcpiPeer
from test_operation import figures
from test_peers import Hub


@pytest.fixture
def hub(make: Make, tmp_path: Path) -> Iterator[Hub]:
    """A hub at which an operator and a provider have registered; the CDRs of the example are accepted."""
    made = Hub(make, tmp_path)
    prepare(made)
    yield made
    ended(made)


def prepare(hub: Hub) -> None:
    hub.register("bec", "tnm")
    hub.peers["tnm"].put("tokens", TOKEN["uid"], TOKEN)
    hub.peers["bec"].put("tariffs", TARIFF["id"], TARIFF)
    assert wait_until(lambda: hub.peers["bec"].names("tokens") and hub.peers["tnm"].names("tariffs"))


def ended(hub: Hub) -> None:
    for peer in hub.peers.values():
        peer.close()
        peer.client.close()
        assert peer.faults == []


def cdrs(*names: str) -> list[Object]:
    return [changed(CDR, id=name) for name in names]


def post(hub: Hub, *names: str) -> None:
    for each in cdrs(*names):
        hub.peers["bec"].post_cdr(each)


def have_come(peer: OcpiPeer, *names: str) -> bool:
    """Whether these CDRs have come, in this order and each at least once."""
    return wait_until(lambda: list(dict.fromkeys(peer.names("cdrs"))) == list(names))


def ids_of(peer: OcpiPeer, name: str) -> list[str]:
    """The request ids of all attempts to deliver the CDR."""
    attempts = [each for each in peer.refused + peer.received if (each.object or {}).get("id") == name]
    return [each.headers["x-request-id"] for each in attempts]


def test_each_object_goes_to_whom_it_concerns(hub: Hub) -> None:
    hub.register("cpb", "oth")
    bec, tnm, cpb, oth = (hub.peers[name] for name in ("bec", "tnm", "cpb", "oth"))
    later = changed(TOKEN, valid=True, last_updated="2016-06-29T22:39:09Z")
    tnm.put("tokens", TOKEN["uid"], later)
    second = changed(TARIFF, id="13")
    bec.put("tariffs", "13", second)
    post(hub, "A")
    hub.service.tokens["bec"] = bec.token
    credit = changed(CDR, id="A-C", credit=True, credit_reference_id="A", total_cost={"excl_vat": -4.00})
    answers = hub.service.lines(
        "bec", line("post", cdr=credit), line("post", cdr=changed(CDR, currency="USD"))
    )
    assert [each.get("answer") for each in answers] == ["Accepted", None]
    assert have_come(tnm, "A", "A-C")
    assert wait_until(lambda: cpb.names("tokens") == [TOKEN["uid"]] and oth.names("tariffs") == ["13"])
    assert bec.names("tokens") == [TOKEN["uid"]] * 2 and tnm.names("tariffs") == ["12", "13"]
    assert [each.object for each in tnm.received if each.method == "POST"] == [changed(CDR, id="A"), credit]
    assert cpb.received[0].object == later and cpb.received[0].query == {"type": "RFID"}
    assert cpb.received[0].path.endswith("/receiver/tokens/DE/TNM/" + TOKEN["uid"])
    assert oth.received[0].object == second and oth.received[0].path.endswith("/tariffs/BE/BEC/13")
    (sent,) = [each.headers for each in tnm.received if (each.object or {}).get("id") == "A"]
    assert (sent["ocpi-from-country-code"], sent["ocpi-from-party-id"]) == ("BE", "BEC")
    assert len(oth.received) == 1 and oth.names("cdrs") == [] == bec.names("cdrs") == cpb.names("cdrs")
    assert wait_until(lambda: {each["waiting"] for each in hub.seen().values()} == {0})


def test_a_peer_that_is_down_and_comes_back(hub: Hub) -> None:
    """Also after a restart of the service meanwhile; it is seen in /health, /metrics and the list of peers."""
    tnm = hub.peers["tnm"]
    tnm.close()
    post(hub, "A", "B", "C")
    assert wait_until(lambda: hub.seen()["tnm"]["waiting"] == 3 and hub.seen()["tnm"]["status"] == "OFFLINE")
    assert any("3 objects wait for tnm" in each for each in hub.service.health()["warnings"])
    assert figures(hub.service, "clear_peer_waiting") == {("bec",): 0, ("tnm",): 3}
    assert figures(hub.service, "clear_peer_connected") == {("bec",): 1, ("tnm",): 0}
    hub.service.stop()
    hub.service.start()
    post(hub, "D")
    assert wait_until(lambda: hub.seen()["tnm"]["waiting"] == 4)
    tnm.open()
    assert have_come(tnm, "A", "B", "C", "D")
    assert wait_until(
        lambda: hub.seen()["tnm"]["waiting"] == 0 and hub.seen()["tnm"]["status"] == "CONNECTED"
    )
    assert hub.service.health()["warnings"] == []
    assert figures(hub.service, "clear_peer_sent")[("tnm",)] == 4


def test_nothing_is_delivered_twice_after_a_restart(hub: Hub) -> None:
    post(hub, "A", "B")
    assert have_come(hub.peers["tnm"], "A", "B")
    hub.service.stop()
    hub.service.start()
    post(hub, "C")
    assert have_come(hub.peers["tnm"], "A", "B", "C")
    assert hub.peers["tnm"].names("cdrs") == ["A", "B", "C"]


def test_a_peer_that_is_slow(make: Make, tmp_path: Path) -> None:
    """An attempt that takes too long is repeated, with the same ids; other peers do not wait."""
    hub = Hub(make, tmp_path)
    prepare(hub)
    hub.service.app._app.state.outbox.calls._settings = replace(hub.service.settings, peer_seconds=2)  # type: ignore[attr-defined]
    tnm, bec = hub.peers["tnm"], hub.peers["bec"]
    tnm.behaviour = Behaviour(seconds=5)
    post(hub, "A", "B")
    assert wait_until(lambda: "no answer within 2 seconds" in str(hub.seen()["tnm"]["failure"]))
    tnm.put("tokens", "second", changed(TOKEN, uid="second"))
    assert wait_until(lambda: bec.names("tokens") == [TOKEN["uid"], "second"])
    tnm.behaviour = Behaviour()
    assert have_come(tnm, "A", "B")
    assert wait_until(lambda: hub.seen()["tnm"]["waiting"] == 0 and len(ids_of(tnm, "A")) > 1)
    assert len(set(ids_of(tnm, "A"))) == 1
    assert ids_of(tnm, "A")[0] != ids_of(tnm, "B")[0]
    ended(hub)


def test_a_peer_that_cannot_take_it_now(hub: Hub) -> None:
    tnm = hub.peers["tnm"]
    tnm.behaviour = Behaviour(500, 3000)
    post(hub, "A", "B")
    assert wait_until(lambda: len(ids_of(tnm, "A")) > 1)
    assert hub.seen()["tnm"]["waiting"] == 2 and hub.seen()["tnm"]["refused"] == []
    tnm.behaviour = Behaviour()
    assert have_come(tnm, "A", "B")
    assert len(set(ids_of(tnm, "A"))) == 1 and len(ids_of(tnm, "B")) == 1


@pytest.mark.parametrize(
    "status, body, wanted",
    [
        (200, b'{"status_code":1000,"data":[1]}', None),
        (201, b'{"status_code":1999}', None),
        (200, b'{"status_code":2001,"status_message":"no"}', Refused),
        (400, b'{"status_code":2999}', Refused),
        (404, b'{"status_code":2003}', Refused),
        (200, b'{"status_code":3001}', CallError),
        (200, b'{"status_code":4002}', CallError),
        (200, b'{"status_code":"x"}', CallError),
        (200, b'{"data":[]}', CallError),
        (200, b"[]", CallError),
        (204, b"", CallError),
        (404, b"<html>", CallError),
        (302, b'{"status_code":1000}', CallError),
        *((status, b'{"status_code":2000}', CallError) for status in (401, 403, 408, 429, 500, 503)),
    ],
)
def test_what_a_response_says(status: int, body: bytes, wanted: type[CallError] | None) -> None:
    """Taken, refused for good, or to be sent again."""
    found: type[Exception] | None = None
    try:
        data_of(status, body)
    except CallError as error:
        found = type(error)
    assert found is wanted


def test_a_peer_that_refuses_an_object(hub: Hub) -> None:
    """The others go on; a hub sees what was refused, also after a restart, and sends it again."""
    tnm = hub.peers["tnm"]
    tnm.behaviour = Behaviour(200, 2001, only="B")
    post(hub, "A", "B", "C")
    assert have_come(tnm, "A", "C")
    hub.service.stop()
    hub.service.start()
    (refused,) = hub.seen()["tnm"]["refused"]
    assert (refused["module"], refused["owner"], refused["id"]) == ("cdrs", "BE/BEC", "B")
    assert "status code 2001" in refused["reason"]
    assert any("tnm has refused 1 object" in each for each in hub.service.health()["warnings"])
    again = "/clearing/peers/tnm/refused"
    assert len(hub.service.send("hub", "POST", again).json()) == 1
    assert hub.service.send("bec_static", "POST", again).status_code == 403
    tnm.behaviour = Behaviour()
    assert hub.service.send("hub", "POST", again).json() == []
    assert tnm.names("cdrs") == ["A", "C", "B"] and len(set(ids_of(tnm, "B"))) == 1
    assert hub.seen()["tnm"]["refused"] == []


def test_what_was_there_before_a_registration_is_pulled(hub: Hub) -> None:
    post(hub, "A")
    hub.register("oth", "cpb")
    hub.peers["bec"].put("tariffs", "13", changed(TARIFF, id="13"))
    oth, cpb = hub.peers["oth"], hub.peers["cpb"]
    assert wait_until(lambda: oth.names("tariffs") == ["13"])
    assert [each["id"] for each in oth.pull("tariffs")] == ["12", "13"]
    assert [each["uid"] for each in cpb.pull("tokens")] == [TOKEN["uid"]] and cpb.received == []


def test_many_objects_for_a_peer_that_is_down(hub: Hub, monkeypatch: pytest.MonkeyPatch) -> None:
    """More than are listed at once: the others are found in the store later."""
    monkeypatch.setattr(outbox, "MOST", 4)
    tnm = hub.peers["tnm"]
    tnm.close()
    names = [f"N{number:02}" for number in range(15)]
    post(hub, *names)
    assert wait_until(lambda: hub.seen()["tnm"]["status"] == "OFFLINE" and hub.seen()["tnm"]["waiting"] >= 4)
    tnm.open()
    assert have_come(tnm, *names)
    assert wait_until(lambda: hub.seen()["tnm"]["waiting"] == 0)


def test_a_hub_ends_a_registration(hub: Hub) -> None:
    tnm = hub.peers["tnm"]
    tnm.close()
    post(hub, "A")
    assert wait_until(lambda: hub.seen()["tnm"]["waiting"] == 1)
    assert hub.service.send("hub", "DELETE", "/clearing/peers/tnm").json() == {"ended": "tnm"}
    assert list(hub.seen()) == ["bec"]
    tnm.open()
    hub.register("tnm")
    post(hub, "B")
    assert have_come(tnm, "B")


def test_a_change_of_the_registration_loses_nothing(hub: Hub) -> None:
    tnm = hub.peers["tnm"]
    tnm.behaviour = Behaviour(500, 3000)
    post(hub, "A", "B")
    assert wait_until(lambda: len(ids_of(tnm, "A")) > 0)
    tnm.update()
    tnm.behaviour = Behaviour()
    assert have_come(tnm, "A", "B")
    assert len(set(ids_of(tnm, "A"))) == 1


def test_a_key_that_is_another_one(hub: Hub) -> None:
    key = Path(hub.service.settings.tokens + ".key")
    kept = key.read_bytes()
    key.unlink()
    post(hub, "A")
    assert wait_until(lambda: "the key" in str(hub.seen()["tnm"]["failure"]))
    key.write_bytes(kept)
    assert have_come(hub.peers["tnm"], "A")


def test_only_a_hub_sees_peers(hub: Hub) -> None:
    for platform in ("bec_static", "tnm_static"):
        assert hub.service.get(platform, "/clearing/peers").status_code == 403
        assert hub.service.send(platform, "DELETE", "/clearing/peers/bec").status_code == 403


def test_of_several_services_one_delivers(
    make: Make, make_store: MakeStore, tmp_path: Path, engine: str
) -> None:
    if engine != "postgresql":
        pytest.skip("of the engine over PostgreSQL")
    store = make_store()
    hub = Hub(make, tmp_path, store=store)
    prepare(hub)
    other: Any = make(store, folder=tmp_path, peer_hosts=hub.service.settings.peer_hosts)
    tnm = hub.peers["tnm"]
    post(hub, "A", "B")
    assert have_come(tnm, "A", "B")
    token = {"Authorization": f"Token {tnm.token}"}
    assert wait_until(lambda: other.get(None, "/ocpi/versions", headers=token).status_code == 200)
    tnm.close()
    post(hub, "A2")
    other.tokens["hub"] = hub.service.tokens["hub"]

    def state() -> tuple[str, int]:
        (seen,) = [each for each in other.get("hub", "/clearing/peers").json() if each["platform"] == "tnm"]
        return seen["status"], seen["waiting"]

    assert wait_until(lambda: state() == ("OFFLINE", 1))
    tnm.open()
    assert have_come(tnm, "A", "B", "A2")
    assert wait_until(lambda: state() == ("CONNECTED", 0))
    hub.service.stop()
    hub.peers["bec"].endpoints = {
        name: url.replace(hub.service.url, other.url) for name, url in hub.peers["bec"].endpoints.items()
    }
    post(hub, "C")
    assert have_come(tnm, "A", "B", "A2", "C")
    assert tnm.names("cdrs") == ["A", "B", "A2", "C"]
    ended(hub)


def test_a_change_of_records_that_is_cancelled(make: Make) -> None:
    """It is made whole or not at all, and the next one is made."""
    service = make()
    records = service.app._app.state.outbox.peers.records  # type: ignore[attr-defined]
    engine = service.app._app.state.house.engine  # type: ignore[attr-defined]

    async def change() -> None:
        for steps in range(30):
            task = asyncio.create_task(
                records.change({("x", "one"): {"n": steps}, ("x", "two"): {"n": steps}})
            )
            for _ in range(steps):
                await asyncio.sleep(0.0005)
            task.cancel()
            with contextlib.suppress(asyncio.CancelledError):
                await task
            found = await records.load()
            assert found.get(("x", "one")) == found.get(("x", "two"))
        await records.change({("x", "one"): None})
        assert await records.load() == {("x", "two"): {"n": steps}}

    asyncio.run_coroutine_threadsafe(change(), engine._runner.get_loop()).result(180)
