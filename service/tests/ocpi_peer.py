"""An OCPI 2.2.1 platform of its own, on httpx and the standard library, written from the text of the standard alone.

It is an operator or a provider: it serves its versions, its endpoints and the receivers of the modules that its role has, registers at
another platform, puts, posts, asks and pulls. It checks what the standard says of requests and responses, and knows nothing of the hub.
"""

from __future__ import annotations

import base64
import json
import re
import secrets
import socket
import threading
import uuid
from dataclasses import dataclass
from http.server import BaseHTTPRequestHandler, ThreadingHTTPServer
from typing import Any
from urllib.parse import parse_qsl, quote, urlsplit

import httpx

Object = dict[str, Any]
DATE_TIME = re.compile(r"\d{4}-\d\d-\d\dT\d\d:\d\d:\d\d(\.\d+)?Z?")
NEXT = re.compile(r'<([^>]+)>\s*;\s*rel="next"')
RECEIVED = {"CPO": ("tokens",), "EMSP": ("tariffs", "cdrs")}
CONFIGURATION_MODULES = (
    "credentials",
    "versions",
    "hubclientinfo",
)  # without routing headers: chapter 4, Message Routing


def in_base64(token: str) -> str:
    """The token as the header Authorization has it: chapter 4, Authorization header."""
    return base64.b64encode(token.encode()).decode()


@dataclass
class Received:
    """A request to one of the receivers."""

    method: str
    path: str
    query: dict[str, str]
    headers: dict[str, str]
    object: Object | None


@dataclass
class Answer:
    """A response by chapter 4: its envelope and its headers."""

    http: int
    status_code: int
    data: Any
    headers: httpx.Headers


class OcpiError(Exception):
    """A response with a status code of 2000 or more."""

    def __init__(self, answer: Answer, message: str) -> None:
        super().__init__(f"{answer.http} {answer.status_code} {message}")
        self.answer = answer


@dataclass
class Behaviour:
    """How the receivers answer: a status in the place of 200, an OCPI status code in the place of 1000, and after how many seconds."""

    http: int = 200
    status_code: int = 1000
    seconds: float = 0.0
    only: str = ""  # the objects of this id alone


class OcpiPeer:
    """A platform with one party. `received` has all requests to its receivers that it took, in their order."""

    def __init__(self, role: str, country_code: str, party_id: str, name: str) -> None:
        self.role, self.country_code, self.party_id, self.name = role, country_code, party_id, name
        self.tokens: set[str] = set()
        self.behaviour = Behaviour()
        self.received: list[Received] = []
        self.refused: list[Received] = []
        self.faults: list[str] = []
        self.endpoints: dict[tuple[str, str], str] = {}
        self.hub: tuple[str, str] = ("", "")
        self.token = ""
        self.credentials_url = ""
        self.client = httpx.Client(timeout=60)
        self.connections: set[socket.socket] = set()
        self._port = 0
        self.open()

    def open(self) -> None:
        """Listens, on the port of before if there was one."""
        peer = self

        class Handler(BaseHTTPRequestHandler):
            protocol_version = "HTTP/1.1"

            def setup(self) -> None:
                """A connection begins."""
                super().setup()
                peer.connections.add(self.connection)

            def finish(self) -> None:
                """A connection ends."""
                peer.connections.discard(self.connection)
                try:
                    super().finish()
                except OSError:
                    pass

            def log_message(self, *_: Any) -> None:
                """Says nothing."""

            def handle_one(self) -> None:
                """Answers a request."""
                size = int(self.headers.get("Content-Length") or 0)
                peer.answer(self, self.rfile.read(size))

            do_GET = do_POST = do_PUT = do_PATCH = do_DELETE = handle_one

        self.server = ThreadingHTTPServer(("127.0.0.1", self._port), Handler)
        self.server.daemon_threads = True
        self._port = self.server.server_address[1]
        self.url = f"http://127.0.0.1:{self._port}/ocpi"
        threading.Thread(target=self.server.serve_forever, args=(0.05,), daemon=True).start()

    def close(self) -> None:
        """Listens no longer."""
        self.server.shutdown()
        self.server.server_close()
        for connection in list(self.connections):
            try:
                connection.shutdown(socket.SHUT_RDWR)
            except OSError:
                pass

    # What it serves.

    def answer(self, request: BaseHTTPRequestHandler, body: bytes) -> None:
        """Answers a request to one of its URLs."""
        parts = urlsplit(request.path)
        headers = {name.lower(): value for name, value in request.headers.items()}
        if headers.get("authorization", "") not in {f"Token {in_base64(token)}" for token in self.tokens}:
            return self.respond(request, 401, 2001, None)
        self.check_ids(headers)
        match parts.path.split("/")[2:]:
            case ["versions"]:
                self.respond(request, 200, 1000, [{"version": "2.2.1", "url": f"{self.url}/2.2.1"}])
            case ["2.2.1"]:
                self.respond(request, 200, 1000, {"version": "2.2.1", "endpoints": self.own_endpoints()})
            case ["2.2.1", "receiver", module, *_] if module in RECEIVED[self.role]:
                given = json.loads(body) if body else None
                query = dict(parse_qsl(parts.query))
                self.take(request, Received(request.command, parts.path, query, headers, given))
            case _:
                self.respond(request, 404, 2000, None)

    def own_endpoints(self) -> list[Object]:
        """The endpoints of version 2.2.1."""
        rows = [{"identifier": "credentials", "role": "SENDER", "url": f"{self.url}/2.2.1/credentials"}]
        for module in RECEIVED[self.role]:
            url = f"{self.url}/2.2.1/receiver/{module}"
            rows.append({"identifier": module, "role": "RECEIVER", "url": url})
        return rows

    def check_ids(self, headers: dict[str, str]) -> None:
        """Each request has two ids: chapter 4, Message Routing."""
        for name in ("x-request-id", "x-correlation-id"):
            if not 0 < len(headers.get(name, "")) <= 36:
                self.faults.append(f"a request without {name}")

    def take(self, request: BaseHTTPRequestHandler, received: Received) -> None:
        """Takes an object, or behaves as it is told to."""
        for name in ("from-country-code", "from-party-id", "to-country-code", "to-party-id"):
            if f"ocpi-{name}" not in received.headers:
                self.faults.append(f"a request without OCPI-{name}")
        if (received.headers.get("ocpi-to-country-code"), received.headers.get("ocpi-to-party-id")) != (
            self.country_code,
            self.party_id,
        ):
            self.faults.append("a request that is to another party")
        behaviour = self.behaviour
        named = received.object or {}
        if behaviour.only and behaviour.only not in (named.get("id"), named.get("uid")):
            behaviour = Behaviour()
        if behaviour.seconds:
            threading.Event().wait(behaviour.seconds)
        if (behaviour.http, behaviour.status_code) == (200, 1000):
            self.received.append(received)
        else:
            self.refused.append(received)
        self.respond(request, behaviour.http, behaviour.status_code, None)

    def respond(self, request: BaseHTTPRequestHandler, http: int, status_code: int, data: Any) -> None:
        """Sends the envelope of chapter 4."""
        envelope = {"status_code": status_code, "timestamp": "2024-07-01T10:00:00Z", "data": data}
        body = json.dumps(envelope).encode()
        try:
            request.send_response(http)
            for name in ("X-Request-ID", "X-Correlation-ID"):
                if request.headers.get(name):
                    request.send_header(name, request.headers[name])
            request.send_header("Content-Type", "application/json")
            request.send_header("Content-Length", str(len(body)))
            request.end_headers()
            request.wfile.write(body)
        except OSError:
            pass

    # What it asks for.

    def credentials(self) -> Object:
        """Its credentials with a new token: module Credentials."""
        self.tokens.add(token := secrets.token_urlsafe(24))
        role = {
            "role": self.role,
            "business_details": {"name": self.name},
            "party_id": self.party_id,
            "country_code": self.country_code,
        }
        return {"token": token, "url": f"{self.url}/versions", "roles": [role]}

    def register(self, versions_url: str, token_a: str) -> Answer:
        """The handshake of registration: versions, details, POST of the credentials."""
        self.token = token_a
        self.discover(versions_url)
        return self.take_credentials(self.call("POST", self.credentials_url, json=self.credentials()))

    def update(self) -> Answer:
        """Changes its credentials, also its token."""
        before = set(self.tokens)
        answer = self.take_credentials(self.call("PUT", self.credentials_url, json=self.credentials()))
        self.tokens -= before
        return answer

    def unregister(self) -> Answer:
        """Ends the registration."""
        return self.call("DELETE", self.credentials_url)

    def discover(self, versions_url: str) -> None:
        """Reads the versions, and the endpoints of 2.2.1."""
        versions = self.call("GET", versions_url).data
        (url,) = [each["url"] for each in versions if each["version"] == "2.2.1"]
        details = self.call("GET", url).data
        assert details["version"] == "2.2.1"
        self.endpoints = {(each["identifier"], each["role"]): each["url"] for each in details["endpoints"]}
        (self.credentials_url,) = [url for (name, _), url in self.endpoints.items() if name == "credentials"]

    def take_credentials(self, answer: Answer) -> Answer:
        """Takes the credentials of the other side: from now on it is called by their token."""
        given = answer.data
        (role,) = [each for each in given["roles"] if each["role"] == "HUB"]
        assert role["business_details"]["name"]
        self.hub = role["country_code"], role["party_id"]
        self.token = given["token"]
        self.discover(given["url"])
        return answer

    def call(self, method: str, url: str, to: tuple[str, str] | None = None, **words: Any) -> Answer:
        """Sends a request; `to` is the party that it is to, for functional modules. Raises OcpiError."""
        ids = {"X-Request-ID": str(uuid.uuid4()), "X-Correlation-ID": str(uuid.uuid4())}
        headers = {"Authorization": f"Token {in_base64(self.token)}", **ids}
        if to is not None:
            headers["OCPI-from-country-code"], headers["OCPI-from-party-id"] = (
                self.country_code,
                self.party_id,
            )
            headers["OCPI-to-country-code"], headers["OCPI-to-party-id"] = to
        headers.update(words.pop("headers", {}))
        response = self.client.request(method, url, headers=headers, **words)
        return self.checked(response, headers)

    def checked(self, response: httpx.Response, sent: dict[str, str]) -> Answer:
        """The response, which has to be as chapter 4 says. Raises OcpiError."""
        envelope = response.json()
        assert DATE_TIME.fullmatch(envelope["timestamp"]), envelope
        for name in ("X-Request-ID", "X-Correlation-ID"):
            assert response.headers[name] == sent[name]
        if "OCPI-to-party-id" in sent and response.status_code != 401:
            assert response.headers["OCPI-to-country-code"] == self.country_code
            assert response.headers["OCPI-to-party-id"] == self.party_id
            assert "OCPI-from-country-code" in response.headers and "OCPI-from-party-id" in response.headers
        answer = Answer(response.status_code, envelope["status_code"], envelope.get("data"), response.headers)
        if not (response.is_success and 1000 <= answer.status_code < 2000):
            raise OcpiError(answer, str(envelope.get("status_message")))
        return answer

    def put(self, module: str, name: str, given: Object) -> Answer:
        """Puts an object of its own: Receiver Interface of tariffs and tokens."""
        return self.call("PUT", self.url_of(module, name), self.hub, json=given, params=self.type_of(given))

    def get(self, module: str, name: str, **params: str) -> Any:
        """Reads an object of its own as the receiver has it."""
        return self.call("GET", self.url_of(module, name), self.hub, params=params).data

    def patch(self, module: str, name: str, given: Object, **params: str) -> Answer:
        """Changes some members of an object of its own."""
        return self.call("PATCH", self.url_of(module, name), self.hub, json=given, params=params)

    def delete(self, module: str, name: str) -> Answer:
        """Ends an object of its own."""
        return self.call("DELETE", self.url_of(module, name), self.hub)

    def url_of(self, module: str, name: str) -> str:
        """The URL of an object of its own at the receiver."""
        parts = (self.country_code, self.party_id, quote(name, safe=""))
        return "/".join([self.endpoints[module, "RECEIVER"].rstrip("/"), *parts])

    @staticmethod
    def type_of(given: Object) -> dict[str, str]:
        """The query `type` of a token."""
        return {"type": given["type"]} if "contract_id" in given else {}

    def authorize(self, uid: str, to: tuple[str, str] | None = None, **params: str) -> Answer:
        """Real-time authorization: Sender Interface of tokens."""
        url = f"{self.endpoints['tokens', 'SENDER'].rstrip('/')}/{quote(uid, safe='')}/authorize"
        return self.call("POST", url, to or self.hub, params=params)

    def post_cdr(self, given: Object, to: tuple[str, str] | None = None) -> str:
        """Posts a CDR: Receiver Interface of CDRs. Returns the URL of the CDR there."""
        answer = self.call("POST", self.endpoints["cdrs", "RECEIVER"], to or self.hub, json=given)
        return answer.headers["Location"]

    def pull(self, module: str, **params: Any) -> list[Object]:
        """All objects of a module, page after page: chapter 4, Pagination."""
        found: list[Object] = []
        to = None if module in CONFIGURATION_MODULES else self.hub
        answer = self.call("GET", self.endpoints[module, "SENDER"], to, params=params)
        while True:
            total, most = int(answer.headers["X-Total-Count"]), int(answer.headers["X-Limit"])
            assert len(answer.data) <= min(most, params.get("limit", most))
            found += answer.data
            link = NEXT.search(answer.headers.get("Link", ""))
            if link is None:
                assert len(found) + int(params.get("offset", 0)) >= total
                return found
            answer = self.call("GET", link[1], to)

    def names(self, module: str) -> list[str]:
        """The ids of the received objects of a module, in their order."""
        of_module = [each for each in self.received if each.path.split("/")[4] == module]
        return [str((each.object or {}).get("uid") or (each.object or {}).get("id")) for each in of_module]


# Objects of the standard's examples: chapters Tokens, Tariffs and CDRs.

TOKEN: Object = {
    "country_code": "DE",
    "party_id": "TNM",
    "uid": "012345678",
    "type": "RFID",
    "contract_id": "DE8ACC12E46L89",
    "visual_number": "DF000-2001-8999-1",
    "issuer": "TheNewMotion",
    "group_id": "DF000-2001-8999",
    "valid": True,
    "whitelist": "ALWAYS",
    "last_updated": "2015-06-29T22:39:09Z",
}
APP_USER: Object = {
    "country_code": "DE",
    "party_id": "TNM",
    "uid": "bdf21bce-fc97-11e8-8eb2-f2801f1b9fd1",
    "type": "APP_USER",
    "contract_id": "DE8ACC12E46L89",
    "issuer": "TheNewMotion",
    "valid": True,
    "whitelist": "ALLOWED",
    "last_updated": "2018-12-10T17:16:15Z",
}
TARIFF: Object = {
    "country_code": "BE",
    "party_id": "BEC",
    "id": "12",
    "currency": "EUR",
    "elements": [
        {"price_components": [{"type": "TIME", "price": 2.00, "vat": 10.0, "step_size": 300}]},
    ],
    "last_updated": "2015-02-02T14:15:01Z",
}
CDR: Object = {
    "country_code": "BE",
    "party_id": "BEC",
    "id": "12345",
    "start_date_time": "2015-06-29T21:39:09Z",
    "end_date_time": "2015-06-29T23:37:32Z",
    "cdr_token": {
        "country_code": "DE",
        "party_id": "TNM",
        "uid": "012345678",
        "type": "RFID",
        "contract_id": "DE8ACC12E46L89",
    },
    "auth_method": "WHITELIST",
    "cdr_location": {
        "id": "LOC1",
        "name": "Gent Zuid",
        "address": "F.Rooseveltlaan 3A",
        "city": "Gent",
        "postal_code": "9000",
        "country": "BEL",
        "coordinates": {"latitude": "3.729944", "longitude": "51.047599"},
        "evse_uid": "3256",
        "evse_id": "BE*BEC*E041503003",
        "connector_id": "1",
        "connector_standard": "IEC_62196_T2",
        "connector_format": "SOCKET",
        "connector_power_type": "AC_1_PHASE",
    },
    "currency": "EUR",
    "tariffs": [TARIFF],
    "charging_periods": [
        {
            "start_date_time": "2015-06-29T21:39:09Z",
            "dimensions": [{"type": "TIME", "volume": 1.973}, {"type": "ENERGY", "volume": 15.342}],
            "tariff_id": "12",
        }
    ],
    "total_cost": {"excl_vat": 4.00, "incl_vat": 4.40},
    "total_energy": 15.342,
    "total_time": 1.973,
    "total_time_cost": {"excl_vat": 4.00, "incl_vat": 4.40},
    "last_updated": "2015-06-29T22:01:13Z",
}
