"""What the service keeps of requests and answers, in order: CDRs, debts, open holds, tokens, periods, the configuration.

A register decides nothing: each entry is there because the house answered that it is. It is made anew from the lines of
the store at a start. An answer of the house adds an event if its `at` is the number of events so far; an answer with a
smaller `at` is that of a line that came again under its request id, and changes nothing.
"""

from __future__ import annotations

import gc
import time
from collections import Counter, defaultdict, deque
from collections.abc import Callable, Iterable, Iterator
from dataclasses import dataclass
from typing import Any, ClassVar

from clear_service.answers import AT, BEGINNING, NAME, PERIOD, TEXT, number_of, parts_of
from clear_service.configuration import Configuration, Party, ten_thousandths
from clear_service.json_text import NotJson, object_of, with_numbers
from clear_service.lines import RELEASED_BY, command_of, folded
from clear_service.moments import instant
from clear_service.objects import Entry, Kind, Objects
from clear_service.owed import Balances, Debtor, Owed, Pair

EVENTS = frozenset(("Stored", "ALLOWED", "Released", "Accepted", "Closed", "Settled"))
NEAR = 0.9  # of a limit of the house, from which there is a warning
KEPT_REFUSALS = 10_000
LONGEST_TEXT = 36  # of a session id, as OCPI bounds it
KEPT_SECONDS = 86_400  # for which a refusal is kept
DECLINED = ("BLOCKED", "NO_CREDIT")


@dataclass(slots=True)
class CdrEntry:
    """An accepted CDR or Credit CDR."""

    number: int
    operator: str
    provider: str
    id: str
    session: str
    start: str
    end: str
    energy: str
    currency: str
    amount: str
    period: int
    credits: str
    updated: str
    credited: bool = False

    @property
    def debtor(self) -> Debtor:
        """Who owes it."""
        return Debtor(folded(self.provider), self.currency, self.period)


@dataclass(slots=True)
class Hold:
    """An open hold. `since` is when the house answered, or None if that is not known."""

    reference: str
    operator: str
    provider: str
    currency: str
    amount: str
    since: float | None


@dataclass(frozen=True, slots=True)
class HubRelease:
    """The members of a line by which the service released a hold for a hub."""

    NAMES: ClassVar = ("operator", "provider", "reference")
    platform: str
    operator: str
    provider: str
    reference: str


@dataclass(slots=True)
class Period:
    """A closed period with the positions of its close."""

    period: int
    positions: list[dict[str, str]]


@dataclass(slots=True)
class RefusedRequest:
    """A refusal, or a declined authorisation, that the house answered while the service ran."""

    time: float
    platform: str
    name: str


@dataclass(slots=True)
class Followed:
    """A line with its answer."""

    number: int
    line: bytes
    answer: bytes
    parts: list[bytes]
    time: float | None


def party(members: dict[str, Any]) -> str:
    """The party of an OCPI object, as `NL/CPA`."""
    return f"{members['country_code']}/{members['party_id']}"


class CdrRegister:
    """CDRs by operator and id, and by period and party."""

    def __init__(self) -> None:
        self._by_id: dict[tuple[str, str], CdrEntry] = {}
        self._by_party: defaultdict[tuple[int, str], list[CdrEntry]] = defaultdict(list)
        self._periods = 0

    def __len__(self) -> int:
        return len(self._by_id)

    def add(self, entry: CdrEntry, operator: str, provider: str) -> None:
        """Adds an accepted CDR of these folded parties; a Credit CDR marks the CDR that it credits."""
        self._by_id[operator, folded(entry.id)] = entry
        self._periods = max(self._periods, entry.period + 1)
        for each in {operator, provider}:
            self._by_party[entry.period, each].append(entry)
        if entry.credits:
            original = self.find(entry.operator, entry.credits)
            if original is not None:
                original.credited = True

    def entries(self) -> Iterable[CdrEntry]:
        """All of them, in the order of the events."""
        return self._by_id.values()

    def find(self, operator: str, cdr_id: str) -> CdrEntry | None:
        """The CDR of this id, or None."""
        return self._by_id.get((folded(operator), folded(cdr_id)))

    def of_party(self, of_party: str) -> Iterator[CdrEntry]:
        """All CDRs in which the party is operator or provider, in the order of the events."""
        for period in range(self._periods):
            yield from self.of(period, of_party)

    def of(self, period: int, of_party: str) -> list[CdrEntry]:
        """The CDRs of the period in which the party is operator or provider, in the order of the events."""
        return self._by_party.get((period, folded(of_party)), [])


class Registers:
    """All registers, and the dispatch of answers to them."""

    def __init__(self) -> None:
        self.configuration: Configuration | None = None
        self.cdrs = CdrRegister()
        self.owed = Owed()
        self.balances = Balances(self.owed)
        self.holds: dict[str, Hold] = {}
        # The open holds of each folded provider and currency.
        self.held: Counter[tuple[str, str]] = Counter()
        # Of each folded party, as configured.
        self.counterparts: defaultdict[str, set[str]] = defaultdict(set)
        # Of each folded operator.
        self.tariff_currencies: defaultdict[str, set[str]] = defaultdict(set)
        # Of a member of the configuration's `limits` and a folded party.
        self.counts: Counter[tuple[str, str]] = Counter()
        self.listeners: list[Callable[[Configuration], None]] = []
        self.object_listeners: list[Callable[[], None]] = []
        self.hub_releases: defaultdict[tuple[str, str], list[HubRelease]] = defaultdict(list)
        # Of a folded provider, folded uid and type.
        self.tokens: dict[tuple[str, str, str], Entry] = {}
        # Of a folded operator and folded id, the version that was updated last.
        self.tariffs: dict[tuple[str, str], Entry] = {}
        self.objects = Objects()
        self.periods: list[Period] = []
        self.refusals: deque[RefusedRequest] = deque(maxlen=KEPT_REFUSALS)
        self.commands: Counter[tuple[str, str]] = Counter()
        self.events = 0
        self.are_complete = False
        self.lines = 0
        self.changes = 0
        self._changed_by: set[tuple[str, str]] = set()
        self._follow: dict[str, Callable[[Followed], None]] = {
            "Accepted": self._cdr,
            "ALLOWED": self._hold,
            "Released": self._released,
            "Stored": self._stored,
            "Closed": self._closed,
            "Settled": self._settled,
            "Configured": self._configured,
        }

    def begin(self, configuration: dict[str, Any]) -> None:
        """The configuration under which the house begins."""
        self.configuration = Configuration(configuration)

    def complete(self) -> None:
        """All lines of the store are here: the house can be asked."""
        if self.are_complete:
            return
        self.are_complete = True
        gc.freeze()  # what is here stays, so that the collector need not look at it again
        self._tell()

    def _tell(self) -> None:
        """Tells who listens of the configuration in force."""
        for listener in self.listeners if self.are_complete else ():
            listener(self.in_force)

    def dealt_with(self, platform: str) -> set[str]:
        """The folded parties of the platform, and those with which one of them has had a hold or a CDR."""
        own = self.in_force.parties_of(platform)
        return own | {folded(other) for each in own for other in self.counterparts.get(each, ())}

    def near_limits(self) -> Iterator[tuple[str, str, int, int]]:
        """Each count that nears its limit: the member of `limits`, the party, the count and the limit."""
        for (name, of_party), count in list(self.counts.items()):
            limit = self.in_force.count_limit(name)
            if count > NEAR * limit:
                yield name, self.in_force.spelled(of_party) or of_party, count, limit

    @property
    def in_force(self) -> Configuration:
        """The configuration in force; there has to be one."""
        assert self.configuration is not None
        return self.configuration

    @property
    def answers(self) -> Counter[str]:
        """How many answers and refusals there are of each name."""
        found: Counter[str] = Counter()
        for (_, name), count in self.commands.items():
            found[name] += count
        return found

    def fold(self, number: int, line: bytes, answer: bytes, answered: float | None) -> None:
        """Takes the next line and its answer."""
        self.lines = number
        parts = parts_of(answer)
        name = parts[NAME].decode()
        self.commands[command_of(line), name] += 1
        if name in EVENTS:
            if number_of(parts[AT]) < self.events:
                return
            self.events += 1
        elif not answer.startswith(BEGINNING) or name in DECLINED:
            self._refused(line, name, answered)
            return
        follow = self._follow.get(name)
        if follow is not None:
            follow(Followed(number, line, answer, parts, answered))

    def _cdr(self, followed: Followed) -> None:
        cdr = object_of(followed.line)["cdr"]
        parties = self.in_force.parties
        operator, provider = parties[party(cdr)], parties[party(cdr["cdr_token"])]
        entry = CdrEntry(
            followed.number,
            operator.spelled,
            provider.spelled,
            cdr["id"],
            _printable(cdr.get("session_id")),
            cdr["start_date_time"],
            cdr["end_date_time"],
            cdr["total_energy"],
            cdr["currency"],
            followed.parts[TEXT].decode(),
            number_of(followed.parts[PERIOD]),
            cdr["credit_reference_id"] if cdr.get("credit") is True else "",
            instant(cdr["last_updated"]),
        )
        self._object(followed.number, Kind.CDR, provider)
        self.cdrs.add(entry, operator.folded, provider.folded)
        self._deal(operator, provider)
        self.counts["cdrs", operator.folded] += 1
        self.counts["entries", provider.folded] += 1
        amount = ten_thousandths(entry.amount)
        self.balances.book(entry.period, entry.currency, Pair(operator.folded, provider.folded), amount)
        if entry.credits:
            self._end_debt(entry)
        else:
            debtor = Debtor(provider.folded, entry.currency, entry.period)
            self.owed.add(debtor, amount)
        if cdr.get("credit") is not True:
            self._use_up(cdr, operator, provider)

    def _deal(self, operator: Party, provider: Party) -> None:
        """The two are counterparts."""
        self.counterparts[operator.folded].add(provider.spelled)
        self.counterparts[provider.folded].add(operator.spelled)

    def _end_debt(self, entry: CdrEntry) -> None:
        """A Credit CDR ends the debt of the CDR that it credits."""
        original = self.cdrs.find(entry.operator, entry.credits)
        if original is not None:
            self.owed.credit(original.debtor, ten_thousandths(original.amount))

    def _use_up(self, cdr: dict[str, Any], operator: Party, provider: Party) -> None:
        """A CDR ends the open hold of its operator, provider and currency that it names."""
        key = folded(_plain(cdr.get("authorization_reference")))
        hold = self.holds.get(key)
        if hold is not None and hold.currency == cdr["currency"]:
            if folded(hold.operator) == operator.folded and folded(hold.provider) == provider.folded:
                self._end_hold(key)

    def _end_hold(self, key: str) -> None:
        hold = self.holds.pop(key, None)
        if hold is not None:
            self.held[folded(hold.provider), hold.currency] -= ten_thousandths(hold.amount)

    def _hold(self, followed: Followed) -> None:
        asked = object_of(followed.line)
        reference = followed.parts[TEXT].decode()
        configuration = self.in_force
        operator = configuration.parties[asked["operator"]]
        provider = configuration.parties[asked["provider"]]
        currency = asked["currency"]
        amount = configuration.hold(provider.folded, currency)
        self.holds[folded(reference)] = Hold(
            reference, operator.spelled, provider.spelled, currency, amount, followed.time
        )
        self.held[provider.folded, currency] += ten_thousandths(amount)
        self.counts["entries", provider.folded] += 1
        self._deal(operator, provider)

    def _released(self, followed: Followed) -> None:
        members = object_of(followed.line)
        self._end_hold(folded(members["reference"]))
        self.counts["entries", folded(members["provider"])] += 1
        by = members.get(RELEASED_BY)
        if isinstance(by, dict):
            release = HubRelease(members["platform"], *(members[name] for name in HubRelease.NAMES))
            self.hub_releases[folded(_plain(by.get("platform"))), _plain(by.get("request_id"))].append(
                release
            )

    def _stored(self, followed: Followed) -> None:
        members = object_of(followed.line)
        if members["do"] == "put_token":
            token = members["token"]
            provider = self.in_force.parties[party(token)]
            self.counts["entries", provider.folded] += 1
            entry = Entry(followed.number, provider.spelled, instant(token["last_updated"]))
            self.tokens[provider.folded, folded(token["uid"]), token["type"]] = entry
            self._object(followed.number, Kind.TOKEN, provider)
        else:
            self._tariff(followed.number, members["tariff"])

    def _tariff(self, number: int, tariff: dict[str, Any]) -> None:
        operator = self.in_force.parties[party(tariff)]
        self.counts["tariffs", operator.folded] += 1
        self.tariff_currencies[operator.folded].add(tariff["currency"])
        entry = Entry(number, operator.spelled, instant(tariff["last_updated"]))
        key = operator.folded, folded(tariff["id"])
        if key not in self.tariffs or self.tariffs[key].updated < entry.updated:
            self.tariffs[key] = entry
        self._object(number, Kind.TARIFF, operator)

    def _object(self, number: int, kind: Kind, of: Party) -> None:
        self.objects.add(number, kind, of.folded)
        for listener in self.object_listeners:
            listener()

    def _closed(self, followed: Followed) -> None:
        answer = object_of(followed.answer)
        self.periods.append(Period(int(answer["period"]), answer["positions"]))

    def _settled(self, followed: Followed) -> None:
        members = object_of(followed.line)
        self.counts["entries", folded(members["provider"])] += 1
        self.owed.settle(Debtor(folded(members["provider"]), members["currency"], int(members["period"])))

    def _configured(self, followed: Followed) -> None:
        """A change adds no event, so one that came again is known by its request id."""
        members = object_of(followed.line)
        request_id = members.get("request_id")
        if request_id is not None:
            key = (folded(members["platform"]), request_id)
            if key in self._changed_by:
                return
            self._changed_by.add(key)
        self.changes += 1
        self.configuration = Configuration(with_numbers(followed.line)["configuration"])
        self._tell()

    def _refused(self, line: bytes, name: str, answered: float | None) -> None:
        """A refusal is kept for a day. What is too old at a start is not even read."""
        if answered is None or answered <= time.time() - KEPT_SECONDS:
            return
        try:
            platform = _plain(object_of(line).get("platform"))
        except NotJson:
            platform = ""
        self.refusals.append(RefusedRequest(answered, platform, name))


def _printable(value: object) -> str:
    """A text of a sender that the house does not check, bounded, and without characters that do not print."""
    return "".join(c if c.isprintable() else "?" for c in _plain(value)[:LONGEST_TEXT])


def _plain(value: object) -> str:
    return value if isinstance(value, str) else ""
