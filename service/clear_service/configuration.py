"""The configuration in force, as far as the service needs it: who acts for whom, currencies, zones and holds."""

from __future__ import annotations

from collections.abc import Iterator
from functools import cached_property
from typing import Any, NamedTuple

from clear_service.lines import folded


def written(amount: int) -> str:
    """Ten-thousandths with four decimals."""
    return f"{'-' if amount < 0 else ''}{abs(amount) // 10_000}.{abs(amount) % 10_000:04d}"


def ten_thousandths(amount: str) -> int:
    """The ten-thousandths of an amount that is written with four decimals."""
    return int(amount.replace(".", ""))


LARGEST_COUNTS = {"cdrs": 100_000, "tariffs": 10_000, "entries": 10_000_000}  # docs/FORMATS.md, section 2
SMALLEST_HOLD = written(1)  # the hold of a provider without a row for the currency


def differences(given: object, found: object, path: str = "") -> Iterator[str]:
    """The paths of the members in which two configurations differ, in their order."""
    if isinstance(given, dict) and isinstance(found, dict):
        for name in {**given, **found}:
            yield from differences(given.get(name), found.get(name), f"{path}.{name}" if path else name)
    elif isinstance(given, list) and isinstance(found, list) and len(given) == len(found):
        for nth, (one, other) in enumerate(zip(given, found)):
            yield from differences(one, other, f"{path}[{nth}]")
    elif given != found:
        yield path


class Party(NamedTuple):
    """A party as answers write it, and folded for comparisons."""

    spelled: str
    folded: str


class Parties(dict[str, Party]):
    """The parties of accepted lines by their texts. There are few texts, as each is that of a configured party in some letter case."""

    def __init__(self, configured: dict[str, str]) -> None:
        super().__init__()
        self._configured = configured

    def __missing__(self, text: str) -> Party:
        key = folded(text)
        self[text] = Party(self._configured.get(key, text), key)
        return self[text]


class Configuration:
    """A configuration that the program has accepted. Parties and names are compared ignoring letter case.

    `limits` has the credit limit of a folded provider and a currency, in ten-thousandths. `parties` has each party of an accepted line.
    """

    def __init__(self, members: dict[str, Any]) -> None:
        self.members = members
        self.currencies: list[str] = members["currencies"]
        self.operators = {folded(item["party"]): item["party"] for item in members["operators"]}
        self.providers = {folded(item["party"]): item["party"] for item in members["providers"]}
        self._zones = {folded(item["party"]): item["zone"] for item in members["operators"]}
        self._holds = {
            (folded(item["party"]), row["currency"]): written(int(row["hold"]))
            for item in members["providers"]
            for row in item.get("limits") or []
        }
        self.limits: dict[tuple[str, str], int] = {
            (folded(item["party"]), row["currency"]): int(row["limit"])
            for item in members["providers"]
            for row in item.get("limits") or []
        }
        self._platforms = {folded(item["name"]): item for item in members["platforms"]}
        self.parties = Parties({**self.providers, **self.operators})

    def parties_of(self, platform: str) -> set[str]:
        """The folded parties for which the platform acts."""
        item = self._platforms.get(folded(platform), {})
        return {folded(party) for party in item.get("parties") or []}

    def is_hub(self, platform: str) -> bool:
        """Whether the platform is a hub."""
        return self._platforms.get(folded(platform), {}).get("hub") is True

    def has_platform(self, platform: str) -> bool:
        """Whether the platform is configured."""
        return folded(platform) in self._platforms

    def platform_for(self, party: str) -> str | None:
        """The first platform that acts for the party, or None."""
        for item in self._platforms.values():
            if folded(party) in {folded(each) for each in item.get("parties") or []}:
                return str(item["name"])
        return None

    def operators_of(self, platform: str) -> list[str]:
        """The operators for which the platform acts, as configured and in that order."""
        parties = self.parties_of(platform)
        return [party for key, party in self.operators.items() if key in parties]

    @property
    def platforms(self) -> list[str]:
        """The names of the platforms."""
        return [str(item["name"]) for item in self._platforms.values()]

    def count_limit(self, name: str) -> int:
        """The limit of a count of the house, by the member of `limits`."""
        return int((self.members.get("limits") or {}).get(name) or LARGEST_COUNTS[name])

    @cached_property
    def places(self) -> dict[str, int]:
        """The folded parties by their place: the operators in the order of the configuration, and then the providers."""
        return {party: nth for nth, party in enumerate([*self.operators, *self.providers])}

    def spelled(self, party: str) -> str | None:
        """The party as answers write it, or None if it is not configured."""
        key = folded(party)
        return self.operators.get(key) or self.providers.get(key)

    def zone(self, operator: str) -> str:
        """The operator's zone."""
        return str(self._zones[folded(operator)])

    def hold(self, provider: str, currency: str) -> str:
        """The amount of a hold of the folded provider in the currency."""
        return self._holds.get((provider, currency), SMALLEST_HOLD)
