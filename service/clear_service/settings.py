"""The settings of a service: its arguments, and the environment's variables that begin with CLEAR."""

from __future__ import annotations

import os
from collections.abc import Mapping
from dataclasses import dataclass, fields, replace
from pathlib import Path

REPOSITORY = Path(__file__).resolve().parents[2]
MEBIBYTE = 1 << 20
LONGEST_LINE = 1_048_576
LARGEST = 10**12
BOUNDS = {"port": (0, 65_535), "worker": (0, 1), "hold_seconds": (0, LARGEST)}  # of the others: from 1
POSTGRES = ("postgresql://", "postgres://")


class SettingError(Exception):
    """A variable of the environment that is no number, or out of bounds."""


@dataclass(frozen=True)
class Settings:
    """What a service is started with. Each member after `store` is set by the variable CLEAR_NAME; `program` by CLEAR."""

    config: str
    store: str
    program: str = str(REPOSITORY / "clear")
    tokens: str = "clear-tokens"
    host: str = "127.0.0.1"
    port: int = 8080
    metrics: str = ""
    url: str = ""
    hosts: str = ""
    worker: int = 1
    queue_lines: int = 40_000
    queue_bytes: int = 64 * MEBIBYTE
    token_lines: int = 20_000
    token_bytes: int = 32 * MEBIBYTE
    token_requests: int = 256
    day_lines: int = 10_000_000
    day_bytes: int = 10_240 * MEBIBYTE
    body_bytes: int = MEBIBYTE
    bulk_bytes: int = 16 * MEBIBYTE
    bulk_lines: int = 20_000
    body_seconds: int = 30
    write_seconds: int = 30
    idle_seconds: int = 75
    answer_seconds: int = 60
    requests_a_second: int = 2_000
    hold_seconds: int = 86_400
    longest_pause: int = 5
    party: str = "NL/HUB"
    name: str = "Clear"
    peer_hosts: str = ""
    peer_seconds: int = 10
    peer_pause: int = 300

    @property
    def is_postgres(self) -> bool:
        """Whether the store is a database."""
        return self.store.startswith(POSTGRES)

    @property
    def at_metrics(self) -> Settings | None:
        """The same settings at the address of the figures, if they have one. Raises SettingError."""
        if not self.metrics:
            return None
        host, _, port = self.metrics.rpartition(":")
        if not host or not port.isdigit() or not port.isascii() or int(port) > 65_535:
            raise SettingError("CLEAR_METRICS is no address as HOST:PORT")
        return replace(self, host=host.strip("[]"), port=int(port))

    @property
    def own_party(self) -> tuple[str, str]:
        """The country code and the party id of the hub itself. Raises SettingError."""
        country, _, party = self.party.partition("/")
        if (
            len(country) != 2
            or len(party) != 3
            or not (country + party).isalnum()
            or not self.party.isascii()
        ):
            raise SettingError("CLEAR_PARTY is no party as NL/HUB")
        return country, party

    @property
    def listed_peer_hosts(self) -> list[str]:
        """The hosts of peers that may be called without TLS."""
        return [host.strip() for host in self.peer_hosts.split(",") if host.strip()]

    @property
    def listed_hosts(self) -> list[str]:
        """The hosts by which links name the service if no URL is set; without the setting those of this machine."""
        if self.hosts:
            return [host.strip() for host in self.hosts.split(",")]
        return [f"{name}:{self.port}" for name in ("localhost", "127.0.0.1")]


def variable_of(name: str) -> str:
    """The name of the variable that sets this member."""
    return "CLEAR" if name == "program" else f"CLEAR_{name.upper()}"


def number_of(name: str, text: str) -> int:
    """The number of a member of the settings. Raises SettingError if it is malformed or out of bounds."""
    if not text.isascii() or not text.isdigit() or len(text) > 13:
        raise SettingError(f"{variable_of(name)} is no whole number")
    least, most = BOUNDS.get(name, (1, LARGEST))
    if not least <= int(text) <= most:
        raise SettingError(f"{variable_of(name)} has to be from {least} to {most}")
    return int(text)


def settings_of(config: str, store: str, environment: Mapping[str, str] = os.environ) -> Settings:
    """The settings by these arguments and the environment.

    Raises SettingError if a number is malformed.
    """
    given: dict[str, str | int] = {}
    for field in fields(Settings):
        text = environment.get(variable_of(field.name))
        if field.name in ("config", "store") or text is None:
            continue
        if isinstance(field.default, int):
            given[field.name] = number_of(field.name, text)
        else:
            given[field.name] = text
    return Settings(config, store, **given)  # type: ignore[arg-type]
