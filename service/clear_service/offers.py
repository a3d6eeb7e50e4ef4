"""Which tariffs are offered: each that was put, until its operator deletes it, and again when it is put again.

The house keeps all versions for ever, so that CDRs by them stay valid. That one is not offered any more is a record of the service.
"""

from __future__ import annotations

from fastapi import Request

from clear_service.json_text import text_of
from clear_service.objects import Entry
from clear_service.peers import Peers
from clear_service.records import RecordsError
from clear_service.waiting import Unavailable

WITHDRAWN = "withdrawn"  # the kind of a record
TariffKey = tuple[str, str]  # a folded operator and a folded id


def _key(tariff: TariffKey) -> tuple[str, str]:
    return WITHDRAWN, text_of(tariff).decode()


class Offers:
    """The tariffs that are not offered, as the records have them."""

    def __init__(self, peers: Peers) -> None:
        self._peers = peers

    def has(self, tariff: TariffKey, entry: Entry) -> bool:
        """Whether the tariff is offered, by the version that was updated last."""
        record = self._peers.found.get(_key(tariff))
        return record is None or entry.number > int(record["number"])

    async def withdraw(self, tariff: TariffKey, entry: Entry) -> None:
        """The tariff is not offered from now on, up to this version. Raises Unavailable."""
        try:
            await self._peers.change({_key(tariff): {"number": entry.number}})
        except RecordsError as error:
            raise Unavailable(f"this cannot be kept: {error}") from None

    async def offer(self, tariff: TariffKey) -> None:
        """The tariff is offered. Raises Unavailable."""
        if _key(tariff) not in self._peers.found:
            return
        try:
            await self._peers.change({_key(tariff): None})
        except RecordsError as error:
            raise Unavailable(f"this cannot be kept: {error}") from None


def offers_of(request: Request) -> Offers:
    """The offers of the application."""
    found = request.app.state.offers
    assert isinstance(found, Offers)
    return found
