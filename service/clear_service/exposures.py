"""Each provider's exposure as a figure: what the registers have, added up by docs/RULES.md, section 9.

It is no answer of the house: reading it asks the house nothing and keeps no line. A test compares both.
"""

from __future__ import annotations

from collections import Counter
from collections.abc import Iterator
from dataclasses import dataclass

from clear_service.registers import Registers


@dataclass(frozen=True, slots=True)
class Exposure:
    """A provider and a currency with its open holds, debts and credit limit, in whole ten-thousandths."""

    provider: str
    currency: str
    holds: int
    debts: int
    limit: int


def exposures(registers: Registers) -> Iterator[Exposure]:
    """The exposure of each provider and currency with a hold, a debt or a limit; none before the house has begun."""
    if registers.configuration is None:
        return
    configuration = registers.configuration
    debts, holds = Counter(registers.owed.debts), Counter(registers.held)
    for key in sorted({*debts, *holds, *configuration.limits}):
        provider, currency = key
        limit = configuration.limits.get(key, 0)
        yield Exposure(configuration.spelled(provider) or provider, currency, holds[key], debts[key], limit)
