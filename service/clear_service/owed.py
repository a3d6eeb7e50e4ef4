"""What providers owe: each CDR until it is credited, or its period is settled for its provider and currency.

The sums are those of docs/RULES.md, section 9, and of `clear balances`. They are kept as lines go by. Amounts are whole ten-thousandths.
"""

from __future__ import annotations

from collections import Counter, defaultdict
from collections.abc import Callable, Iterator
from typing import NamedTuple


class Debtor(NamedTuple):
    """Whose debt it is, in which currency and of which period. The provider is folded."""

    provider: str
    currency: str
    period: int


class Owed:
    """The sums of the CDRs that are owed."""

    def __init__(self) -> None:
        self._sums: Counter[Debtor] = Counter()
        self._settled: set[Debtor] = set()
        self.debts: Counter[tuple[str, str]] = Counter()  # what each provider owes in each currency

    def add(self, debtor: Debtor, amount: int) -> None:
        """A CDR is owed."""
        self._sums[debtor] += amount
        self.debts[debtor.provider, debtor.currency] += amount

    def credit(self, debtor: Debtor, amount: int) -> None:
        """A CDR of this amount is credited, so it is owed no longer."""
        if debtor not in self._settled:
            self.add(debtor, -amount)

    def settle(self, debtor: Debtor) -> None:
        """All CDRs of the provider, currency and period are paid."""
        self._settled.add(debtor)
        self.debts[debtor.provider, debtor.currency] -= self._sums.pop(debtor, 0)

    def is_settled(self, debtor: Debtor) -> bool:
        """Whether they are paid."""
        return debtor in self._settled


class Pair(NamedTuple):
    """An operator and a provider, both folded."""

    operator: str
    provider: str


class Balance(NamedTuple):
    """What a provider owes an operator for a period in a currency, and what of it is settled."""

    period: int
    currency: str
    pair: Pair
    owed: int
    settled: int


class Balances:
    """The booked CDRs less the Credit CDRs of each period, currency, operator and provider."""

    def __init__(self, owed: Owed) -> None:
        self._owed = owed
        self._sums: defaultdict[tuple[int, str], dict[Pair, int]] = defaultdict(dict)

    def book(self, period: int, currency: str, pair: Pair, amount: int) -> None:
        """A CDR, or a Credit CDR with an amount below 0, is booked."""
        pairs = self._sums[period, currency]
        pairs[pair] = pairs.get(pair, 0) + amount

    def rows(self, currencies: list[str], place: Callable[[Pair], tuple[int, int]]) -> Iterator[Balance]:
        """The balances by period, then by currency and by the place of the pair. A settlement settles all of its period's sums."""
        known = {currency: nth for nth, currency in enumerate(currencies)}
        for period, currency in sorted(self._sums, key=lambda key: (key[0], known.get(key[1], len(known)))):
            pairs = self._sums[period, currency]
            for pair in sorted(pairs, key=place):
                is_settled = self._owed.is_settled(Debtor(pair.provider, currency, period))
                yield Balance(period, currency, pair, pairs[pair], pairs[pair] if is_settled else 0)
