"""Moments as OCPI writes them."""

from __future__ import annotations

import time


def moment_of(seconds: float) -> str:
    """A time in seconds since 1970."""
    return time.strftime("%Y-%m-%dT%H:%M:%SZ", time.gmtime(seconds))


def now() -> str:
    """The time."""
    return moment_of(time.time())


def instant(moment: str) -> str:
    """A moment of OCPI, which is in UTC, as a text that compares as the moment does."""
    seconds, dot, fraction = moment.removesuffix("Z").removesuffix("+00:00").partition(".")
    fraction = fraction.rstrip("0")
    return f"{seconds}{dot}{fraction}" if fraction else seconds
