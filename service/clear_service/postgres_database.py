"""The database of a house: its tables and its sessions."""

from __future__ import annotations

import asyncio
import contextlib
import os
from pathlib import Path
from typing import Any, NamedTuple

import psycopg
from psycopg import AsyncConnection

from clear_service.lines import LONG, may_take_long

SCHEMA = Path(__file__).with_name("schema.sql")
FORMAT = 1
AT_ONCE = 500  # lines that are read in one piece; a line has up to a mebibyte
LOCK = 221  # the advisory lock of the worker that answers
MAKING = 220  # the advisory lock of the one that makes the tables

# Both ends notice within half a minute that the other's machine is gone.
OURS: dict[str, Any] = {
    "keepalives_idle": 10,
    "keepalives_interval": 5,
    "keepalives_count": 3,
    "tcp_user_timeout": 25_000,
    "connect_timeout": 10,
}
# The lines of a table are read by their key, also where the server has no statistics yet, as after a load of many lines: a plan that
# reads a table or an index from its beginning would take longer with each line. The server takes what is switched off to be so costly that
# it would compile each query with its JIT compiler, which takes a second.
THEIRS = (
    "set tcp_keepalives_idle = 10; set tcp_keepalives_interval = 5; "
    "set tcp_keepalives_count = 3; set tcp_user_timeout = 25000; "
    "set enable_seqscan = off; set enable_hashjoin = off; set enable_mergejoin = off; set jit = off"
)


STATE = """
    select (select number from last_request), (
        select application_name from pg_locks join pg_stat_activity using (pid)
        where locktype = 'advisory' and classid = 0 and objid = %s and objsubid = 1 and granted
            and datname = current_database()
    )"""


MAY_TAKE_LONG = """
    select line from requests where number > %(before)s and number <= %(before)s + %(count)s
    and exists (select from unnest(%(parts)s::bytea[]) as part where position(part in line) > 0) order by number"""


class State(NamedTuple):
    """The number of the last request, and the name of the worker that has the lock, or None."""

    last_request: int
    worker: str | None


class DatabaseError(Exception):
    """The database is not that of a house."""


def is_begun(dsn: str) -> bool:
    """Whether the database has the tables. Raises psycopg.Error."""
    with psycopg.connect(dsn, **OURS) as session:
        return _has_tables(session)


def _has_tables(session: psycopg.Connection[Any]) -> bool:
    row = session.execute("select to_regclass('public.house') is not null").fetchone()
    return row is not None and bool(row[0])


def prepare(dsn: str, configuration: str) -> None:
    """Makes the tables if the database has none, with this configuration. Raises psycopg.Error."""
    with psycopg.connect(dsn, **OURS) as session:
        session.execute("select pg_advisory_xact_lock(%s)", (MAKING,))
        if not _has_tables(session):
            session.execute(SCHEMA.read_text(encoding="utf-8").encode())
            session.execute(
                "insert into house (format, configuration) values (%s, %s)", (FORMAT, configuration)
            )


def configuration_of(dsn: str) -> str:
    """The configuration under which the house begins. Raises psycopg.Error and DatabaseError."""
    with psycopg.connect(dsn, **OURS) as session:
        found = session.execute("select format, configuration from house") if _has_tables(session) else None
        row = found.fetchone() if found is not None else None
    if row is None or row[0] != FORMAT:
        raise DatabaseError("the database has no house of this format")
    return str(row[1])


def worker_name(pid: int) -> str:
    """The name of the session of a worker on this machine. A name of the server has at most 63 bytes."""
    return f"worker {os.uname().nodename[:40]} {pid}"


async def state_of(session: AsyncConnection[Any]) -> State:
    """The last request, and which worker answers. Raises psycopg.Error and DatabaseError."""
    row = await (await session.execute(STATE, (LOCK,))).fetchone()
    if row is None or row[0] is None:
        raise DatabaseError("the database has no house of this format")
    return State(*row)


async def one_may_take_long(session: AsyncConnection[Any], answered: int) -> bool:
    """Whether one of the lines that a worker answers together, after so many, may take long. Raises psycopg.Error."""
    found = await session.execute(
        MAY_TAKE_LONG, {"before": answered, "count": AT_ONCE, "parts": list(LONG)}, binary=True
    )
    async for row in found:
        if may_take_long(bytes(row[0])):
            return True
    return False


async def connect(dsn: str, name: str) -> AsyncConnection[Any]:
    """A session that commits each statement. Raises psycopg.Error."""
    session: AsyncConnection[Any] = await AsyncConnection.connect(
        dsn, autocommit=True, application_name=name, **OURS
    )
    await session.execute(THEIRS)
    return session


async def notified(session: AsyncConnection[Any], seconds: float) -> None:
    """Waits until the server has sent something on the session, at most so long, and drops notifications."""
    loop = asyncio.get_running_loop()
    readable: asyncio.Future[None] = loop.create_future()

    def wake() -> None:
        if not readable.done():
            readable.set_result(None)

    descriptor = session.fileno()
    loop.add_reader(descriptor, wake)
    try:
        with contextlib.suppress(TimeoutError):
            async with asyncio.timeout(seconds):
                await readable
    finally:
        loop.remove_reader(descriptor)
    session.pgconn.consume_input()
    while session.pgconn.notifies():
        pass
