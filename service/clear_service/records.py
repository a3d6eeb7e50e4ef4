"""What the service itself keeps beside the house: registered peers, what was delivered to them, tariffs that are no longer offered.

A record is a JSON object with a kind and a key. Over `keep` the records are in the file `service-records` of the store, a database of
SQLite; over PostgreSQL they are in a table of the same database, which all services share. A change is durable when it is made.
"""

from __future__ import annotations

import asyncio
import json
import os
import sqlite3
from collections.abc import Awaitable, Callable, Mapping
from pathlib import Path
from typing import Any, Protocol, TypeVar

import psycopg
from psycopg import AsyncConnection

from clear_service.postgres_database import connect
from clear_service.settings import Settings

T = TypeVar("T")
Session = AsyncConnection[Any]
Key = tuple[str, str]
Value = dict[str, Any]
Changes = Mapping[Key, Value | None]  # None ends a record

DELIVERING = 222  # the advisory lock of the service that delivers to peers
TABLE = """
    create table if not exists service_records (
        kind text not null,
        key text not null,
        value text not null,
        primary key (kind, key)
    )"""
PUT = "insert into service_records (kind, key, value) values ({0}, {0}, {0}) on conflict (kind, key) do update set value = excluded.value"
END = "delete from service_records where kind = {0} and key = {0}"
ALL = "select kind, key, value from service_records"
HAS_LOCK = """
    select exists (
        select from pg_locks where locktype = 'advisory' and classid = 0 and objid = %s and pid = pg_backend_pid() and granted
    ) or pg_try_advisory_lock(%s)"""


class RecordsError(Exception):
    """The records cannot be read or changed."""


class RecordsDenied(RecordsError):
    """The service's role at the server has no rights to them, so it knows no peers."""


class Records(Protocol):
    """The records of a house. Each method raises RecordsError."""

    are_shared: bool  # whether other services may change them

    async def load(self) -> dict[Key, Value]:
        """All records."""

    async def change(self, changes: Changes) -> None:
        """Makes these changes, all or none of them."""

    async def may_deliver(self) -> bool:
        """Whether this service is the one that delivers to peers."""

    async def close(self) -> None:
        """Ends the use of the records."""


class FileRecords:
    """Records in a file of a store in a folder."""

    are_shared = False

    def __init__(self, folder: str) -> None:
        self._path = Path(folder) / "service-records"
        self._session: sqlite3.Connection | None = None
        self._lock = asyncio.Lock()

    async def load(self) -> dict[Key, Value]:
        """All records."""
        return await self._run(
            lambda session: {(k, key): json.loads(v) for k, key, v in session.execute(ALL)}
        )

    async def change(self, changes: Changes) -> None:
        """Makes these changes, all or none of them."""

        def make(session: sqlite3.Connection) -> None:
            with session:
                for key, value in changes.items():
                    if value is None:
                        session.execute(END.format("?"), key)
                    else:
                        session.execute(PUT.format("?"), (*key, json.dumps(value)))

        await self._run(make)

    async def _run(self, work: Callable[[sqlite3.Connection], T]) -> T:
        """Does the work to its end, also if who waits for it is cancelled, so that changes keep their order."""
        return await asyncio.shield(asyncio.create_task(self._work(work)))

    async def _work(self, work: Callable[[sqlite3.Connection], T]) -> T:
        async with self._lock:
            try:
                return await asyncio.to_thread(lambda: work(self._opened()))
            except (sqlite3.Error, OSError, ValueError) as error:
                raise RecordsError(f"{self._path}: {error}") from None

    def _opened(self) -> sqlite3.Connection:
        if self._session is None:
            os.close(os.open(self._path, os.O_RDWR | os.O_CREAT, 0o600))
            self._session = sqlite3.connect(self._path, check_same_thread=False)
            self._session.execute("pragma synchronous = full")
            self._session.execute(TABLE)
        return self._session

    async def may_deliver(self) -> bool:
        """A store in a folder has one service."""
        return True

    async def close(self) -> None:
        """Closes the file."""
        async with self._lock:
            if self._session is not None:
                self._session.close()
                self._session = None


class DatabaseRecords:
    """Records in a table of the database."""

    are_shared = True

    def __init__(self, dsn: str) -> None:
        self._dsn = dsn
        self._session: Session | None = None
        self._lock = asyncio.Lock()

    async def load(self) -> dict[Key, Value]:
        """All records."""

        async def read(session: Session) -> dict[Key, Value]:
            found = await session.execute(ALL)
            return {(kind, key): json.loads(value) for kind, key, value in await found.fetchall()}

        return await self._run(read)

    async def change(self, changes: Changes) -> None:
        """Makes these changes, all or none of them."""

        async def make(session: Session) -> None:
            async with session.transaction():
                for key, value in changes.items():
                    if value is None:
                        await session.execute(END.format("%s"), key)
                    else:
                        await session.execute(PUT.format("%s"), (*key, json.dumps(value)))

        await self._run(make)

    async def may_deliver(self) -> bool:
        """Whether this session has the lock. The server gives it to another one when this session has ended."""

        async def ask(session: Session) -> bool:
            row = await (await session.execute(HAS_LOCK, (DELIVERING, DELIVERING))).fetchone()
            return row is not None and bool(row[0])

        return await self._run(ask)

    async def _run(self, work: Callable[[Session], Awaitable[T]]) -> T:
        """Does the work to its end, also if who waits for it is cancelled: a session with half a query would take no other one."""
        return await asyncio.shield(asyncio.create_task(self._work(work)))

    async def _work(self, work: Callable[[Session], Awaitable[T]]) -> T:
        async with self._lock:
            try:
                return await work(await self._opened())
            except (psycopg.Error, OSError, ValueError) as error:
                raise _failed(error) from None

    async def _opened(self) -> Session:
        if self._session is None or self._session.closed:
            self._session = await connect(self._dsn, "records")
            found = await self._session.execute("select to_regclass('public.service_records') is not null")
            row = await found.fetchone()
            if row is None or not row[0]:
                await self._session.execute(TABLE)
        return self._session

    async def close(self) -> None:
        """Ends the session."""
        async with self._lock:
            if self._session is not None:
                await self._session.close()
                self._session = None


def _failed(error: Exception) -> RecordsError:
    kind = RecordsDenied if isinstance(error, psycopg.errors.InsufficientPrivilege) else RecordsError
    return kind(f"the database: {str(error).partition(chr(10))[0]}")


def records_of(settings: Settings) -> Records:
    """The records of the store."""
    if settings.is_postgres:
        return DatabaseRecords(settings.store)
    return FileRecords(settings.store)
