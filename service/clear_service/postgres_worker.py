"""A worker: has the requests of a database answered by `clear stream`, in the order of their numbers, and stores each answer once.

Of all workers of a database the one that holds its advisory lock stores answers. The others stand by: each gives its own program the
requests that have answers, and tries the lock when there are no more of them. A worker gives its program all requests from the first
one on; if an answer is stored already, the program's has to be the same. Answers are stored with the causes of refusals, and compared
without them.

Answers are stored over the session that holds the lock, and over no other. The server gives the lock to another session only when
this one has ended with all that it had to commit, and a worker that has lost its session can store nothing any more.

It ends with status 1 and a line on standard error if its session or its program ends, or an answer is not the one that is stored.
Nothing is lost by that, nor by a stop at any other moment: what starts it has to start it again.
"""

from __future__ import annotations

import os
import select
import signal
import subprocess
import sys
import threading
from collections.abc import Sequence
from typing import Any

import psycopg

from clear_service.answers import without_cause
from clear_service.child import options_in
from clear_service.postgres_database import (
    AT_ONCE,
    LOCK,
    OURS,
    THEIRS,
    DatabaseError,
    configuration_of,
    worker_name,
)
from clear_service.settings import Settings, settings_of

SECONDS = 1  # for which a worker waits, at most, before it asks again

# The next lines of a table in one row, as a driver in Python takes longer for rows than for bytes. No line has a newline.
NEXT = """
    select count(*), coalesce(min(number), 0), coalesce(max(number), 0), string_agg(line, '\\x0a'::bytea order by number)
    from {} where number > %(before)s and number <= %(before)s + %(count)s"""
REQUESTS = NEXT.format("requests").encode()
ANSWERS = NEXT.format("answers").encode()
STORE = "insert into answers (number, line) select * from unnest(%s::bigint[], %s::bytea[])"


class WorkerError(Exception):
    """The worker cannot go on."""


class Worker:
    """A session, and a program that was given the requests up to the last one."""

    def __init__(self, session: psycopg.Connection[Any], program: subprocess.Popen[bytes]) -> None:
        assert program.stdin is not None and program.stdout is not None
        self._session, self._program = session, program
        self._input, self._output = program.stdin, program.stdout
        self._last = 0
        self._has_lock = False
        self._notified = False
        session.add_notify_handler(self._note)
        session.execute(THEIRS)

    def _note(self, _: psycopg.Notify) -> None:
        self._notified = True

    def _next(self, query: bytes) -> list[bytes]:
        """Some of the next lines of a table. Raises WorkerError if there is a gap."""
        row = self._session.execute(query, {"before": self._last, "count": AT_ONCE}, binary=True).fetchone()
        if row is None or row[0] == 0:
            return []
        count, first, last, lines = row
        if first != self._last + 1 or last != self._last + count:
            raise WorkerError(
                f"request {self._last + 1} or its answer is missing, or one after it, and there are later ones"
            )
        return bytes(lines).split(b"\n")

    def _work_some(self) -> bool:
        """Has some of the next requests answered; whether there were any. Without the lock, those that have answers."""
        stored = self._next(ANSWERS)
        if not stored and not self._has_lock:
            return False
        lines = self._next(REQUESTS)[: None if self._has_lock else len(stored)]
        if not lines:
            return False
        answers = self._answers(lines)
        for number, (answer, old) in enumerate(zip(answers, stored), self._last + 1):
            if without_cause(answer) != without_cause(old):
                raise WorkerError(f"the answer to request {number} is not the one that is stored")
        if len(answers) > len(stored):
            self._store(self._last + len(stored) + 1, answers[len(stored) :])
        self._last += len(lines)
        return True

    def _give(self, lines: Sequence[bytes]) -> None:
        try:
            self._input.write(b"\n".join(lines) + b"\n")
            self._input.flush()
        except OSError:
            pass

    def _answers(self, lines: Sequence[bytes]) -> list[bytes]:
        """The program's answers, which are read while the lines are written, so that neither waits for the other."""
        writer = threading.Thread(target=self._give, args=(lines,))
        writer.start()
        answers = [self._output.readline() for _ in lines]
        writer.join()
        if not answers[-1].endswith(b"\n"):
            raise WorkerError(
                f"the program ended with status {self._program.wait()} and did not answer all requests"
            )
        return [answer[:-1] for answer in answers]

    def _store(self, first: int, answers: Sequence[bytes]) -> None:
        """Stores answers, the first of them to this request."""
        numbers = list(range(first, first + len(answers)))
        with self._session.transaction():
            self._session.execute(STORE, (numbers, list(answers)), binary=True)
            self._session.execute("notify answers")

    def _try_lock(self) -> None:
        """The lock is tried and not waited for, as the session of a worker whose machine is gone would wait before the others."""
        row = self._session.execute("select pg_try_advisory_lock(%s)", (LOCK,)).fetchone()
        self._has_lock = row is not None and bool(row[0])
        if self._has_lock:
            self._session.execute("listen requests")
            self._session.execute("notify answers")
            print(f"worker: has the lock, after request {self._last}", file=sys.stderr, flush=True)

    def _wait(self) -> None:
        """Waits for a notification, at most so long. Raises WorkerError if the program has ended."""
        if not self._notified:
            ready, _, _ = select.select([self._session.fileno(), self._output], [], [], SECONDS)
            if self._output in ready:
                raise WorkerError(f"the program ended with status {self._program.wait()}")
            self._session.execute("")
        self._notified = False

    def work(self) -> None:
        """Works until something fails."""
        while True:
            if self._work_some():
                continue
            if self._has_lock:
                self._wait()
            else:
                self._try_lock()
                if not self._has_lock:
                    self._wait()


def start_program(settings: Settings) -> subprocess.Popen[bytes]:
    """Starts `clear stream` under the database's configuration, which it reads from memory."""
    descriptor = os.memfd_create("configuration")
    with open(descriptor, "w", encoding="utf-8") as config:
        config.write(configuration_of(settings.store))
        config.flush()
        shown = subprocess.run([settings.program, "stream", "--help"], stdout=subprocess.PIPE, check=False)
        options = options_in(shown.stdout.decode(errors="replace"))
        words = [settings.program, "stream", f"/dev/fd/{descriptor}", *options]
        return subprocess.Popen(words, stdin=subprocess.PIPE, stdout=subprocess.PIPE, pass_fds=[descriptor])


def run(settings: Settings) -> None:
    """Runs a worker of the database until something fails."""
    name = worker_name(os.getpid())
    with psycopg.connect(settings.store, autocommit=True, application_name=name, **OURS) as session:
        with start_program(settings) as program:
            try:
                Worker(session, program).work()
            finally:
                program.kill()


def end_with_parent() -> None:
    """Ends this process when its standard input ends, which a service that started it holds open."""
    while os.read(0, 4096):
        pass
    os.kill(os.getpid(), signal.SIGTERM)


def main(words: list[str]) -> int:
    """Runs the command line; returns the exit status."""
    if len(words) != 1 and words[1:] != ["--child"]:
        print("usage: service/worker STORE [--child]", file=sys.stderr)
        return 2
    if words[1:]:
        threading.Thread(target=end_with_parent, daemon=True).start()
    for number in (signal.SIGINT, signal.SIGTERM):
        signal.signal(number, lambda *_: sys.exit(1))
    try:
        run(settings_of("", words[0]))
    except (WorkerError, DatabaseError, OSError) as error:
        print(f"worker: {error}", file=sys.stderr)
    except psycopg.Error as error:
        print(f"worker: the database: {str(error).partition(chr(10))[0]}", file=sys.stderr)
    return 1


if __name__ == "__main__":
    sys.exit(main(sys.argv[1:]))
