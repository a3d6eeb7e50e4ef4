"""What comes before a service serves: its configuration is checked, and a store begins only if `--new` says so."""

from __future__ import annotations

import os
import subprocess
from pathlib import Path

import psycopg

from clear_service.postgres_database import is_begun, prepare
from clear_service.settings import Settings

WARNED = 3  # the status of `check_config` if the configuration is one, and something of it is passed over
SECONDS = 600  # for a run of the program, which only reads the configuration


class StartError(Exception):
    """The service cannot start with these arguments."""


def begin(settings: Settings, new: bool) -> None:
    """Checks the configuration and the store, and begins the store if it is new. Raises StartError.

    A store that is missing or empty begins only by `--new`, so a volume that is not there does not look like a new house.
    """
    _run(settings, "check_config", settings.config)
    if settings.is_postgres:
        _begin_database(settings, new)
    else:
        _begin_folder(settings, new)


def has_begun(settings: Settings) -> bool:
    """Whether the store has begun: the folder has files, or the database the tables. Raises StartError and psycopg.Error."""
    if settings.is_postgres:
        return is_begun(settings.store)
    try:
        return any(os.scandir(settings.store))
    except FileNotFoundError:
        return False
    except OSError as error:
        raise StartError(f"cannot read {settings.store}: {error.strerror}") from None


def _begin_folder(settings: Settings, new: bool) -> None:
    if has_begun(settings) == new:
        raise StartError(_other_way(settings.store, new))
    if new:
        _run(settings, "keep", settings.config, settings.store)
    elif _is_first_format(settings.store):
        _run(settings, "check", settings.store)


def _is_first_format(store: str) -> bool:
    """Whether the store begins as one of format 1 does. The program refuses it at once, and says what makes a copy of format 2."""
    try:
        with open(Path(store) / "requests", "rb") as file:
            return file.read(2) == b"+{"
    except OSError:
        return False


def _begin_database(settings: Settings, new: bool) -> None:
    try:
        begun = has_begun(settings)
        if not begun and new:
            prepare(settings.store, Path(settings.config).read_text(encoding="utf-8"))
    except psycopg.Error as error:
        if new:
            raise StartError(f"the database: {str(error).partition(chr(10))[0]}") from None
        return  # The engine waits for the server.
    if begun == new:
        raise StartError(_other_way("the database", new))


def _other_way(store: str, new: bool) -> str:
    if new:
        return f"{store} has a house or other files, and `--new` begins a new house: leave `--new` out"
    return f"{store} is missing or empty: `service/start --new CONFIG STORE` begins a house there"


def _run(settings: Settings, *words: str) -> None:
    """Runs a command of the program without input. Raises StartError with its message."""
    try:
        done = subprocess.run(
            [settings.program, *words],
            stdin=subprocess.DEVNULL,
            capture_output=True,
            timeout=SECONDS,
            check=False,
        )
    except (OSError, subprocess.TimeoutExpired) as error:
        raise StartError(f"cannot run the program: {error}") from None
    if done.returncode not in (0, WARNED):
        said = done.stderr.decode(errors="replace").strip()
        raise StartError(said or f"`{words[0]}` ended with status {done.returncode}")
