"""The command line of service/start: `python3 -m clear_service [--new] CONFIG STORE`."""

from __future__ import annotations

import ctypes
import gc
import logging
import resource
import sys

from clear_service.app import create_app
from clear_service.first_start import StartError, begin
from clear_service.log_writer import MESSAGES, REQUESTS, LogHandler
from clear_service.senders import TokenFileError
from clear_service.server import server_of
from clear_service.settings import SettingError, Settings, settings_of

USAGE = "usage: service/start [--new] CONFIG STORE"
M_TRIM_THRESHOLD, M_MMAP_THRESHOLD = -1, -3
COLLECTED = (50_000, 20, 100)  # the registers are many objects that stay, so the collector runs more rarely


def serve(settings: Settings) -> None:
    """Serves until the process gets a signal to end."""
    gc.set_threshold(*COLLECTED)
    _, most = resource.getrlimit(resource.RLIMIT_NOFILE)
    resource.setrlimit(resource.RLIMIT_NOFILE, (most, most))
    bound_freed_memory()
    try:
        server_of(create_app(settings), settings).run()
    finally:
        REQUESTS.flush(1)
        MESSAGES.flush(1)


def bound_freed_memory() -> None:
    """Has the C library return each large block when it is freed, and keep little free memory between small ones."""
    library = ctypes.CDLL(None)
    library.mallopt(M_MMAP_THRESHOLD, 1 << 16)
    library.mallopt(M_TRIM_THRESHOLD, 1 << 20)


def main(words: list[str]) -> int:
    """Runs the command line; returns the exit status."""
    logging.basicConfig(
        level=logging.INFO, format="%(asctime)s %(levelname)s %(message)s", handlers=[LogHandler(MESSAGES)]
    )
    logging.getLogger("uvicorn").setLevel(logging.WARNING)
    new = words[:1] == ["--new"]
    words = words[1:] if new else words
    try:
        if len(words) != 2 or words[0].startswith("-"):
            print(USAGE, file=sys.stderr)
            return 2
        settings = settings_of(words[0], words[1])
        begin(settings, new)
        serve(settings)
    except (SettingError, StartError, TokenFileError) as error:
        print(f"service: {error}", file=sys.stderr)
        return 2
    return 0


if __name__ == "__main__":
    sys.exit(main(sys.argv[1:]))
