"""The command line of service/tokens: adds, lists and removes tokens."""

from __future__ import annotations

import sys

from clear_service.lines import folded
from clear_service.senders import METRICS, REGISTER, TokenFile, TokenFileError
from clear_service.settings import SettingError, settings_of

USAGE = (
    "usage: service/tokens add PLATFORM [--anyway] | add --metrics | register PLATFORM [--anyway] | list | "
    "remove PLATFORM-OR-NAME"
)


def main(words: list[str]) -> int:
    """Runs the command line; returns the exit status."""
    try:
        return run(TokenFile(settings_of("", "").tokens), words)
    except (SettingError, TokenFileError, OSError) as error:
        print(f"service: {error}", file=sys.stderr)
        return 2


def run(file: TokenFile, words: list[str]) -> int:
    """Runs a command over the file. Raises TokenFileError and OSError."""
    match words:
        case ["add", "--metrics"]:
            print(file.add(METRICS))
        case ["add" | "register" as kind, platform, *rest] if is_platform(platform) and rest in (
            [],
            ["--anyway"],
        ):
            if not rest and not is_configured(file, platform):
                print(
                    f"service: the configuration has no platform {platform}; --anyway adds it",
                    file=sys.stderr,
                )
                return 1
            print(file.add(platform if kind == "add" else REGISTER + platform))
        case ["list"]:
            for row in file.rows():
                print(row.name, row.made, row.platform)
        case ["remove", name]:
            print(f"{file.remove(name)} removed")
        case _:
            print(USAGE, file=sys.stderr)
            return 2
    return 0


def is_platform(name: str) -> bool:
    """Whether a platform may have this name."""
    return 0 < len(name) <= 36 and name.isascii() and name.isprintable() and not name.startswith("--")


def is_configured(file: TokenFile, platform: str) -> bool:
    """Whether the configuration in force has the platform; before a service has run there is none."""
    platforms = file.platforms()
    return platforms is None or folded(platform) in map(folded, platforms)


if __name__ == "__main__":
    sys.exit(main(sys.argv[1:]))
