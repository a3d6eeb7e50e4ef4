"""Texts that are encrypted at rest: the tokens by which the service calls its peers.

The key is in a file beside that of the tokens, `clear-tokens.key`, which is made when the first text is encrypted. Without it the texts
cannot be read; who has it and the records can call the peers.
"""

from __future__ import annotations

import os
from pathlib import Path

from cryptography.fernet import Fernet, InvalidToken


class SecretError(Exception):
    """The key is missing or another one, or its file cannot be made."""


class SecretTexts:
    """Encrypts and decrypts by the key of the service."""

    def __init__(self, tokens: str) -> None:
        self._path = Path(tokens + ".key")

    def encrypted(self, text: str) -> str:
        """The encrypted text. Raises SecretError."""
        return self._cipher(make=True).encrypt(text.encode()).decode()

    def decrypted(self, text: str) -> str:
        """The text that was encrypted. Raises SecretError."""
        try:
            return self._cipher(make=False).decrypt(text.encode()).decode()
        except InvalidToken:
            raise SecretError(f"{self._path} is not the key by which the text was encrypted") from None

    def _cipher(self, make: bool) -> Fernet:
        try:
            if make and not self._path.exists():
                self._make()
            return Fernet(self._path.read_bytes().strip())
        except (OSError, ValueError) as error:
            raise SecretError(f"the key {self._path}: {error}") from None

    def _make(self) -> None:
        """Makes the key. Of two services that make it at once, one does, and both read that one."""
        beside = self._path.with_name(f"{self._path.name}.{os.getpid()}")
        descriptor = os.open(beside, os.O_WRONLY | os.O_CREAT | os.O_TRUNC, 0o600)
        try:
            with open(descriptor, "wb") as file:
                file.write(Fernet.generate_key() + b"\n")
                file.flush()
                os.fsync(file.fileno())
            os.link(beside, self._path)
        except FileExistsError:
            pass
        finally:
            os.unlink(beside)
