"""Transactions: what becomes of the commands of a connection between MULTI and EXEC (COMMANDS.md)."""
from typing import Callable

from .wire import Fault, array, error, line

NAMES = (b"MULTI", b"EXEC", b"DISCARD")
SPOILT = "EXECABORT Transaction discarded because of previous errors."


class Transaction:
    """The commands that wait, None where no transaction is under way. One with a command that was refused is spoilt."""

    def __init__(self):
        self.waiting = None
        self.is_spoilt = False

    def reply(self, words: list, check: Callable, execute: Callable) -> bytes:
        """What a command is answered. `check` raises a fault of its name or its number of words, and `execute` executes it."""
        name = words[0].upper()
        if name == b"QUIT":
            self.end()
            return execute(words)
        if self.waiting is None and name not in NAMES:
            return execute(words)
        try:
            check(words)
            if name in NAMES:
                return self.step(name, execute)
        except Fault as fault:
            self.is_spoilt = self.waiting is not None
            return error(fault.text)
        self.waiting.append(words)
        return line("QUEUED")

    def step(self, name: bytes, execute: Callable) -> bytes:
        """MULTI, EXEC or DISCARD."""
        if name == b"MULTI":
            if self.waiting is not None:
                return error("ERR MULTI calls can not be nested")
            self.waiting = []
            return line("OK")
        if self.waiting is None:
            return error(f"ERR {name.decode()} without MULTI")
        waiting, is_spoilt = self.waiting, self.is_spoilt
        self.end()
        if name == b"DISCARD":
            return line("OK")
        return error(SPOILT) if is_spoilt else array([execute(words) for words in waiting])

    def end(self):
        self.waiting = None
        self.is_spoilt = False
