"""Random transactions. They change neither which commands of a session are executed nor the number of any, and so no cursor's id."""
from .drawn_values import Draw
from .machine import check_words
from .wire import Fault

MULTI, EXEC, DISCARD = ([name] for name in (b"MULTI", b"EXEC", b"DISCARD"))
# Transactions that execute nothing, and names of transactions in none.
WITHOUT_EFFECT = ([MULTI, EXEC], [MULTI, [b"FLUSHALL"], DISCARD], [EXEC], [DISCARD], [MULTI, MULTI, EXEC],
                  [MULTI, [b"FLUSHALL"], [b"NOPE"], [b"HSET", b"a", b"t", b"x"], EXEC], [MULTI, [b"HSET", b"a"], [b"FLUSHALL"], EXEC],
                  [MULTI, [b"EXEC", b"now"], [b"FLUSHALL"], DISCARD], [[b"MULTI", b"now"]], [MULTI, [b"NOPE"], MULTI, [b"exec"]])
MOST_COMMANDS = 20


def with_transactions(draw: Draw, commands: list) -> list:
    """The commands of a session, with some runs of them between MULTI and EXEC."""
    found, at = [], 0
    while at < len(commands):
        if draw.chance(0.03):
            found += draw.pick(WITHOUT_EFFECT)
        size = run_of_fitting(commands, at, draw.between(1, MOST_COMMANDS)) if draw.chance(0.1) else 0
        run = commands[at:at + max(size, 1)]
        found += [MULTI, *run, EXEC] if size else run
        at += len(run)
    return found


def run_of_fitting(commands: list, at: int, most: int) -> int:
    """How many commands from this one on, up to `most`, may wait: another one would spoil the transaction, or end it."""
    size = 0
    while size < most and at + size < len(commands) and is_fitting(commands[at + size]):
        size += 1
    return size


def is_fitting(words: list) -> bool:
    try:
        check_words(words)
    except Fault:
        return False
    return words[0].upper() != b"QUIT"
