"""Random openings of cursors, and random words of FT.CURSOR."""
import re

from .drawn_aggregates import Aggregate
from .drawn_values import Draw

# Small, so that it takes several reads to the end of a cursor.
COUNTS = ("1", "1", "2", "2", "3", "4", "7")
LONG_TIMES = ("100000", "2147483647")
SHORT_TIME = re.compile(rb"[1-9][0-9]{0,4}")
ODD_IDS = ("0", "01", "-1", "9223372036854775807", "9223372036854775808", "")
ODD_COUNTS = (["COUNT", "0"], ["COUNT", "1000001"], ["COUNT", "01"], ["COUNT"], ["COUNT", "1", "COUNT", "1"],
              ["MAXIDLE", "100000"], ["1"])
ODD_NUMBERS = (["COUNT", "0"], ["COUNT", "1000000"], ["COUNT", "1000001"], ["COUNT", "01"], ["COUNT"], ["MAXIDLE", "0"],
               ["MAXIDLE", "2147483648"], ["MAXIDLE"], ["MAXIDLE", "100000", "COUNT", "1"], ["WITHCURSOR"], ["1"])


def is_short_lived(words: list) -> bool:
    """Whether a cursor may be idle too long within a session: the program has a clock, and the machine has none."""
    return any(name.upper() == b"MAXIDLE" and SHORT_TIME.fullmatch(time) for name, time in zip(words, words[1:]))


class Opening(Aggregate):
    """An aggregate with a cursor. It has few steps, since each may leave too few rows for a second read."""
    LENGTHS = (0, 0, 1, 1, 2, 3)

    def __init__(self, draw: Draw, fields: list):
        super().__init__(draw, fields)
        if draw.chance(0.25):
            self.kinds = {self.apply: 4, self.filter: 1}

    def options(self, query: str) -> list:
        return super().options(query) + [self.with_cursor()]

    def with_cursor(self) -> list:
        if self.draw.chance(0.04):
            return ["WITHCURSOR"] + self.draw.pick(ODD_NUMBERS)
        count = [self.draw.cased("COUNT"), self.draw.pick(COUNTS)] if self.draw.chance(0.95) else []
        max_idle = [self.draw.cased("MAXIDLE"), self.draw.pick(LONG_TIMES)] if self.draw.chance(0.3) else []
        return ["WITHCURSOR"] + count + max_idle


def read_or_delete(draw: Draw, index: str, number: str) -> list:
    """FT.CURSOR of the cursor with this id."""
    is_read = draw.chance(0.85)
    number = draw.pick(ODD_IDS) if draw.chance(0.02) else number
    count = [draw.cased("COUNT"), draw.pick(COUNTS + ("20", "1000000"))] if is_read and draw.chance(0.4) else []
    count = draw.pick(ODD_COUNTS) if draw.chance(0.03) else count
    return [draw.cased("FT.CURSOR"), draw.cased("READ" if is_read else "DEL"), index, number] + count
