"""The cases of compare_redis: sessions of commands, streams of bytes, and where our replies differ by decision."""
import random
from typing import NamedTuple, Optional

# Redis keeps the order of fields in hashes of at most so many fields, and of short values; beyond that it has none.
REDIS_DEFAULT = {"hash-max-listpack-entries": 512, "hash-max-listpack-value": 64}
KEEPS_ORDER = {"hash-max-listpack-entries": 1_000_000, "hash-max-listpack-value": 100_000_000}

MOST_WORDS = 65_536
MOST_WORD_BYTES = 1_048_576

NAMES = """PING ECHO SELECT QUIT HSET HSETNX HGET HMGET HGETALL HDEL HLEN HEXISTS HINCRBY HKEYS HVALS
    DEL EXISTS TYPE DBSIZE RENAME FLUSHALL MULTI EXEC DISCARD""".encode().split()


class Sessions(NamedTuple):
    """Lists of commands, each begun with no hash at all, and Redis's settings for them."""
    name: str
    sessions: list
    settings: dict = KEEPS_ORDER


class Stream(NamedTuple):
    """Bytes, the program's status at their end, and our reply with the reason where it differs by decision."""
    data: bytes
    status: int
    ours: Optional[bytes] = None
    reason: str = ""


def command(text):
    return text.encode().split()


def session(text):
    """One command a line."""
    return [command(line) for line in text.strip().splitlines()]


def request(words):
    return b"*%d\r\n" % len(words) + b"".join(b"$%d\r\n%s\r\n" % (len(word), word) for word in words)


def many_pairs(count):
    """Fields and values in turn."""
    return [part for i in range(count) for part in (b"field%d" % i, b"value%d" % i)]


# Hashes that Redis keeps in no order, for their number of fields and for the length of their values.
UNORDERED = {
    b"many": many_pairs(1_000),
    b"long": [part for i in range(10) for part in (b"f%d" % i, b"%d" % i * 100)],
}


# Replies that differ by decision. Each rule gives our reply to a command where Redis's is the other one that it knows,
# and None elsewhere; its first line is the reason.

def unknown_text(words, theirs):
    """an unknown command's text repeats no words"""
    return b"-ERR unknown command\r\n" if theirs.startswith(b"-ERR unknown command '") else None


def left_out(words, theirs):
    """a command of Redis that is left out is unknown"""
    known = words[0].upper() in NAMES or theirs.startswith(b"-ERR unknown command")
    return None if known else b"-ERR unknown command\r\n"


def flushall_word(words, theirs):
    """a fault of syntax names its word"""
    wrong = words[0].upper() == b"FLUSHALL" and len(words) == 2 and theirs == b"-ERR syntax error\r\n"
    return b"-ERR syntax error at word 1\r\n" if wrong else None


def flushall_number(words, theirs):
    """FLUSHALL of three words or more has a wrong number of them"""
    wrong = words[0].upper() == b"FLUSHALL" and len(words) > 2 and theirs == b"-ERR syntax error\r\n"
    return b"-ERR wrong number of arguments for 'flushall' command\r\n" if wrong else None


def far_index(words, theirs):
    """SELECT reads numbers of 64 bits, and none but 0 is a data base"""
    wrong = words[0].upper() == b"SELECT" and theirs.startswith(b"-ERR value is out of range, value must between ")
    return b"-ERR DB index is out of range\r\n" if wrong else None


def words_behind_exec(words, theirs):
    """EXEC with further words has a wrong number of them, and ends no transaction"""
    wrong = words[0].upper() == b"EXEC" and theirs.startswith(b"-EXECABORT Transaction discarded because of: wrong number ")
    return b"-ERR wrong number of arguments for 'exec' command\r\n" if wrong else None


def order_of_fields(words, theirs):
    """the fields of a large hash come in the order in which they came first"""
    pairs = UNORDERED.get(words[-1])
    if pairs is None or words[0] not in (b"HGETALL", b"HKEYS", b"HVALS"):
        return None
    items = {b"HGETALL": pairs, b"HKEYS": pairs[::2], b"HVALS": pairs[1::2]}[words[0]]
    lines = theirs.split(b"\r\n")
    same_items = sorted(lines[2::2]) == sorted(items) and lines[0] == b"*%d" % len(items)
    return request(items) if same_items else None  # an array of bulks has the spelling of a request


RULES = [unknown_text, left_out, flushall_word, flushall_number, far_index, words_behind_exec, order_of_fields]


# Sessions

CONNECTION = session("""
    PING
    PING hello
    PING hello again
    ECHO hello
    SELECT 0
    SELECT 1
    SELECT -1
    SELECT 2147483647
    SELECT 2147483648
    SELECT -2147483649
    SELECT 9223372036854775807
    FLUSHALL
    FLUSHALL ASYNC
    FLUSHALL sync
    FLUSHALL now
    FLUSHALL ASYNC SYNC
    FLUSHALL ASYNC SYNC now
    DBSIZE
""") + [[b"PING", b""], [b"ECHO", b""], [b"ECHO", b"*1\r\n$4\r\nPING\r\n"]]

QUITS = [session("HSET h a 1\n" + quit + "\nHSET h b 2\nPING") for quit in ("QUIT", "quit", "QUIT now", "QuIt a b c")]

HASHES = session("""
    HSET h a 1 b 2
    HSET h b 3 c x
    HGETALL h
    HINCRBY h a 9223372036854775807
    HINCRBY h c 1
    HDEL h a a z
    HGET h a
    HMGET h b z
    RENAME h k
    TYPE h
    TYPE k
    HSET k d 4 b 5 d 6
    HGETALL k
    HKEYS k
    HVALS k
    HLEN k
    HLEN nothing
    HGETALL nothing
    HKEYS nothing
    HVALS nothing
    HMGET nothing a b
    HEXISTS k b
    HEXISTS k z
    HEXISTS nothing z
    HSETNX k b 7
    HSETNX k e 7
    HSETNX new a 1
    DBSIZE
    EXISTS k new k nothing
    HDEL k b c d e
    HLEN k
    TYPE k
    EXISTS k
    DBSIZE
    HDEL nothing a
    HINCRBY count n 5
    HINCRBY count n -7
    HINCRBY count m -9223372036854775808
    HINCRBY count m -1
    HINCRBY count n 0
    HGETALL count
    HSET other x y
    RENAME other count
    HGETALL count
    RENAME count count
    RENAME nothing count
    RENAME nothing nothing
    HGETALL count
    DEL count count nothing
    DEL new
    DBSIZE
    FLUSHALL
    DBSIZE
""")

TRANSACTIONS = [session(line.replace(";", "\n")) for line in """
    MULTI; HSET a t x; HGET a t; EXEC; HGET a t
    MULTI; NOPE; EXEC; EXEC; DISCARD
    MULTI; MULTI; EXEC; MULTI; HSET a t x; MULTI; HLEN a; EXEC
    EXEC; DISCARD; HSET a t x; EXEC; DISCARD; HGET a t
    MULTI x; EXEC x; DISCARD x; EXEC; MULTI; MULTI x; EXEC; MULTI; DISCARD x y; DISCARD; DISCARD
    MULTI; HGET a t; HSET a; HSET a t x; HGET a t; MULTI; EXEC; HGET a t; MULTI; EXEC; MULTI; PING; EXEC
    MULTI; HSET a t x; DISCARD; EXEC; HGET a t; MULTI; NOPE x; HSET a t z; DISCARD; DISCARD; MULTI; EXEC; DBSIZE
    MULTI; HSET a t x; QUIT; HGET a t
    MULTI; NOPE; quit now; HGET a t
    multi; hset a t x; MuLtI; hGet a t; exec; Multi; hset a t y; discard; exeC; hget a t
    MULTI; HSET a t x; HINCRBY a t 1; HINCRBY a n 2; SELECT 1; HINCRBY a n +1; RENAME z a; HGETALL a; EXEC; HGETALL a
    HSET a t x; MULTI; DEL a; FLUSHALL; EXISTS a; TYPE a; ECHO hello; EXEC; HGETALL a
""".strip().splitlines()] + [session("MULTI\n" + "HINCRBY a n 1\n" * 200 + "EXEC\nHGETALL a")]

ORDER_KEPT = session("""
    HSET h a 1 b 2 c 3 d 4
    HSET h b 9 e 5
    HDEL h a
    HSET h a 6
    HINCRBY h c 1
    HSETNX h b 0
    HGETALL h
    HKEYS h
    HVALS h
    RENAME h g
    HGETALL g
""")


def numbers_of_words():
    """Each command with none to seven arguments, over a hash that is there."""
    sessions = []
    for name in NAMES:
        rows = [[name] + command("h a 1 b 2 c d")[:count] for count in range(8)]
        sessions += [[command("HSET h a 1 x 2")] + [row, command("HGETALL h")] for row in rows]
    return sessions


def names_in_any_case():
    rows = []
    for name in NAMES:
        if name not in (b"QUIT", b"FLUSHALL"):
            args = command("h a 1")
            rows += [[shape] + args[:count] for shape in (name.lower(), name.title()) for count in range(4)]
    return [rows]


SPELLINGS = [text.encode() for text in """0 1 -1 007 05 +5 -0 -05 00 5x x5 5.0 1e3 0x10 -- - + --5 nan inf
    9223372036854775807 9223372036854775808 -9223372036854775808 -9223372036854775809 18446744073709551616
    99999999999999999999 100000000000000000000000000000""".split()] + [b"", b" 5", b"5 ", b"5\n", b"5\0", b"\xb2"]


def numbers():
    """Each spelling as an index, as an increment, and as the value that is there."""
    rows = []
    for spelling in SPELLINGS:
        rows += [[b"SELECT", spelling], [b"HINCRBY", b"h", b"n", spelling], [b"HGET", b"h", b"n"]]
        rows += [[b"HSET", b"g", b"n", spelling], command("HINCRBY g n 1"), command("HINCRBY g n -1")]
        rows += [[b"HINCRBY", b"g", b"n", spelling], command("HGETALL g"), command("HINCRBY g n x"), command("DEL h")]
    return [rows]


def bytes_of_words():
    """Each byte as a key, a field, a value and a message, alone and among others."""
    rows = []
    for byte in range(256):
        for word in (bytes([byte]), b"<%c>" % byte):
            rows += [[b"HSET", word, b"f", b"v"], [b"HSET", b"all", word, word], [b"HSETNX", word, word, word]]
            rows += [[b"HGETALL", word], [b"ECHO", word], [b"HGET", b"all", word], [b"TYPE", word]]
    rows += [[b"HSET", b"", b"", b""], [b"HGETALL", b""], [b"HEXISTS", b"", b""], [b"HINCRBY", b"", b"", b"1"]]
    return [rows + session("HGETALL all\nDBSIZE\nHLEN all")]


def large():
    pairs = many_pairs(1_000)
    single = [[b"HSET", b"h"] + pairs[at:at + 2] for at in range(0, len(pairs), 2)]
    at_once = [[b"HSET", b"k"] + many_pairs(4_000)] * 2
    again = [[b"HSET", b"h"] + pairs[at:at + 1] + [b"new"] for at in range(0, len(pairs), 14)]
    reads = session("HGETALL h\nHKEYS h\nHVALS h\nHLEN h\nHGETALL k\nHLEN k")
    fields = [[b"HMGET", b"h"] + pairs, [b"HDEL", b"h"] + pairs[::4], [b"HDEL", b"h"] + pairs[::2]]
    return [single + at_once + again + reads + fields[:2] + reads + fields[2:] + reads]


def at_limits():
    """Words of the most bytes, and commands of the most words. Redis may keep these hashes in any order."""
    word = b"w" * MOST_WORD_BYTES
    long_words = [[b"HSET", word, word, word], [b"HGETALL", word], [b"HGET", word, word], [b"ECHO", word],
                  [b"EXISTS", word, word[1:]], [b"RENAME", word, word[1:]], [b"DEL", word[1:]]]
    most = [b"HSET", b"h"] + many_pairs((MOST_WORDS - 2) // 2)
    keys = [b"h"] * (MOST_WORDS - 1)
    many_words = [most, command("HLEN h"), [b"EXISTS"] + keys, [b"HMGET"] + keys, [b"DEL"] + keys, command("DBSIZE")]
    most_bytes = [b"EXISTS"] + [word] * 15 + [word[:-len(b"EXISTS")]]
    return [long_words, many_words, [most_bytes]]


# Lengths round those at which a length of a run takes one byte more, and a hash is kept as a map.
LENGTHS = (0, 1, 126, 127, 128, 129, 4_080, 4_096, 16_383, 16_384)


def sizes():
    """Names and values of each length, set over one of each other length, read and taken out, among two other fields."""
    rows = []
    for old in LENGTHS:
        for new in LENGTHS + (MOST_WORD_BYTES,):
            rows.append([[b"HSET", b"h", b"a", b"1", b"b", b"o" * old, b"c", b"3"], [b"HSET", b"h", b"b", b"n" * new],
                         command("HGETALL h"), command("HMGET h a b c"), command("HDEL h b"), command("HGETALL h")])
    for length in LENGTHS + (MOST_WORD_BYTES,):
        name = b"m" * length
        rows.append([[b"HSET", b"h", b"a", b"1", name, b"2", b"c", b"3"], [b"HGET", b"h", name], [b"HEXISTS", b"h", name[1:]],
                     [b"HINCRBY", b"h", name, b"126"], command("HKEYS h"), [b"HDEL", b"h", b"a", name], command("HGETALL h")])
    looks = [b"\1b\1c", b"\1a\1b", b"b\1c", b"\0\0", b"\x80\1" + b"b" * 128]
    rows.append([[b"HSET", b"h", b"a"] + [looks[0], b"d", looks[1], looks[2], looks[3], looks[4], b"z"]]
                + session("HGET h b\nHGET h c\nHGET h d\nHDEL h b c\nHGETALL h"))
    return rows


def crossing():
    """Hashes that grow one field at a time past 64, and past 4,096 bytes, and shrink again."""
    pairs = many_pairs(70)
    by_fields = [row for at in range(0, 140, 2) for row in ([b"HSET", b"h"] + pairs[at:at + 2], command("HGETALL h"))]
    shrunk = session("HDEL h field0 field69\nHGETALL h\nHSET h field0 again field1 new\nHGETALL h\nRENAME h g\nHGETALL g")
    shrunk += [[b"HDEL", b"g"] + pairs[4:130:2], *session("HGETALL g\nHSET g field9 x\nHGETALL g\nHLEN g")]
    by_bytes = [row for i in range(50) for row in ([b"HSET", b"h", b"f%d" % i, b"v" * 97], command("HVALS h"))]
    at_once = [[b"HSET", b"h"] + many_pairs(count) for count in (63, 64, 65, 66)]
    at_once = [row for most in at_once for row in (most, command("HGETALL h"), command("HSETNX h field64 y"), command("HKEYS h"), command("DEL h"))]
    return [by_fields + shrunk, by_bytes, at_once]


def drawn_sizes(seeds):
    """Random writes to one hash of some 60 to 80 fields, with values of lengths that are often near 128 or large."""
    sessions = []
    for seed in seeds:
        rng = random.Random(seed)
        rows = []
        for _ in range(1_500):
            field = b"f%d" % rng.randrange(80)
            value = bytes([rng.randrange(97, 123)]) * rng.choice((0, 1, 5, 30, 126, 127, 128, 129, 400, 2_000))
            rows.append(rng.choice([[b"HSET", b"h", field, value], [b"HSET", b"h", field, value, field + b"x", value],
                                    [b"HDEL", b"h", field], [b"HGET", b"h", field], command("HLEN h"), [b"HSETNX", b"h", field, value]]))
            if rng.randrange(20) == 0:
                rows.append(command(rng.choice(["HGETALL h", "HKEYS h", "HVALS h", "RENAME h h"])))
            if rng.randrange(400) == 0:
                rows.append(command("DEL h"))
        sessions.append(rows)
    return sessions


UNKNOWN = session("""
    NOPE
    NOPE a b
    PINGS
    PIN
    HGETALLL h
    SET k v
    GET k
    HMSET h a 1 b 2
    HSTRLEN h a
    HINCRBYFLOAT h a 1.5
    HRANDFIELD h
    EXPIRE h 100
    KEYS *
    CONFIG GET save
    RESET
    HELLO
    HELLO 2
""") + [[b""], [b"", b"x"], [b"P\0ING"], [b"PING\r\n"], [b"\xff\xfe"], [b"x" * 200, b"y" * 200], [b" PING"]]


def unordered():
    return [[[b"HSET", key] + pairs for key, pairs in UNORDERED.items()]
            + session("HGETALL many\nHKEYS many\nHVALS many\nHGETALL long\nHKEYS long\nHVALS long")]


# Random sessions. The seeds are fixed, so that each run has the same commands.

# A command's name, and a letter for each of its words: k a key, f a field, v a value, n a number.
SHAPES = [shape.strip().partition(" ")[::2] for shape in """
    HSET kfv; HSET kfv; HSET kfvfv; HSET kfvfvfv; HSETNX kfv; HDEL kf; HDEL kff; HDEL kffff; HINCRBY kfn; HINCRBY kfn;
    HGET kf; HMGET kff; HMGET kffff; HGETALL k; HLEN k; HEXISTS kf; HKEYS k; HVALS k; DEL k; DEL kk; RENAME kk;
    EXISTS k; EXISTS kkk; TYPE k; DBSIZE; FLUSHALL; PING v; ECHO v; SELECT n;
    HSET kf; HGET k; HDEL k; RENAME k; HINCRBY kf; DBSIZE k; NOPE kv""".split(";")]
RARE = ("FLUSHALL", "NOPE", "SELECT")
NUMBERS = SPELLINGS + [b"1", b"2", b"-3", b"10", b"4611686018427387904"]
VALUES = NUMBERS + [b"x", b"hello world", b"\r\n", b"\xff\0", b"v" * 100]


def drawn_word(rng, kind):
    if kind == "k":
        return b"key%d" % rng.randrange(6)
    if kind == "f":
        return b"field%d" % rng.randrange(8)
    return rng.choice(NUMBERS if kind == "n" else VALUES)


def drawn_command(rng, without):
    while True:
        name, kinds = rng.choice(SHAPES)
        if name not in without and (name not in RARE or rng.randrange(20) == 0):
            spelled = rng.choice([name, name, name.lower(), name.title()])
            return [spelled.encode()] + [drawn_word(rng, kind) for kind in kinds]


def drawn_sessions(seeds, without=()):
    sessions = []
    for seed in seeds:
        rng = random.Random(seed)
        sessions.append([drawn_command(rng, without) for _ in range(3_000)])
    return sessions


def drawn_transactions(seeds):
    """Random commands between MULTI and EXEC or DISCARD, and now and then one of these elsewhere, or with a word too many. Those are
    left out whose text differs by decision: within the reply to EXEC no decision is looked for."""
    sessions = []
    for seed in seeds:
        rng = random.Random(seed)
        rows = []
        while len(rows) < 2_000:
            if rng.randrange(8) > 0:
                rows.append([rng.choice([b"MULTI", b"multi"])])
            rows += [drawn_command(rng, ("FLUSHALL", "SELECT")) for _ in range(rng.randrange(12))]
            if rng.randrange(10) == 0:
                rows.append(rng.choice([command("MULTI"), command("DISCARD"), command("MULTI x"), command("DISCARD x"), command("HSET h")]))
            rows.append([rng.choice([b"EXEC", b"EXEC", b"EXEC", b"exec", b"Exec", b"DISCARD"])])
        sessions.append(rows)
    return sessions


# Streams

MULTI = b"-ERR Protocol error: invalid multibulk length\r\n"
BULK = b"-ERR Protocol error: invalid bulk length\r\n"
SET = request(command("HSET h f v"))
PING = request(command("PING"))


def no_dollar(shown):
    return b"-ERR Protocol error: expected '$', got '%s'\r\n" % shown


def same_streams():
    """Streams that both read alike: faults, requests of no words, and requests that are not whole."""
    shapes = [b"x", b"", b"+%d", b"0%d", b" %d", b"%d ", b"%dx", b"%d.0", b"%d\n", b"--%d", b"-0", b"0x%d", b"$%d",
              b"00000000000000000000%d", b"2147483648", b"9223372036854775808", b"-9223372036854775809"]
    counts = [shape.replace(b"%d", b"1") for shape in shapes] + [b"9223372036854775807"]
    lengths = [shape.replace(b"%d", b"4") for shape in shapes] + [b"-1", b"-2", b"-4", b"1048577", b"536870913"]
    faults = [b"*" + count + b"\r\n$4\r\nPING\r\n" for count in counts]
    faults += [b"*1\r\n$" + length + b"\r\nPING\r\n" for length in lengths]
    faults += [b"*2\r\n$4\r\nECHO\r\n$" + length + b"\r\nPING\r\n" for length in lengths]
    faults += [b"*1\r\n%c4\r\nPING\r\n" % byte for byte in range(0x20, 0x7F) if byte != 0x24]
    faults += [b"*2\r\n$4\r\nECHO\r\nx2\r\nhi\r\n", b"*1\r\n$4\nPING\r\n", b"*1\n$4\r\nPING\r\n"]
    passed = [b"*0\r\n", b"*-1\r\n", b"*-5\r\n", b"*-9223372036854775808\r\n", b"*0\r\n*0\r\n"]
    whole = [SET, SET + request(command("QUIT")) + b"*x\r\n", SET + request(command("QUIT")) + SET + b"\0\0"]
    parts = [PING[:size] for size in range(1, len(PING))] + [b"*65536\r\n", b"*1\r\n$1048576\r\n"]
    return ([Stream(SET + fault + PING, 1) for fault in faults] + [Stream(SET + row + PING, 0) for row in passed]
            + [Stream(row, 0) for row in passed + whole] + [Stream(SET + part, 1) for part in parts])


def other_streams():
    """Streams that Redis reads, or waits in, and that are faults here."""
    inline = [b"PING\r\n", b"ping\n", b"\r\n", b"ECHO \"a b\"\r\n", b"ECHO \"a\r\n", b"$4\r\nPING\r\n", b"\0"]
    rows = [(data, MULTI, "inline commands are not spoken") for data in inline]
    one = "a request has one spelling: each line ends with a carriage return and a line feed"
    rows += [(b"*1\rX$4\r\nPING\r\n", MULTI, one), (b"*1\r\n$4\rXPING\r\n", BULK, one), (b"*0\rX" + PING, MULTI, one)]
    rows += [(b"*1\r\n$4\r\nPING" + end + PING, BULK, one) for end in (b"xx", b"\n\n", b"\n\r", b"\rx", b"\r\r")]
    soon = "a fault stands as soon as its first byte is there"
    rows += [(b"*1\r\n+", no_dollar(b"+"), soon)]
    rows += [(b"*1\r\n$4\r\nPING" + end, BULK, soon) for end in (b"x", b"\rx")]
    long = "a line is looked at for 21 bytes"
    rows += [(b"*" + b"1" * 21, MULTI, long), (b"*1\r\n$" + b"1" * 21, BULK, long)]
    shown = "a byte outside 0x20 to 0x7E is shown as a question mark"
    hidden = [*range(0x20), *range(0x7F, 0x100)]
    rows += [(b"*1\r\n%c4\r\nPING\r\n" % byte, no_dollar(b"?"), shown) for byte in hidden]
    limits = "a command has at most 65,536 words and 16,777,216 bytes"
    word = b"w" * MOST_WORD_BYTES
    rows += [(b"*65537\r\n", MULTI, limits), (b"*2147483647\r\n", MULTI, limits)]
    rows += [(request([b"EXISTS"] + [b"h"] * MOST_WORDS), MULTI, limits)]
    rows += [(request([b"EXISTS"] + [word] * 15 + [word[5:]]), BULK, limits)]
    return [Stream(SET + data, 1, b":1\r\n" + text, reason) for data, text, reason in rows]


def groups():
    return [
        Sessions("connection", [CONNECTION] + QUITS),
        Sessions("hash commands", [HASHES, ORDER_KEPT]),
        Sessions("transactions", TRANSACTIONS),
        Sessions("numbers of words", numbers_of_words()),
        Sessions("case of names", names_in_any_case()),
        Sessions("spellings of numbers", numbers()),
        Sessions("bytes of words", bytes_of_words()),
        Sessions("large hashes", large()),
        Sessions("sizes of names and values", sizes()),
        Sessions("hashes at the crossing", crossing() + drawn_sizes(range(300, 304))),
        Sessions("at the limits", at_limits(), REDIS_DEFAULT),
        Sessions("order of large hashes", unordered(), REDIS_DEFAULT),
        Sessions("names of no command", [UNKNOWN]),
        Sessions("random, fields stay", drawn_sessions(range(100, 103), without=("HDEL", "HINCRBY", "RENAME"))),
        Sessions("random", drawn_sessions(range(200, 204))),
        Sessions("random transactions", drawn_transactions(range(400, 404))),
        ("faults of the wire", same_streams()),
        ("wire, by decision", other_streams()),
    ]
