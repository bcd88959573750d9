#!/usr/bin/env python3
"""Shows that a client that misbehaves holds its own worker and nobody else's.

    tools/clients/misbehaving.py PORT WORKERS     a server with so many workers, at least 7, to which nobody else is connected

Clients that say nothing, send a byte now and then, never read their replies, or send half a command and stay: while they
hold their workers, the clients of the workers that are left are answered at once. Clients that close in the middle of a
command, vanish without a close, send no request at all, or send bytes behind QUIT, give their workers back. What a client sent
between MULTI and EXEC is seen by nobody before EXEC, and by nobody at all where it vanishes. At the end all
clients are gone, and as many connections as there are workers are answered side by side. Prints a line for each, and ends
with status 1 at the first that is otherwise. It takes some ten seconds.
"""
import socket
import struct
import sys
import threading
import time

SOON = 2.0  # seconds in which a reply is there


def request(*words):
    parts = [b"*%d\r\n" % len(words)]
    for word in words:
        parts.append(b"$%d\r\n%s\r\n" % (len(word), word))
    return b"".join(parts)


PING = request(b"PING")


def connect(port):
    link = socket.create_connection(("127.0.0.1", port), timeout=SOON)
    link.setsockopt(socket.IPPROTO_TCP, socket.TCP_NODELAY, 1)
    return link


def read_exactly(link, count):
    """So many bytes, or those that came before the end of the stream."""
    data = b""
    while len(data) < count:
        piece = link.recv(count - len(data))
        if not piece:
            break
        data += piece
    return data


def is_answered(link, times=1):
    begun = time.monotonic()
    for _ in range(times):
        link.sendall(PING)
        if read_exactly(link, 7) != b"+PONG\r\n":
            return False
    return time.monotonic() - begun < SOON


def say(what, holds):
    print(f"{'ok' if holds else 'NOT'}: {what}")
    if not holds:
        sys.exit(1)


def send_slowly(link, stop):
    """A byte of a PING each fifth of a second."""
    while not stop.is_set():
        for at in range(len(PING)):
            try:
                link.sendall(PING[at:at + 1])
            except OSError:
                return
            if stop.wait(0.2):
                return


def never_reads(port):
    """Asks for 64 KiB again and again until the system takes no more, and reads nothing."""
    link = connect(port)
    link.setsockopt(socket.SOL_SOCKET, socket.SO_RCVBUF, 4096)
    asked = request(b"ECHO", b"x" * 65_536)
    link.settimeout(0.5)
    try:
        for _ in range(10_000):
            link.sendall(asked)
    except TimeoutError:
        pass
    return link


def holders(port, stop):
    """Clients that stay, each with a worker of its own."""
    silent = connect(port)
    half = connect(port)
    half.sendall(PING[:9])
    slow = connect(port)
    threading.Thread(target=send_slowly, args=(slow, stop), daemon=True).start()
    return [silent, half, slow, never_reads(port)]


def vanish(port):
    """Half a command, and then the connection is reset."""
    link = connect(port)
    link.sendall(PING[:9])
    link.setsockopt(socket.SOL_SOCKET, socket.SO_LINGER, struct.pack("ii", 1, 0))
    link.close()


def gives_back(port):
    """Clients that go, one after another, more often than there are workers."""
    for _ in range(30):
        cut = connect(port)
        cut.sendall(PING[:9])
        cut.close()
        vanish(port)
    for _ in range(30):
        link = connect(port)
        link.sendall(b"GET / HTTP/1.0\r\n\r\n")
        if not read_exactly(link, 200).startswith(b"-ERR Protocol error"):
            return False
        link.close()
        link = connect(port)
        link.sendall(request(b"QUIT") + PING * 100)
        if read_exactly(link, 200) != b"+OK\r\n":
            return False
        link.close()
    return True


def asks(link, words, reply):
    link.sendall(request(*words))
    return read_exactly(link, len(reply)) == reply


def transacts(port):
    """One client inside MULTI, another beside it, and one that vanishes inside MULTI."""
    one, two, gone = connect(port), connect(port), connect(port)
    held = [
        asks(one, [b"MULTI"], b"+OK\r\n"),
        asks(one, [b"HSET", b"tx:a", b"t", b"x"], b"+QUEUED\r\n"),
        asks(one, [b"HGET", b"tx:b", b"t"], b"+QUEUED\r\n"),
        asks(two, [b"HGET", b"tx:a", b"t"], b"$-1\r\n"),
        asks(two, [b"HSET", b"tx:b", b"t", b"y"], b":1\r\n"),
        asks(one, [b"EXEC"], b"*2\r\n:1\r\n$1\r\ny\r\n"),
        asks(two, [b"HGET", b"tx:a", b"t"], b"$1\r\nx\r\n"),
        asks(gone, [b"MULTI"], b"+OK\r\n"),
        asks(gone, [b"HSET", b"tx:a", b"t", b"z"], b"+QUEUED\r\n"),
    ]
    gone.setsockopt(socket.SOL_SOCKET, socket.SO_LINGER, struct.pack("ii", 1, 0))
    gone.close()
    held.append(asks(two, [b"HGET", b"tx:a", b"t"], b"$1\r\nx\r\n"))
    held.append(asks(two, [b"DEL", b"tx:a", b"tx:b"], b":2\r\n"))
    one.close()
    two.close()
    return all(held)


def main():
    port, workers = int(sys.argv[1]), int(sys.argv[2])
    stop = threading.Event()
    held = holders(port, stop)
    good = [connect(port) for _ in range(workers - len(held))]
    say(f"{len(good)} clients are answered while {len(held)} others hold their workers", all(is_answered(link, 200) for link in good))
    waits = connect(port)
    waits.settimeout(1.0)
    waits.sendall(PING)
    try:
        early = waits.recv(1)
    except TimeoutError:
        early = b""
    say("one more client waits", early == b"")
    good.pop().close()
    waits.settimeout(SOON)
    say("and is answered once a worker is free", read_exactly(waits, 7) == b"+PONG\r\n")
    waits.close()
    say("clients that go in the middle, send no request or send bytes behind QUIT give their workers back", gives_back(port))
    say("the others were answered all the while", all(is_answered(link, 200) for link in good))
    stop.set()
    for link in held + good:
        link.close()
    time.sleep(1.0)
    say("what waits for EXEC is seen by nobody before it, nor where its client vanishes", transacts(port))
    again = [connect(port) for _ in range(workers)]
    say(f"once all are gone, {workers} clients are answered side by side", all(is_answered(link) for link in again))


if __name__ == "__main__":
    main()
