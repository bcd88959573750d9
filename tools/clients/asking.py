"""Clients for the programs that send a server what is hard for it: one that asks, and one that asks all the time beside it."""
import re
import socket
import sys
import threading
import time

LONG = 120.0  # seconds for a reply
LINE = re.compile(rb"([-+:$*])(-?[^\r]*)\r\n")


def request(words):
    return b"*%d\r\n" % len(words) + b"".join(b"$%d\r\n%s\r\n" % (len(word), word) for word in words)


class Client:
    """A connection, and what came of it and was not looked at."""

    def __init__(self, port):
        self.link = socket.create_connection(("127.0.0.1", port), timeout=LONG)
        self.link.setsockopt(socket.IPPROTO_TCP, socket.TCP_NODELAY, 1)
        self.data = bytearray()
        self.at = 0

    def more(self):
        piece = self.link.recv(1 << 20)
        if not piece:
            raise OSError("the connection ended")
        self.data += piece

    def line(self):
        while True:
            end = self.data.find(b"\r\n", self.at)
            if end >= 0:
                found = bytes(self.data[self.at : end + 2])
                self.at = end + 2
                return LINE.fullmatch(found)
            self.more()

    def pass_reply(self):
        """Goes over one reply, however deep."""
        left = 1
        while left:
            left -= 1
            head = self.line()
            if head[1] == b"$" and head[2] != b"-1":
                self.at += int(head[2]) + 2
                while len(self.data) < self.at:
                    self.more()
            elif head[1] == b"*":
                left += max(int(head[2]), 0)

    def ask(self, words):
        """The reply to a command, as its bytes."""
        sender = threading.Thread(target=self.link.sendall, args=(request(words),))
        sender.start()
        self.pass_reply()
        sender.join()
        reply = bytes(self.data[: self.at])
        del self.data[: self.at]
        self.at = 0
        return reply


class Beside:
    """A client that writes and reads back again and again, and knows how long it waited at most."""

    def __init__(self, port):
        self.client = Client(port)
        self.most = 0.0
        self.fault = None
        self.ends = False
        self.thread = threading.Thread(target=self.run)
        self.thread.start()

    def run(self):
        number = 0
        while not self.ends and self.fault is None:
            number += 1
            begun = time.monotonic()
            self.client.ask([b"HSET", b"beside", b"n", b"%d" % number])
            told = self.client.ask([b"HGET", b"beside", b"n"])
            self.most = max(self.most, time.monotonic() - begun)
            if told != request([b"%d" % number])[4:]:
                self.fault = told
            time.sleep(0.001)

    def end(self):
        self.ends = True
        self.thread.join()
