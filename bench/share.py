"""Has programs ask for more than their share, and prints a line for each point. `share.sh` starts it."""
import os
import select
import socket
import struct
import subprocess
import sys
import threading
import time
import uuid

folder, program = sys.argv[1:3]
os.chdir(folder)
failed = 0
SHARE = 16
# How long the proxies wait for an answer, in seconds.
TIME = 3


def point(name, holds):
    """A line for what is to hold."""
    global failed
    failed += not holds
    print(f"{'ok' if holds else 'FAILED':6} {name}", flush=True)


class Qmi:
    """Requests of DMS with client id 5: one of a message that the modem doesn't answer, and one that it does."""

    name = "qmi"
    numbers = 65536
    # Proxy Open
    openings = [b"\x01\x13\x00\x00\x00\x00\x00\x01\x00\xff\x08\x00\x01\x05\x00modem"]
    silent, answered = 0x2D, 0x22

    @staticmethod
    def length(head):
        return int.from_bytes(head[1:3], "little") + 1

    @staticmethod
    def request(kind, number, client):
        return struct.pack("<BHBBBBHHH", 1, 12, 0, 2, client, 0, number, kind, 0)

    @staticmethod
    def answer(message):
        """What the modem says, if anything."""
        if message[4] == 2 and message[9:11] == b"\x22\x00":
            return struct.pack("<BHBBBBHHHBHI", 1, 19, 0x80, 2, message[5], 2, *struct.unpack_from("<H", message, 7), 0x22, 7, 2, 4, 0)
        return None

    @staticmethod
    def number(message):
        return struct.unpack_from("<H", message, 7)[0]

    @staticmethod
    def outcome(message):
        """0 for success, else the error."""
        return struct.unpack_from("<H", message, 18)[0]

    passed, aborted = 2, 4


class Mbim:
    """Commands: one of a CID that the modem doesn't answer, and one that it does."""

    name = "mbim"
    numbers = 1 << 32
    # a Configuration of the proxy's own service, CID 1, which names the device, and OPEN
    path = "modem".encode("utf-16-le") + bytes(2)
    named = struct.pack("<IIIII", 3, 48 + 12 + len(path), 1, 1, 0) + uuid.UUID("838cf7fb-8d0d-4d7f-871e-d71dbefbb39b").bytes
    named += struct.pack("<IIIIII", 1, 1, 12 + len(path), 12, 10, 30) + path
    openings = [named, struct.pack("<IIII", 1, 16, 2, 4096)]
    service = uuid.UUID("a289cc33-bcbb-8b4f-b6b0-133ec2aae6df").bytes
    silent, answered = 2, 1

    @staticmethod
    def length(head):
        return int.from_bytes(head[4:8], "little")

    @classmethod
    def request(cls, kind, number, _):
        return struct.pack("<IIIII", 3, 48, number, 1, 0) + cls.service + struct.pack("<III", kind, 0, 0)

    @classmethod
    def answer(cls, message):
        kind, _, number = struct.unpack_from("<III", message)
        if kind == 1:
            return struct.pack("<IIII", 0x80000001, 16, number, 0)
        if kind == 3 and (message[20:36] != cls.service or struct.unpack_from("<I", message, 36)[0] != cls.silent):
            return struct.pack("<IIIII", 0x80000003, 48, number, 1, 0) + message[20:40] + struct.pack("<II", 0, 0)
        return None

    @staticmethod
    def number(message):
        return struct.unpack_from("<I", message, 8)[0]

    @staticmethod
    def outcome(message):
        return struct.unpack_from("<I", message, 40)[0]

    passed, aborted = 13, 2


class Framed:
    """The messages that come from a socket."""

    def __init__(self, kind, stream):
        self.kind, self.stream, self.rest = kind, stream, b""

    def take(self):
        """Whether more bytes came."""
        piece = self.stream.recv(1 << 20)
        self.rest += piece
        return piece != b""

    def whole(self):
        """The next whole message, if one is there."""
        if len(self.rest) < 12 or len(self.rest) < self.kind.length(self.rest):
            return None
        length = self.kind.length(self.rest)
        message, self.rest = self.rest[:length], self.rest[length:]
        return message


class Modem:
    """It counts the requests that it doesn't answer."""

    def __init__(self, kind):
        self.kind, self.unanswered = kind, 0
        self.listener = socket.socket(socket.AF_UNIX)
        self.listener.bind("modem")
        self.listener.listen()
        threading.Thread(target=self.serve, daemon=True).start()

    def serve(self):
        while True:
            stream, _ = self.listener.accept()
            try:
                self.answer(stream)
            except OSError:
                pass  # the proxy is gone

    def answer(self, stream):
        framed = Framed(self.kind, stream)
        while framed.take():
            while message := framed.whole():
                if answer := self.kind.answer(message):
                    stream.sendall(answer)
                else:
                    self.unanswered += 1


class Client:
    """A program at the proxy; of QMI one that uses this client id."""

    def __init__(self, kind, client):
        self.kind, self.client, self.last = kind, client, 0
        self.socket = socket.socket(socket.AF_UNIX)
        for _ in range(1000):
            try:
                self.socket.connect("proxy.sock")
                break
            except OSError:
                time.sleep(0.01)
        self.socket.settimeout(10)
        self.framed = Framed(kind, self.socket)
        for message in kind.openings:
            self.socket.sendall(message)
            self.next()

    def next(self):
        while (message := self.framed.whole()) is None:
            if not self.framed.take():
                raise EOFError("the proxy hung up")
        return message

    def requests(self, kind, count):
        """So many requests, numbered on."""
        first = self.last + 1
        self.last += count
        return b"".join(self.kind.request(kind, number % self.kind.numbers, self.client) for number in range(first, first + count))

    def ask(self, kind, count):
        self.socket.sendall(self.requests(kind, count))

    def outcomes(self, count):
        """The numbers and outcomes of the next answers."""
        return [(self.kind.number(message), self.kind.outcome(message)) for message in (self.next() for _ in range(count))]

    def is_answered(self):
        self.ask(self.kind.answered, 1)
        return self.outcomes(1) == [(self.last % self.kind.numbers, 0)]

    def is_quiet(self, seconds):
        return self.framed.whole() is None and select.select([self.socket], [], [], seconds)[0] == []

    def flood(self, count):
        """Sends so many at once, and reads meanwhile: the numbers and outcomes that come."""
        waiting, found = memoryview(self.requests(self.kind.silent, count)), []
        self.socket.setblocking(False)
        until = time.monotonic() + 60
        while time.monotonic() < until and (waiting or len(found) < count):
            readable, writable, _ = select.select([self.socket], [self.socket] if waiting else [], [], 1)
            if readable and not self.framed.take():
                break
            if writable:
                waiting = waiting[self.socket.send(waiting[:65536]):]
            while message := self.framed.whole():
                found.append((self.kind.number(message), self.kind.outcome(message)))
        self.socket.settimeout(10)
        return found


def serving(kind):
    return subprocess.Popen([program, f"{kind.name}-proxy", "-d", "modem", "--socket", "proxy.sock", "--no-exit", "--time", str(1000 * TIME)])


def end(proxy):
    proxy.terminate()
    proxy.wait()
    os.unlink("proxy.sock")


def points(kind):
    modem = Modem(kind)
    proxy = serving(kind)
    greedy, other = Client(kind, 5), Client(kind, 6)
    asked = time.monotonic()
    greedy.ask(kind.silent, SHARE + 1)
    point(f"{kind.name}: the 17th request of a program is refused, by itself", greedy.outcomes(1) == [(SHARE + 1, kind.passed)])
    point(".. and none of the 16 before it", greedy.is_quiet(0.3))
    point(".. which are all that the modem got", modem.unanswered == SHARE)
    point(".. and another program goes on", other.is_answered())
    greedy.ask(kind.answered, 1)
    point(".. while one more of the first is refused, whatever it asks", greedy.outcomes(1) == [(SHARE + 2, kind.passed)])

    times = greedy.outcomes(SHARE)
    waited = time.monotonic() - asked
    point("when their time is over, each of the 16 is refused in its turn", times == [(number, kind.aborted) for number in range(1, SHARE + 1)])
    point(f".. after {TIME} s, give or take a tick of the clock", TIME - 0.1 <= waited <= TIME + 0.5)
    point(".. and the program may ask again", greedy.is_answered())

    first = greedy.last + 1
    began = time.monotonic()
    answered, beside = [], threading.Thread(target=lambda: answered.extend(other.is_answered() for _ in range(200)))
    beside.start()
    found = greedy.flood(65536)
    beside.join()
    took = time.monotonic() - began
    passed = [number for number, outcome in found if outcome == kind.passed]
    late = [number for number, outcome in found if outcome == kind.aborted]
    numbers = [number % kind.numbers for number in range(first, first + 65536)]
    point("of 65,536 requests at once each gets its answer", sorted(passed + late) == sorted(numbers) and len(found) == 65536)
    point(".. the first 16 when their time is over, the next ones at once", late[:SHARE] == numbers[:SHARE] and passed[:1000] == numbers[SHARE:SHARE + 1000])
    point(f".. and a program beside it 200 answers meanwhile ({took:.1f} s)", answered == [True] * 200)

    # the numbers of what wasn't answered stay in use, so this begins anew
    end(proxy)
    proxy, modem.unanswered = serving(kind), 0
    crowd, other = [Client(kind, client) for client in range(7, 7 + 15)], Client(kind, 6)
    for client in crowd:
        client.ask(kind.silent, SHARE)
    time.sleep(0.5)
    point("fifteen programs at their share beside one that isn't: the modem gets all", modem.unanswered == 15 * SHARE)
    point(".. and the one goes on", all(other.is_answered() for _ in range(100)))
    crowd[0].ask(kind.silent, 1)
    point(".. and each of them is refused more", crowd[0].outcomes(1) == [(SHARE + 1, kind.passed)])
    end(proxy)
    os.unlink("modem")


points(Qmi)
points(Mbim)
sys.exit(failed > 0)
