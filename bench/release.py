"""Has programs go without releasing their client ids, and prints a line for each point. `release.sh` starts it."""
import os
import select
import socket
import subprocess
import sys
import threading
import time

folder, program = sys.argv[1:3]
os.chdir(folder)
failed = 0
DMS = 2
GET_MODEL, ALLOCATE, RELEASE, PROXY_OPEN = 0x22, 0x22, 0x23, 0xFF00
SUCCESS = bytes(4)
# The error of a modem that has no client id left.
NO_CLIENT_IDS = (1).to_bytes(2, "little") + (5).to_bytes(2, "little")


def point(name, holds):
    """A line for what is to hold."""
    global failed
    failed += not holds
    print(f"{'ok' if holds else 'FAILED':6} {name}", flush=True)


def tlv(kind, value):
    return bytes([kind]) + len(value).to_bytes(2, "little") + value


def control(flags, kind, number, message, *tlvs):
    """A message of service 0: a request where flags and kind are 0."""
    body = b"".join(tlvs)
    head = bytes([flags, 0, 0, kind, number]) + message.to_bytes(2, "little") + len(body).to_bytes(2, "little")
    return b"\x01" + (2 + len(head) + len(body)).to_bytes(2, "little") + head + body


def release_of(client):
    return control(0, 0, 0, RELEASE, tlv(1, bytes([DMS, client])))


def without_number(message):
    return message[:7] + message[8:]


def get_model(client, number):
    body = bytes([0]) + number.to_bytes(2, "little") + GET_MODEL.to_bytes(2, "little") + bytes(2)
    return b"\x01" + (5 + len(body)).to_bytes(2, "little") + bytes([0, DMS, client]) + body


def framed(stream, rest=b""):
    """The messages that come from a socket."""
    while piece := stream.recv(65536):
        rest += piece
        while len(rest) >= 3 and len(rest) > int.from_bytes(rest[1:3], "little"):
            end = int.from_bytes(rest[1:3], "little") + 1
            yield rest[:end]
            rest = rest[end:]


class Modem:
    """A modem with 254 client ids of DMS (255 is the one for all programs), which answers Allocate, Release and Get Model."""

    def __init__(self):
        self.free, self.releases, self.silent = list(range(1, 255)), [], False
        self.listener = socket.socket(socket.AF_UNIX)
        self.listener.bind("modem")
        self.listener.listen()
        threading.Thread(target=self.listen, daemon=True).start()

    def listen(self):
        while True:
            stream, _ = self.listener.accept()
            threading.Thread(target=self.serve, args=[stream], daemon=True).start()

    def serve(self, stream):
        try:
            for message in framed(stream):
                if answer := self.answer(message):
                    stream.sendall(answer)
        except OSError:
            pass  # the proxy is gone

    def answer(self, message):
        if message[4] == DMS:
            body = bytes([2]) + message[7:11] + (7).to_bytes(2, "little") + tlv(2, SUCCESS)
            return b"\x01" + (5 + len(body)).to_bytes(2, "little") + bytes([0x80, DMS, message[5]]) + body
        number, kind = message[7], int.from_bytes(message[8:10], "little")
        if kind == ALLOCATE:
            if not self.free:
                return control(0x80, 1, number, kind, tlv(2, NO_CLIENT_IDS))
            return control(0x80, 1, number, kind, tlv(2, SUCCESS), tlv(1, bytes([DMS, self.free.pop(0)])))
        if kind == RELEASE:
            self.releases.append((time.monotonic(), message))
            if self.silent:
                return None
            self.free.append(message[-1])
            return control(0x80, 1, number, kind, tlv(2, SUCCESS), tlv(1, message[-2:]))
        return None


class Client:
    """A program at the proxy."""

    def __init__(self):
        self.socket = socket.socket(socket.AF_UNIX)
        for _ in range(1000):
            try:
                self.socket.connect("proxy.sock")
                break
            except OSError:
                time.sleep(0.01)
        self.socket.settimeout(5)
        self.messages = framed(self.socket)
        self.ask(control(0, 0, 1, PROXY_OPEN, tlv(1, b"modem")))

    def ask(self, message):
        self.socket.sendall(message)
        return next(self.messages)

    def allocate(self):
        """A client id of DMS, or none."""
        answer = self.ask(control(0, 0, 2, ALLOCATE, tlv(1, bytes([DMS]))))
        return answer[-1] if answer[15:19] == SUCCESS else None

    def gets_model(self, client):
        return self.ask(get_model(client, 7))[16:20] == SUCCESS

    def quiet(self, seconds):
        """Whether nothing comes for so long."""
        return select.select([self.socket], [], [], seconds)[0] == []

    def go(self):
        self.socket.close()


def serving(*settings):
    return subprocess.Popen([program, "qmi-proxy", "-d", "modem", "--socket", "proxy.sock", "--no-exit", *settings])


def end(proxy):
    proxy.terminate()
    proxy.wait()


modem = Modem()
proxy = serving("--release-after", "1")
client, other = Client(), Client()
taken = client.allocate()
client.go()
gone = time.monotonic()
time.sleep(0.7)
point("an id whose program went stays taken for a while", modem.releases == [])
time.sleep(0.8)
point("then the proxy releases it, once", [without_number(message) for _, message in modem.releases] == [without_number(release_of(taken))])
point(".. a second after the end, give or take a tick of its clock", 0.9 <= modem.releases[0][0] - gone <= 1.3)
point(".. and the modem has it again", taken in modem.free)
point(".. and no program is told of it", other.quiet(0.3))

modem.releases = []
client = Client()
taken = client.allocate()
client.go()
time.sleep(0.2)
point("a program that uses an id in time has it from then on", other.gets_model(taken))
time.sleep(1.4)
point(".. and it isn't released", modem.releases == [])
other.go()
time.sleep(1.5)
point(".. but once that program went", [message[-1] for _, message in modem.releases] == [taken])

modem.releases = []
client = Client()
taken = [client.allocate() for _ in range(255)]
point("a program takes all 254 ids, and there is no more", None not in taken[:254] and taken[254] is None and len(set(taken)) == 255)
client.go()
other = Client()
point("the next program gets none as long as they are kept", other.allocate() is None)
time.sleep(1.8)
point("all of them are released, each once", sorted(message[-1] for _, message in modem.releases) == sorted(set(taken) - {None}))
point(".. so the next program gets one", other.allocate() is not None)
other.go()

time.sleep(1.5)
modem.releases, modem.silent = [], True
client = Client()
taken = client.allocate()
client.go()
time.sleep(1.8)
point("a modem that doesn't answer is asked once", [message[-1] for _, message in modem.releases] == [taken])
other = Client()
point(".. and others go on", other.gets_model(other.allocate()))
end(proxy)

modem.releases, modem.silent, modem.free = [], False, list(range(1, 255))
os.unlink("proxy.sock")
proxy = serving()
client = Client()
client.allocate()
client.go()
time.sleep(1.5)
point("without --release-after nothing is released", modem.releases == [])
end(proxy)

# What a tick of the clock costs beside programs and kept ids, its wait and its wakings counted in.
def tick(clients, ids):
    """The processor time of a tick beside so many programs and kept ids, in microseconds."""
    modem.free = list(range(1, 255))
    os.unlink("proxy.sock")
    proxy = serving("--release-after", "86400")
    client = Client()
    taken = [client.allocate() for _ in range(ids)]
    others = [Client() for _ in range(clients)]
    client.go()
    time.sleep(0.5)

    def spent():
        with open(f"/proc/{proxy.pid}/schedstat") as told:
            return int(told.read().split()[0])

    begun, before = time.monotonic(), spent()
    time.sleep(15)
    cost = (spent() - before) / 1000 / ((time.monotonic() - begun) * 10)
    end(proxy)
    return cost


alone, beside = tick(0, 0), tick(63, 254)
point(f"a tick costs at most 20 us more beside 63 programs and 254 kept ids than beside none ({beside:.1f} us, {alone:.1f})", beside - alone <= 20)
sys.exit(failed > 0)
