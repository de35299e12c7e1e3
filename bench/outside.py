"""Has a proxy serve many programs, and prints a line for each point. `outside.sh` starts it."""
import array
import atexit
import fcntl
import os
import pty
import random
import select
import socket
import subprocess
import sys
import termios
import threading
import time
import tty

folder, program, seed = sys.argv[1:4]
os.chdir(folder)
random.seed(seed)
failed = 0
CLIENTS = 64
# So many messages of each are under way at once: in all fewer than the 1,024 for which a proxy has numbers.
MESSAGES = 15
DMS = 2
ABORTED, INTERNAL, INVALID_CLIENT = 4, 3, 7
# A request of DMS under client id 0, which the proxy refuses by itself, is asked for so many times at once.
AT_ONCE = 1000


def point(name, holds):
    """A line for what is to hold."""
    global failed
    failed += not holds
    print(f"{'ok' if holds else 'FAILED':6} {name}", flush=True)


def tlv(kind, value):
    return bytes([kind]) + len(value).to_bytes(2, "little") + value


def message(flags, client, number, tlvs):
    """A message of DMS, Get Model: from the host without flags, and a modem's response."""
    body = bytes([2 if flags else 0]) + number.to_bytes(2, "little") + b"\x22\x00" + len(tlvs).to_bytes(2, "little") + tlvs
    return b"\x01" + (len(body) + 5).to_bytes(2, "little") + bytes([flags, DMS, client]) + body


def refusal(client, number, error):
    return message(0x80, client, number, tlv(2, b"\x01\x00" + error.to_bytes(2, "little")))


def opening(device):
    """Proxy Open of the device, and its success."""
    named = tlv(1, device.encode())
    asks = bytes([0, 1, 0, 0xFF]) + len(named).to_bytes(2, "little") + named
    return b"\x01" + (len(asks) + 5).to_bytes(2, "little") + bytes(3) + asks, bytes.fromhex("01120080000001" "0100ff0700" "02040000000000")


class Modem:
    """A modem that answers a message with its own TLVs, unless it is silent."""

    def __init__(self):
        self.silent, self.gone, self.got = False, False, 0

    def listen(self):
        """It is behind a socket, of one program at a time."""
        self.listener = socket.socket(socket.AF_UNIX)
        self.listener.bind("modem")
        self.listener.listen()
        threading.Thread(target=self.accept, args=[self.listener], daemon=True).start()
        return "modem"

    def offer_node(self):
        """It is behind a raw pseudo terminal."""
        end, node = pty.openpty()
        tty.setraw(node)
        self.serving = threading.Thread(target=self.serve_node, args=[end, node], daemon=True)
        self.serving.start()
        return os.ttyname(node)

    def serve_node(self, end, node):
        self.serve(end)
        os.close(node)
        os.close(end)

    def read(self, stream):
        """What comes next, or nothing once it is gone: no reading may wait in a terminal that is closed."""
        while not self.gone:
            if select.select([stream], [], [], 0.05)[0]:
                return os.read(stream, 4096)
        return b""

    def accept(self, listener):
        try:
            while True:
                self.stream, _ = listener.accept()
                self.serve(self.stream.fileno())
        except OSError:
            pass  # it was taken away

    def serve(self, stream):
        rest = b""
        try:
            while piece := self.read(stream):
                rest += piece
                while len(rest) > 2 and len(rest) > int.from_bytes(rest[1:3], "little"):
                    end = int.from_bytes(rest[1:3], "little") + 1
                    asked, rest = rest[:end], rest[end:]
                    self.got += 1
                    if not self.silent:
                        answer = memoryview(message(0x80, asked[5], int.from_bytes(asked[7:9], "little"), asked[13:]))
                        while answer:
                            answer = answer[os.write(stream, answer):]
        except OSError:
            pass  # it is lost

    def leave_socket(self):
        """Nobody reaches it any more."""
        os.unlink("modem")
        self.listener.shutdown(socket.SHUT_RDWR)
        self.listener.close()
        self.stream.shutdown(socket.SHUT_RDWR)

    def leave_node(self):
        self.gone = True
        self.serving.join()


def start(device):
    words = [program, "qmi-proxy", "-d", device, "--socket", "proxy", "--bridge", "bridge", "--no-exit"]
    proxy = subprocess.Popen(words, stderr=subprocess.DEVNULL)
    atexit.register(proxy.kill)
    for _ in range(1000):
        try:
            client, joined = join(device)
        except OSError:
            joined = False
        if joined:
            client.close()
            # it isn't counted among the others any more
            time.sleep(0.2)
            return proxy
        time.sleep(0.01)
    sys.exit("the proxy doesn't serve")


def connect():
    client = socket.socket(socket.AF_UNIX)
    client.settimeout(30)
    client.connect("proxy")
    return client


def take(client, count):
    """The next bytes, fewer where no more come."""
    got = b""
    try:
        while len(got) < count and (piece := client.recv(count - len(got))):
            got += piece
    except OSError:
        pass
    return got


def takes(client, wanted):
    return take(client, len(wanted)) == wanted


def parts_of(stream):
    """The stream cut at some places."""
    places = sorted(random.sample(range(len(stream) + 1), min(40, len(stream))))
    return [stream[start:end] for start, end in zip([0, *places], [*places, len(stream)])]


def many_get_their_own(device):
    """Many programs whose messages come in parts, in turns that are drawn. They stay."""
    asks, opened = opening(device)
    clients, due, parts = [], [], []
    for number in range(CLIENTS):
        asked = [(random.randrange(0x10000), tlv(0x10, random.randbytes(random.randrange(300)))) for _ in range(MESSAGES)]
        clients.append(connect())
        due.append(opened + b"".join(message(0x80, number + 1, *each) for each in asked))
        parts.append(parts_of(asks + b"".join(message(0, number + 1, *each) for each in asked)))
    while left := [number for number in range(CLIENTS) if parts[number]]:
        number = random.choice(left)
        clients[number].sendall(parts[number].pop(0))
    point(f"{CLIENTS} programs whose messages come in parts get their own answers", all([takes(*each) for each in zip(clients, due)]))
    return clients


def unread(client):
    """How many bytes stand in its socket."""
    count = array.array("i", [0])
    fcntl.ioctl(client, termios.FIONREAD, count)
    return count[0]


def join(device):
    """A program that has opened the device."""
    client = connect()
    asks, opened = opening(device)
    client.sendall(asks)
    return client, takes(client, opened)


def one_doesnt_read(other):
    """A program asks and doesn't read, until its socket is full and more waits for it, and then reads."""
    client, joined = join("modem")
    point("a program takes the place of one that left", joined)
    due, waiting = b"", 0
    while waiting < 4:
        numbers = [(len(due) // 20 + more) % 0x10000 for more in range(AT_ONCE)]
        client.sendall(b"".join(message(0, 0, number, b"") for number in numbers))
        due += b"".join(refusal(0, number, INVALID_CLIENT) for number in numbers)
        for _ in range(50):
            if unread(client) == len(due):
                break
            time.sleep(0.01)
        else:
            waiting += 1
        if len(due) > 10_000_000:
            break
    point("a program that doesn't read has its socket full, and more waits", waiting == 4)
    other.sendall(message(0, 1, 7, b""))
    point("another one is answered meanwhile", takes(other, message(0x80, 1, 7, b"")))
    point("it gets all that waits once it reads", takes(client, due))
    client.sendall(message(0, 0, 9, b""))
    point(".. and what comes then", takes(client, refusal(0, 9, INVALID_CLIENT)))
    client.close()
    time.sleep(0.2)


def lose(clients, modem, leave):
    """The modem goes while each program waits for an answer."""
    modem.silent, modem.got = True, 0
    for number, client in enumerate(clients):
        client.sendall(message(0, number + 1, 100 + number, b""))
    for _ in range(1000):
        if modem.got == CLIENTS:
            break
        time.sleep(0.01)
    point("a silent modem gets everybody's request", modem.got == CLIENTS)
    leave()
    point("it is lost: each program is told of its own request", all([takes(client, refusal(number + 1, 100 + number, ABORTED)) for number, client in enumerate(clients)]))
    for number, client in enumerate(clients):
        client.sendall(message(0, number + 1, 200 + number, b""))
    point("it is away: each one's next request is refused", all([takes(client, refusal(number + 1, 200 + number, INTERNAL)) for number, client in enumerate(clients)]))


def come_back(clients, modem):
    """The modem listens again: the requests of the first program are refused until one isn't, and then everybody's are answered."""
    modem.silent = False
    modem.listen()
    asks, answer = message(0, 1, 5, b""), message(0x80, 1, 5, b"")
    for _ in range(1000):
        clients[0].sendall(asks)
        got = take(clients[0], len(answer))
        if got == answer:
            break
        # the refusal is longer by its TLV
        got += take(clients[0], len(refusal(1, 5, INTERNAL)) - len(answer))
        if got != refusal(1, 5, INTERNAL):
            break
        time.sleep(0.01)
    for number, client in enumerate(clients):
        client.sendall(message(0, number + 1, 6, b""))
    point("it is opened again: everybody is answered", got == answer and all([takes(client, message(0x80, number + 1, 6, b"")) for number, client in enumerate(clients)]))


def stay_away(clients):
    """A node that was lost stays away."""
    time.sleep(0.5)
    clients[0].sendall(message(0, 1, 5, b""))
    point("it stays away", takes(clients[0], refusal(1, 5, INTERNAL)))


def at_a_socket():
    print("a modem behind a socket:")
    modem = Modem()
    proxy = start(modem.listen())
    clients = many_get_their_own("modem")
    clients.pop().close()
    time.sleep(0.2)
    one_doesnt_read(clients[0])
    client, joined = join("modem")
    point("another takes its place", joined)
    clients.append(client)
    lose(clients, modem, modem.leave_socket)
    come_back(clients, modem)
    proxy.terminate()
    proxy.wait()
    os.unlink("proxy")


def at_a_node():
    print("a modem behind a pseudo terminal:")
    modem = Modem()
    device = modem.offer_node()
    proxy = start(device)
    clients = many_get_their_own(device)
    lose(clients, modem, modem.leave_node)
    stay_away(clients)
    proxy.terminate()
    proxy.wait()


print(f"seed {seed}")
at_a_socket()
at_a_node()
sys.exit(failed > 0)
