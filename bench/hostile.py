"""What hostile peers cost a proxy and those beside it. `hostile.sh` starts it."""
import hashlib
import os
import socket
import struct
import subprocess
import sys
import threading
import time
import uuid

folder, program = sys.argv[1:3]
TICKS = os.sysconf("SC_CLK_TCK")
ROUNDS = 3
beyond = []


def show(what, found, limit, unit, most=True):
    """A figure beside its limit: it may be at most that, or at least."""
    is_within = found <= limit if most else found >= limit
    print(f"{what}: {found:.2f} {unit}; at {'most' if most else 'least'} {limit:.2f} {'holds' if is_within else 'DOES NOT HOLD'}", flush=True)
    if not is_within:
        beyond.append(what)


# QMI messages


def qmi(service, client, flags, number, name, tlvs=b""):
    width = "B" if service == 0 else "H"
    body = struct.pack(f"<B{width}HH", flags, number, name, len(tlvs)) + tlvs
    return struct.pack("<BHBBB", 1, 5 + len(body), 0, service, client) + body


def tlv(kind, value):
    return struct.pack("<BH", kind, len(value)) + value


DMS, ALLOCATE, PROXY_OPEN, GET_MODEL = 2, 0x22, 0xFF00, 0x22
OK = tlv(2, bytes(4))


def take(stream, kept):
    """The next QMUX message of a stream; `kept` has what came behind it."""
    while len(kept) < 3 or len(kept) < 1 + struct.unpack_from("<H", kept, 1)[0]:
        piece = stream.recv(65536)
        if not piece:
            raise EOFError
        kept += piece
    size = 1 + struct.unpack_from("<H", kept, 1)[0]
    message = bytes(kept[:size])
    del kept[:size]
    return message


class Client:
    def __init__(self, path, device):
        self.stream, self.kept, self.number = socket.socket(socket.AF_UNIX), bytearray(), 0
        for _ in range(400):
            try:
                self.stream.connect(path)
                break
            except OSError:
                time.sleep(0.02)
        self.ask(qmi(0, 0, 0, 1, PROXY_OPEN, tlv(1, device.encode())))
        given = self.ask(qmi(0, 0, 0, 2, ALLOCATE, tlv(1, bytes([DMS]))))
        self.id = given[given.index(b"\x01\x02\x00", 12) + 4]

    def ask(self, message):
        self.stream.sendall(message)
        return take(self.stream, self.kept)

    def request(self, tlvs=b""):
        self.number = self.number % 65535 + 1
        return qmi(DMS, self.id, 0, self.number, GET_MODEL, tlvs)


# What runs


def wait_for(path):
    for _ in range(400):
        if os.path.exists(path):
            return
        time.sleep(0.02)
    sys.exit(f"{path} doesn't come")


def on_core(core, words):
    return subprocess.Popen(["taskset", "-c", str(core % os.cpu_count()), *words], stdout=subprocess.DEVNULL, stderr=subprocess.DEVNULL)


class Proxy:
    """A proxy on a core of its own, before the modem at this path."""

    def __init__(self, device, kind="qmi"):
        self.device, self.path = device, f"{folder}/{kind}.sock"
        self.process = on_core(0, [program, f"{kind}-proxy", "-d", device, "--socket", self.path, "--no-exit", "--turns", "1000000000000"])
        wait_for(self.path)

    def time(self):
        fields = open(f"/proc/{self.process.pid}/stat").read().rsplit(")", 1)[1].split()
        return (int(fields[11]) + int(fields[12])) / TICKS

    def end(self):
        self.process.terminate()
        self.process.wait()
        if os.path.exists(self.path):
            os.unlink(self.path)


class Modem:
    """A stand-in modem on a core of its own."""

    def __init__(self):
        self.path = f"{folder}/modem.sock"
        if os.path.exists(self.path):
            os.unlink(self.path)
        self.process = on_core(1, [f"{folder}/modem", "unix", self.path])
        wait_for(self.path)

    def end(self):
        self.process.kill()
        self.process.wait()


def load(proxy, clients, in_flight, requests):
    words = ["taskset", "-c", str(2 % os.cpu_count()), f"{folder}/load", proxy.path, proxy.device, str(clients), str(in_flight), str(requests)]
    done = subprocess.run(words, capture_output=True, text=True, timeout=600)
    if done.returncode:
        sys.exit(f"the load fails: {done.stderr}")
    return float(done.stdout.split()[0])


# The measures


def strays(count=3_000_000):
    """Processor time of a message for nobody, beside that of an answer with its request."""
    path = f"{folder}/flood.sock"
    listener = socket.socket(socket.AF_UNIX)
    listener.bind(path)
    listener.listen(1)
    streams, flooded = [], threading.Event()

    def answer():
        """A modem that gives client ids, and answers a command only behind the flood."""
        stream, kept = listener.accept()[0], bytearray()
        streams.append(stream)
        try:
            while True:
                asked = take(stream, kept)
                if asked[4] == 0:
                    number, name = asked[7], struct.unpack_from("<H", asked, 8)[0]
                    given = tlv(1, bytes([DMS, 1])) if name == ALLOCATE else b""
                    stream.sendall(qmi(0, 0, 1, number, name, OK + given))
                else:
                    flooded.wait()
                    number = struct.unpack_from("<H", asked, 7)[0]
                    stream.sendall(qmi(DMS, asked[5], 2, number, GET_MODEL, OK + tlv(1, b"EM7455")))
        except EOFError:
            pass

    threading.Thread(target=answer, daemon=True).start()
    proxy = Proxy(path)
    client = Client(proxy.path, path)
    client.stream.sendall(client.request())
    # each as long as an answer, under a number that isn't in use
    strays = qmi(DMS, 1, 2, 60000, GET_MODEL, OK + tlv(1, b"EM7455")) * 2000
    before = proxy.time()
    for _ in range(count // 2000):
        streams[0].sendall(strays)
    flooded.set()
    take(client.stream, client.kept)  # it comes behind the flood, so all of that was read
    stray = (proxy.time() - before) / count * 1e6
    proxy.end()
    modem = Modem()
    proxy = Proxy(modem.path)
    before, requests = proxy.time(), 1_000_000
    load(proxy, 16, 8, requests)
    answered = (proxy.time() - before) / requests * 1e6
    proxy.end()
    modem.end()
    show("a message for nobody, beside a request with its answer", stray / answered, 1, f"times ({stray:.2f} us, {answered:.2f} us)")


def delays(client, count=20_000):
    found = []
    for _ in range(count):
        began = time.perf_counter()
        client.ask(client.request())
        found.append(time.perf_counter() - began)
    found.sort()
    return found[len(found) * 99 // 100] * 1e6, found[len(found) // 2] * 1e6


DRIBBLE = """
import socket, sys
path, device, count, length, step = sys.argv[1], sys.argv[2], *map(int, sys.argv[3:])
sys.argv = ["hostile", "", ""]
source = open(%r).read().split("# The measures")[0]
exec(source)
clients = [Client(path, device) for _ in range(count)]
print("ready", flush=True)
while True:
    requests = [client.request(tlv(9, bytes(length)) if length else b"") for client in clients]
    for at in range(0, len(requests[0]), step):
        for client, request in zip(clients, requests):
            client.stream.send(request[at:at + step])
    for client in clients:
        try:
            client.stream.recv(65536, socket.MSG_DONTWAIT)
        except BlockingIOError:
            pass
"""


def in_pieces(length, step, how, most):
    """The delays of a client beside 16 that send so many bytes in pieces of so many."""
    modem = Modem()
    proxy = Proxy(modem.path)
    os.sched_setaffinity(0, {2 % os.cpu_count()})
    client = Client(proxy.path, modem.path)
    alone = min(delays(client) for _ in range(ROUNDS))
    words = ["taskset", "-c", str(3 % os.cpu_count()), sys.executable, "-c", DRIBBLE % os.path.abspath(__file__), proxy.path, modem.path, "16", str(length), str(step)]
    others = subprocess.Popen(words, stdout=subprocess.PIPE, text=True)
    others.stdout.readline()
    beside = min(delays(client) for _ in range(ROUNDS))
    others.kill()
    others.wait()
    os.sched_setaffinity(0, range(os.cpu_count()))
    proxy.end()
    modem.end()
    show(f"the delay that 1 of 100 requests exceeds, beside 16 clients that send {how}", beside[0] / alone[0], most, f"times ({alone[0]:.0f} us alone, {beside[0]:.0f} us beside; medians {alone[1]:.0f}, {beside[1]:.0f})")


def passing_by(a_second=1000):
    """The rate of 16 clients with 8 in flight each, beside programs that connect and go at once."""
    modem = Modem()
    proxy = Proxy(modem.path)
    requests = 4_000_000

    def come_and_go(ends, came):
        # on a core of its own, as all here
        os.sched_setaffinity(threading.get_native_id(), {3 % os.cpu_count()})
        began = time.monotonic()
        while not ends.is_set():
            with socket.socket(socket.AF_UNIX) as stream:
                stream.connect(proxy.path)
            came[0] += 1
            late = began + came[0] / a_second - time.monotonic()
            if late > 0:
                time.sleep(late)

    alone = beside = came_in_all = took = 0
    # in turn, since a machine's speed changes from second to second
    for _ in range(2 * ROUNDS):
        alone = max(alone, load(proxy, 16, 8, requests))
        ends, came = threading.Event(), [0]
        thread = threading.Thread(target=come_and_go, args=(ends, came))
        began = time.monotonic()
        thread.start()
        beside = max(beside, load(proxy, 16, 8, requests))
        ends.set()
        thread.join()
        came_in_all, took = came_in_all + came[0], took + time.monotonic() - began
    rate = came_in_all / took
    proxy.end()
    modem.end()
    show("the rate of 16 clients with 8 in flight, beside those that connect and go", beside / alone, 0.9, f"times ({alone:,.0f} a second alone, {beside:,.0f} beside {rate:,.0f} connections a second)", most=False)


# MBIM's dearest message: a list whose entries share their CIDs

BASIC_CONNECT = uuid.UUID("a289cc33-bcbb-8b4f-b6b0-133ec2aae6df").bytes
PROXY_CONTROL = uuid.UUID("838cf7fb-8d0d-4d7f-871e-d71dbefbb39b").bytes


def mbim(kind, number, body):
    return struct.pack("<III", kind, 12 + len(body), number) + body


def fragments(number, service, cid, buffer, longest=4096):
    body = service + struct.pack("<III", cid, 1, len(buffer)) + buffer
    room = longest - 20
    pieces = [body[at:at + room] for at in range(0, len(body), room)]
    return b"".join(mbim(3, number, struct.pack("<II", len(pieces), at) + piece) for at, piece in enumerate(pieces))


def shared_list(length=65_000, share=0.5):
    """Entries that all refer to one structure with as many CIDs as are left."""
    entries = int(length * share) // 8
    cids = (length - 4 - 8 * entries - 20) // 4
    at = 4 + 8 * entries
    structure = BASIC_CONNECT + struct.pack("<I", cids) + b"".join(struct.pack("<I", n % 30 + 1) for n in range(cids))
    return struct.pack("<I", entries) + struct.pack("<II", at, len(structure)) * entries + structure


def structures_in_turn(entries=4090, structures=91, cids=85):
    """Entries that refer to these structures in turn, each with as many CIDs: the slowest list that was found."""
    one = BASIC_CONNECT + struct.pack("<I", cids) + b"".join(struct.pack("<I", n % 30 + 1) for n in range(cids))
    first = 4 + 8 * entries
    places = (first + n % structures * len(one) for n in range(entries))
    return struct.pack("<I", entries) + b"".join(struct.pack("<II", at, len(one)) for at in places) + one * structures


def longest_list(services=1920):
    """As many services as a simulated modem takes, in no order, with a CID each: the dearest list that it takes."""
    first, each = 4 + 8 * services, 24
    structures = b"".join(hashlib.md5(struct.pack("<I", number)).digest() + struct.pack("<II", 1, 1) for number in range(services))
    return struct.pack("<I", services) + b"".join(struct.pack("<II", first + number * each, each) for number in range(services)) + structures


def mbim_client(path, device):
    """An open program, that named the device where it is at a proxy."""
    stream = socket.socket(socket.AF_UNIX)
    stream.connect(path)
    if device:
        name = device.encode("utf-16-le")
        stream.sendall(fragments(1, PROXY_CONTROL, 1, struct.pack("<III", 12, len(name), 30) + name + bytes(-len(name) % 4)))
        stream.recv(65536)
    stream.sendall(mbim(1, 2, struct.pack("<I", 4096)))
    stream.recv(65536)
    return stream


def take_done(stream, kept):
    """Takes what comes up to the last fragment of a command's answer, or an error; `kept` has what came behind it."""
    is_last = False
    while not is_last:
        while len(kept) < 12 or len(kept) < struct.unpack_from("<I", kept, 4)[0]:
            piece = stream.recv(65536)
            if not piece:
                raise EOFError
            kept += piece
        kind, size = struct.unpack_from("<II", kept)
        message = bytes(kept[:size])
        del kept[:size]
        if kind == 0x80000003:
            total, place = struct.unpack_from("<II", message, 12)
            is_last = place + 1 == total
        else:
            is_last = kind == 0x80000004


def waits(path, device, buffer):
    """How long the sender of a list waits at best, in milliseconds."""
    client, kept, took = mbim_client(path, device), bytearray(), 9e9
    text = fragments(9, BASIC_CONNECT, 19, buffer)
    for _ in range(20):
        began = time.perf_counter()
        client.sendall(text)
        take_done(client, kept)
        took = min(took, time.perf_counter() - began)
    client.close()
    return took * 1e3


def holds(modem, path, buffer):
    """How long a simulated modem runs at best for such a list, and how long its sender waits, in milliseconds. What runs for it holds the loop, in one turn or in several."""

    def ran():
        return int(open(f"/proc/{modem.pid}/schedstat").read().split()[0])

    client, kept, runs, took = mbim_client(path, ""), bytearray(), 9e9, 9e9
    text = fragments(9, BASIC_CONNECT, 19, buffer)
    for _ in range(20):
        before, began = ran(), time.perf_counter()
        client.sendall(text)
        take_done(client, kept)
        took = min(took, time.perf_counter() - began)
        time.sleep(0.002)
        runs = min(runs, ran() - before)
    client.close()
    return runs / 1e6, took * 1e3


def waits_beside(path, device, buffer):
    """How long another program waits at most beside such a sender, in milliseconds."""
    one, other = mbim_client(path, device), mbim_client(path, device)
    asks = fragments(7, BASIC_CONNECT, 1, b"")
    text = fragments(9, BASIC_CONNECT, 19, buffer)
    worst, ends = [0.0], threading.Event()

    def ask():
        kept = bytearray()
        while not ends.is_set():
            began = time.perf_counter()
            other.sendall(asks)
            take_done(other, kept)
            worst[0] = max(worst[0], time.perf_counter() - began)

    thread = threading.Thread(target=ask)
    thread.start()
    kept = bytearray()
    for _ in range(10):
        one.sendall(text)
        take_done(one, kept)
    ends.set()
    thread.join()
    one.close()
    other.close()
    return worst[0] * 1e3


def dear_lists():
    modem_path = f"{folder}/sim.sock"
    modem = on_core(1, [program, "modem-sim", "--kind", "mbim", "--socket", modem_path])
    wait_for(modem_path)
    proxy = Proxy(modem_path, "mbim")
    lists = [*(shared_list(share=share) for share in (0.02, 0.1, 0.5, 0.9)), structures_in_turn()]
    beside = max(waits_beside(proxy.path, modem_path, buffer) for buffer in lists)
    sender = max(waits(proxy.path, modem_path, buffer) for buffer in lists)
    show("the dearest of five lists of subscriptions of 65 KB, at the MBIM proxy", sender, 1, f"ms ({beside:.2f} at most for another program)")
    proxy.end()
    # the modem takes the fragments of all programs for those of one
    show("the dearest of these lists, at a simulated modem", max(waits(modem_path, "", buffer) for buffer in lists), 1, "ms")
    runs, took = holds(modem, modem_path, longest_list())
    show("a list of 1,920 services holds a simulated modem", runs, 1, f"ms (its sender waits {took:.2f})")
    modem.terminate()
    modem.wait()


if __name__ == "__main__":
    strays()
    in_pieces(0, 1, "byte by byte", 2)
    in_pieces(60_000, 16, "60 KB 16 bytes at a time", 5)
    passing_by()
    dear_lists()
    sys.exit(1 if beyond else 0)
