"""Tries one proxy for several modems. `proxies.sh` starts it: FOLDER PROGRAM PART.."""
import json
import os
import re
import select
import socket
import struct
import subprocess
import sys
import threading
import time

folder, program, parts = sys.argv[1], sys.argv[2], sys.argv[3:]
os.chdir(folder)
failed = 0
REQUESTS = int(os.environ.get("REQUESTS", "200000"))


def point(name, holds, more=""):
    """A line for what is to hold."""
    global failed
    failed += not holds
    print(f"{'ok' if holds else 'FAILED':6} {name}{more and f' ({more})'}", flush=True)


def wait_until(holds, seconds=20):
    ends = time.monotonic() + seconds
    while not holds():
        if time.monotonic() > ends:
            return False
        time.sleep(0.01)
    return True


started = []


def start(*words, **how):
    process = subprocess.Popen(words, stdout=subprocess.DEVNULL, stderr=subprocess.DEVNULL, **how)
    started.append(process)
    return process


def end(*processes):
    for process in processes:
        process.terminate()
        process.wait()
        if process in started:
            started.remove(process)


def listening(at, *words):
    """A proxy, once its socket is there. What one before it left is taken away."""
    if os.path.lexists(at):
        os.unlink(at)
    process = start(*words)
    if not wait_until(lambda: os.path.exists(at) or process.poll() is not None) or process.poll() is not None:
        sys.exit(f"a proxy doesn't come: {' '.join(words)}: {process.poll()}")
    return process


def proxies(devices, *settings, under=(), at="many.sock"):
    """One proxy for these devices."""
    return listening(at, *under, program, "qmi-proxies", "--socket", at, "--bridge", "bridge", *settings, *devices)


def proxy(device, *settings, under=(), at="one.sock"):
    """One for this one."""
    return listening(at, *under, program, "qmi-proxy", "-d", device, "--socket", at, "--bridge", "bridge.one", *settings)


# ---- tools ----

PROFILES = {
    "a": {"manufacturer": "Alpha Modems", "model": "A-1", "revision": "a 1.0", "signal": -61, "operator": "Net A", "mcc": 1, "mnc": 1},
    "b": {"manufacturer": "Beta Modems", "model": "B-22", "revision": "b 2.2", "signal": -97, "operator": "Net B", "mcc": 1, "mnc": 2},
}
OWN = ["--get-service-version-info", "--dms-get-model", "--dms-get-manufacturer", "--dms-get-revision", "--dms-get-ids", "--dms-get-capabilities",
       "--dms-get-operating-mode", "--nas-get-signal-strength", "--nas-get-serving-system", "--nas-get-home-network", "--wds-get-packet-service-status",
       "--dms-get-msisdn"]
REAL = ["--dms-get-model", "--dms-get-manufacturer", "--dms-get-revision", "--dms-get-ids", "--nas-get-signal-strength", "--nas-get-home-network",
        "--wds-get-packet-service-status", "--get-service-version-info"]
ABSTRACT = " @qmi-proxy\n"


def simulated(name):
    if os.path.lexists(f"{name}.sock"):
        os.unlink(f"{name}.sock")
    with open(f"{name}.json", "w") as file:
        json.dump(PROFILES[name], file)
    process = start(program, "modem-sim", "--socket", f"{name}.sock", "--profile", f"{name}.json")
    wait_until(lambda: os.path.exists(f"{name}.sock"))
    return process


def real_words(device, command):
    """libqmi's qmicli wants a character device: one stands at the path of each socket while it runs."""
    line = ["timeout", "60", "qmicli", "-p", "-d", device, "--device-open-qmi", command]
    if device.startswith("/dev/"):
        return line
    return ["unshare", "-m", "sh", "-c", 'for path in a.sock b.sock; do mount --bind node "$path" || exit; done; exec "$@"', "sh", *line]


def has_real():
    """Whether libqmi's tool can be asked here, at the abstract socket of its own proxy."""
    if ABSTRACT in open("/proc/net/unix").read() or subprocess.run(["which", "qmicli"], capture_output=True).returncode:
        return False
    made = subprocess.run(["mknod", "node", "c", "1", "3"], capture_output=True).returncode == 0 or os.path.exists("node")
    return made and subprocess.run(["unshare", "-m", "true"], capture_output=True).returncode == 0


def tool_words(tool, device, command, at):
    if tool == "real":
        return real_words(device, command)
    return ["timeout", "60", program, "qmicli", "-p", "--socket", at, "-d", device, command]


def said(process):
    """Its status and what it printed, without the time of day."""
    out, err = process.communicate()
    return process.returncode, out, re.sub(rb"(?m)^\[[^\]]* [0-9:]*\] ", b"", err)


def relay(at):
    """The abstract socket leads to this proxy."""
    process = start("socat", "ABSTRACT-LISTEN:qmi-proxy,fork", f"UNIX-CONNECT:{at}")
    wait_until(lambda: ABSTRACT in open("/proc/net/unix").read())
    return process


def ask(asked, at):
    """All of these at once."""
    running = [subprocess.Popen(tool_words(*words, at), stdout=subprocess.PIPE, stderr=subprocess.PIPE, stdin=subprocess.DEVNULL) for words in asked]
    return [said(process) for process in running]


def try_tools(what, devices):
    tools = [("own", command) for command in OWN] + [("real", command) for command in (REAL if has_real() else [])]
    if len(tools) == len(OWN):
        print("not tried: libqmi's qmicli (it isn't here, root is wanted, or its socket @qmi-proxy is taken)")
        tools += [("own", command) for command in REAL]
    expected = {}
    for device in devices:
        alone = proxy(device)
        leading = relay("one.sock")
        for tool, command in tools:
            expected[tool, device, command] = ask([(tool, device, command)], "one.sock")[0]
        end(leading, alone)
        wait_until(lambda: ABSTRACT not in open("/proc/net/unix").read())
    asked = [(tool, device, command) for tool, command in tools for device in devices]
    point(f"{what}: the devices answer differently", all(expected["own", devices[0], c] != expected["own", devices[1], c] for c in ("--dms-get-model", "--nas-get-signal-strength")))
    many = proxies(devices)
    leading = relay("many.sock")
    differ = [words for words, found in zip(asked, ask(asked, "many.sock")) if found != expected[words]]
    for words in differ:
        print("       differs:", *words)
    point(f"{what}: {len(asked)} tools of two devices at once print what they print at a proxy of their own", not differ and many.poll() is None)
    # one after the other at the same proxy, where each finds it as the one before left it
    differ = [words for words in asked if ask([words], "many.sock")[0] != expected[words]]
    point(f"{what}: and so they do one by one", not differ and many.poll() is None)
    end(leading, many)
    wait_until(lambda: ABSTRACT not in open("/proc/net/unix").read())


def children_of(process):
    return open(f"/proc/{process.pid}/task/{process.pid}/children").read().split()


def tools():
    modems = [simulated(name) for name in PROFILES]
    try_tools("two simulated modems", [f"{folder}/{name}.sock" for name in PROFILES])
    terminals = []
    for name in PROFILES:
        terminals.append(start("socat", f"PTY,link={name}.tty,raw,echo=0", f"UNIX-CONNECT:{name}.sock"))
        wait_until(lambda: os.path.lexists(f"{name}.tty"))
    nodes = [os.readlink(f"{name}.tty") for name in PROFILES]
    many = proxies(nodes)
    point("two nodes: four pumps run", wait_until(lambda: len(children_of(many)) == 4, 5), f"{len(children_of(many))}")
    end(many)
    try_tools("two nodes", nodes)
    try_nodes(nodes, terminals[1])
    end(*terminals, *modems)


def model_of(device):
    """How our tool ends, and the first line that it prints."""
    status, out, err = ask([("own", device, "--dms-get-model")], "many.sock")[0]
    return status, (out or err).decode().split("\n")[0]


def try_nodes(nodes, terminal):
    """One of two nodes isn't there at the start, and later one is lost."""
    begun = time.monotonic()
    many = proxies([nodes[0], "/dev/no-such-node"], "--no-exit")
    found = model_of(nodes[0])
    point("a node that isn't there at the start: the other is served", found == (0, "Model: A-1"), f"{time.monotonic() - begun:.1f} s behind the start: {found[1]}")
    found = model_of("/dev/no-such-node")
    point("its own tools are refused", found[0] not in (0, 124), f"{found[0]}: {found[1]}")
    end(many)
    many = proxies(nodes, "--no-exit")
    before = [model_of(node) for node in nodes]
    end(terminal)
    point("a node that is lost: its pumps end", wait_until(lambda: len(children_of(many)) == 4 and [state_of(pid) for pid in children_of(many)].count("Z") == 2, 5))
    after = [model_of(node) for node in nodes]
    point("its own tools are refused, and those of the other are served", before == [(0, "Model: A-1"), (0, "Model: B-22")] and after[0] == before[0] and after[1][0] not in (0, 124), after[1][1])
    end(many)


def state_of(pid):
    return open(f"/proc/{pid}/stat").read().rsplit(")", 1)[1].split()[0]


# ---- rough ----

PROXY_OPEN, VERSIONS, ALLOCATE, DMS, FROM_MODEM = 0xFF00, 0x21, 0x22, 2, 0x80


def qmi(service, client, flags, number, name, tlvs=b"", sender=0):
    body = struct.pack(f"<B{'B' if service == 0 else 'H'}HH", flags, number, name, len(tlvs)) + tlvs
    return struct.pack("<BHBBB", 1, 5 + len(body), sender, service, client) + body


def tlv(kind, value):
    return struct.pack("<BH", kind, len(value)) + value


def opens(device, number=1):
    return qmi(0, 0, 0, number, PROXY_OPEN, tlv(1, device.encode()))


def error_of(message):
    """Of a response: 0, or why it was refused."""
    at = 12 if message[4] == 0 else 13
    while at + 3 <= len(message):
        if message[at] == 2:
            return struct.unpack_from("<H", message, at + 5)[0]
        at += 3 + struct.unpack_from("<H", message, at + 1)[0]
    return None


class Client:
    def __init__(self, at="many.sock"):
        self.stream, self.rest = socket.socket(socket.AF_UNIX), b""
        self.stream.connect(at)

    def send(self, message):
        try:
            self.stream.sendall(message)
        except OSError:
            pass  # it was hung up, which a taking tells
        return self

    def take(self, seconds=5):
        """The next message, None where none comes in time, or b"" where it was hung up."""
        ends = time.monotonic() + seconds
        while len(self.rest) < 3 or len(self.rest) <= int.from_bytes(self.rest[1:3], "little"):
            if not select.select([self.stream], [], [], max(0, ends - time.monotonic()))[0]:
                return None
            try:
                piece = self.stream.recv(1 << 16)
            except ConnectionResetError:
                piece = b""
            if not piece:
                return b""
            self.rest += piece
        size = int.from_bytes(self.rest[1:3], "little") + 1
        message, self.rest = self.rest[:size], self.rest[size:]
        return message

    def error(self, seconds=5):
        message = self.take(seconds)
        return error_of(message) if message else message

    def opened(self, device):
        return self.send(opens(device)).error() == 0

    def is_served(self, number=2):
        """Whether its modem answers it."""
        return self.send(qmi(0, 0, 0, number, VERSIONS)).error() == 0


class Modem:
    """A modem at a socket, which answers Get Version Info, and gives client ids."""

    def __init__(self, path):
        self.path, self.streams, self.given = path, [], 0
        if os.path.lexists(path):
            os.unlink(path)
        self.listener = socket.socket(socket.AF_UNIX)
        self.listener.bind(path)
        self.listener.listen(8)
        self.answers = True
        threading.Thread(target=self.listen, daemon=True).start()

    def listen(self):
        try:
            while True:
                stream, _ = self.listener.accept()
                self.streams.append(stream)
                threading.Thread(target=self.serve, args=[stream], daemon=True).start()
        except OSError:
            pass  # it was ended

    def serve(self, stream):
        rest = b""
        try:
            while piece := stream.recv(65536):
                rest += piece
                while len(rest) > 3 and len(rest) > int.from_bytes(rest[1:3], "little"):
                    size = int.from_bytes(rest[1:3], "little") + 1
                    request, rest = rest[:size], rest[size:]
                    if self.answers and request[4] == 0:
                        stream.sendall(self.answer(*struct.unpack_from("<BH", request, 7), request))
        except OSError:
            pass

    def answer(self, number, name, request):
        if name == ALLOCATE:
            self.given += 1
            told = tlv(1, bytes([request[15], self.given]))
        else:
            told = tlv(1, bytes([1, 0, 1, 0, 5, 0]))
        return qmi(0, 0, 1, number, name, tlv(2, bytes(4)) + told, FROM_MODEM)

    def flood(self, seconds):
        """Indications to everybody, as fast as they are taken."""
        piece = qmi(DMS, 255, 4, 1, 1, sender=FROM_MODEM) * 1000
        ends = time.monotonic() + seconds
        while time.monotonic() < ends:
            self.streams[-1].sendall(piece)

    def end(self):
        self.listener.shutdown(socket.SHUT_RDWR)
        self.listener.close()
        os.unlink(self.path)
        for stream in self.streams:
            stream.shutdown(socket.SHUT_RDWR)
            stream.close()


def refused(*words):
    done = subprocess.run([program, "qmi-proxies", "--socket", "no.sock", *words], capture_output=True, text=True, timeout=20)
    return done.returncode, done.stderr


def try_words():
    for what, words, reason in (
        ("no path", [], "no device"),
        ("nine paths", list("123456789"), "value"),
        ("two equal paths", ["a", "b", "a"], "value"),
        ("-d", ["-d", "a"], "words"),
    ):
        point(f"{what} is refused, and nothing is opened", refused(*words) == (2, f"error: usage: {reason}\n") and not os.path.exists("no.sock"))


def asks_on(client, stopped, slowest):
    """Asks all the time, and keeps the longest time until an answer."""
    number = 2
    while not stopped.is_set():
        number = number % 254 + 2
        begun = time.monotonic()
        if not client.is_served(number & 0xFF):
            slowest.append(float("inf"))
            return
        slowest.append(time.monotonic() - begun)


class Beside:
    """A program of a device that asks all the time, while another comes to grief."""

    def __init__(self, device):
        self.client, self.stopped, self.slowest = Client(), threading.Event(), [0.0]
        self.opens = self.client.opened(device)
        self.thread = threading.Thread(target=asks_on, args=[self.client, self.stopped, self.slowest], daemon=True)
        self.thread.start()

    def end(self, limit=0.5):
        """Whether it was served without a pause."""
        self.stopped.set()
        self.thread.join()
        return self.opens and len(self.slowest) > 1 and max(self.slowest) < limit


def try_devices():
    a = Modem("a.sock")
    many = proxies(["a.sock", "b.sock"], "--no-exit")
    one, other = Client(), Client()
    point("a device that isn't there at the start: the other is served", one.opened("a.sock") and one.is_served())
    point("its own programs are refused (error 3)", other.opened("b.sock") and other.send(qmi(0, 0, 0, 2, VERSIONS)).error() == 3)
    b = Modem("b.sock")
    point("they are served once it comes", wait_until(lambda: other.is_served(3), 5))
    beside = Beside("a.sock")
    time.sleep(0.3)
    b.answers = False
    other.send(qmi(0, 0, 0, 9, VERSIONS))
    time.sleep(0.2)
    b.end()
    point("one that is lost: what waits there is refused (error 4)", other.error() == 4)
    point("and what comes then (error 3)", other.send(qmi(0, 0, 0, 10, VERSIONS)).error() == 3)
    b = Modem("b.sock")
    point("it is served again once it is back", wait_until(lambda: other.is_served(11), 5))
    point("a program of the other device saw nothing of it", beside.end(), f"longest answer {max(beside.slowest) * 1e3:.1f} ms")
    end(many)
    a.end()
    b.end()


def try_clients():
    a, b = Modem("a.sock"), Modem("b.sock")
    many = proxies(["a.sock", "b.sock"], "--no-exit")
    beside = [Beside("a.sock"), Beside("b.sock")]
    silent = Client()
    point("a program that never says what it wants gets nothing, and stays", silent.take(0.5) is None)
    halved = Client()
    for byte in opens("b.sock")[:8]:
        halved.send(bytes([byte]))
        time.sleep(0.002)
    point("nor does one that says half an opening in pieces", halved.take(0.3) is None)
    for byte in opens("b.sock")[8:]:
        halved.send(bytes([byte]))
    point("which gets its device once it says the rest", halved.error() == 0 and halved.is_served())
    long = Client()
    for byte in b"\x01\xff\xff\x00\x00\x00\x00\x01\x00\xff" + bytes(65_525):
        long.send(bytes([byte]))
    point("one that says a Proxy Open of 65,536 bytes but for the last, in 65,535 pieces, gets nothing yet", long.take(0.1) is None)
    stranger = Client()
    point("one that opens a device that isn't served is refused (error 3)", stranger.send(opens("c.sock")).error() == 3)
    point("by the first device, of which it may open the path then", stranger.opened("a.sock") and stranger.is_served())
    changing = Client()
    point("one that changes its mind is refused (error 3)", changing.opened("a.sock") and changing.send(opens("b.sock", 2)).error() == 3)
    point("and keeps its device", changing.is_served(3))
    unasked = Client()
    point("one whose first message is no opening is refused by the first device (error 3)", unasked.send(qmi(0, 0, 0, 1, VERSIONS)).error() == 3)
    point("and can't have the second then (error 3)", unasked.send(opens("b.sock", 2)).error() == 3)
    bad = Client()
    point("one that sends no QMI is hung up", bad.send(b"GET / HTTP/1.0\r\n\r\n").take() == b"")
    point("those of both devices saw nothing of it", all([one.end() for one in beside]), ", ".join(f"longest answer {max(one.slowest) * 1e3:.1f} ms" for one in beside))
    end(many)
    a.end()
    b.end()


def try_crowd():
    a, b = Modem("a.sock"), Modem("b.sock")
    many = proxies(["a.sock", "b.sock"], "--no-exit")
    crowd = [Client() for _ in range(63)]
    point("63 programs of one device are there", all(client.opened("a.sock") for client in crowd))
    beside = Client()
    point("and one of another, which is served", beside.opened("b.sock") and beside.is_served())
    point("a further one is hung up, whichever it wants", Client().send(opens("b.sock")).take() == b"")
    point("those that are there go on", beside.is_served(3) and all(client.is_served() for client in crowd))
    crowd.pop().stream.close()
    point("one that comes for a place that was left is served", wait_until(lambda: Client().send(opens("b.sock")).take(0.2) not in (b"", None), 5))
    end(many)
    a.end()
    b.end()


def try_flood():
    a, b = Modem("a.sock"), Modem("b.sock")
    many = proxies(["a.sock", "b.sock"], "--no-exit")
    deaf = Client()
    deaf.opened("a.sock")
    point("a program of a modem that will flood has a client id", deaf.send(qmi(0, 0, 0, 2, ALLOCATE, tlv(1, bytes([DMS])))).error() == 0)
    beside = Beside("b.sock")
    a.flood(2)
    point("a modem that floods: the other's programs are served", beside.end(), f"longest answer {max(beside.slowest) * 1e3:.1f} ms")
    end(many)
    a.end()
    b.end()


def rough():
    try_words()
    try_devices()
    try_clients()
    try_crowd()
    try_flood()


# ---- speed ----

CORES = os.cpu_count()


def load_words(at, device, clients, in_flight, count):
    return ["taskset", "-c", f"{2 % CORES}-{CORES - 1}" if CORES > 2 else "0", f"{folder}/load", at, device, str(clients), str(in_flight), str(count)]


def loads(ways, clients, in_flight, count):
    """Loads at these sockets and devices at once: requests a second in all."""
    begun = time.monotonic()
    running = [subprocess.Popen(load_words(at, device, clients, in_flight, count), stdout=subprocess.PIPE, stderr=subprocess.PIPE, text=True) for at, device in ways]
    for process in running:
        out, err = process.communicate(timeout=600)
        if process.returncode or int(out.split()[1]):
            sys.exit(f"the load fails: {out}{err}")
    return len(ways) * count / (time.monotonic() - begun)


def stand_in(path):
    if os.path.lexists(path):
        os.unlink(path)
    process = start("taskset", "-c", str(1 % CORES), f"{folder}/modem", "unix", path)
    wait_until(lambda: os.path.exists(path))
    return process


def resident(process):
    return int(re.search(r"VmRSS:\s+(\d+)", open(f"/proc/{process.pid}/status").read())[1]) / 1024


def spent(process):
    """Its processor time, in seconds."""
    return int(open(f"/proc/{process.pid}/schedstat").read().split()[0]) / 1e9


ON_ONE = ("taskset", "-c", "0")


def measured(devices, is_many, clients, in_flight, count):
    """Requests a second, requests a second of the proxies' processor time, and their memory in MB."""
    modems = [stand_in(device) for device in devices]
    if is_many:
        served = [proxies(devices, "--no-exit", under=ON_ONE)]
        ways = [("many.sock", device) for device in devices]
    else:
        served = [proxy(device, "--no-exit", under=ON_ONE, at=f"{device}.proxy") for device in devices]
        ways = [(f"{device}.proxy", device) for device in devices]
    before = sum(map(spent, served))
    rate = loads(ways, clients, in_flight, count)
    found = rate, len(devices) * count / (sum(map(spent, served)) - before), sum(map(resident, served))
    end(*served, *modems)
    return found


def compared(devices, clients, in_flight, count, rounds=5):
    """The best of some rounds, in turns: of one proxy for all, and of one for each."""
    both = [[measured(devices, is_many, clients, in_flight, count) for is_many in (True, False)] for _ in range(rounds)]
    return [[max(found[way][figure] for found in both) for figure in range(3)] for way in (0, 1)]


def shown(found):
    return f"{found[0]:,.0f} requests a second, {1e6 / found[1]:.2f} us of processor time a request, {found[2]:.1f} MB"


# By processor time, which other programs on the machine change less.
def limit(what, found, least):
    point(f"{what}: {found:.3f}; at least {least}", found >= least)


def speed():
    for clients, in_flight in ((1, 1), (16, 1), (16, 8), (64, 8)):
        many, one = compared(["m0.sock"], clients, in_flight, max(REQUESTS // (8 if clients * in_flight == 1 else 1), 1000))
        print(f"one device, {clients} clients with {in_flight} in flight: {shown(many)}; of qmi-proxy {shown(one)}")
        limit("  beside qmi-proxy", many[1] / one[1], 0.97)
        limit("  1.5 times its memory, beside this", 1.5 * one[2] / many[2], 1.0)
    devices = [f"m{number}.sock" for number in range(8)]
    many, each = compared(devices, 8, 8, REQUESTS // 4, rounds=3)
    print(f"eight devices with eight clients each, 8 in flight: {shown(many)}; of eight qmi-proxy {shown(each)}")
    limit("  beside eight qmi-proxy on one core", many[1] / each[1], 1.0)
    limit("  1.5 times the memory of one proxy for each device, beside its own", 1.5 * each[2] / many[2], 1.0)


try:
    for part in parts:
        {"tools": tools, "rough": rough, "speed": speed}[part]()
finally:
    for process in list(started):
        process.kill()
        process.wait()
sys.exit(1 if failed else 0)
