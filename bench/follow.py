"""Follows indications over real sockets, and prints a line for each point. `follow.sh` starts it: FOLDER PROGRAM PEER PART.."""
import json
import os
import re
import select
import shutil
import signal
import socket
import struct
import subprocess
import sys
import threading
import time
import tty

folder, program, peer, parts = sys.argv[1], sys.argv[2], sys.argv[3], sys.argv[4:]
os.chdir(folder)
failed = 0
# Of a flood: whole blocks.
INDICATIONS = int(os.environ.get("INDICATIONS", "1000000"))
FLOOD = INDICATIONS // 10000 * 10000
# An indication is to be shown within so many seconds, and nothing more comes within so many.
SOON, LATER = 3, 0.4


def point(name, holds, more=""):
    """A line for what is to hold."""
    global failed
    failed += not holds
    print(f"{'ok' if holds else 'FAILED':6} {name}{more and not holds and f' ({more})' or ''}", flush=True)


def wait_until(holds, seconds=20):
    ends = time.monotonic() + seconds
    while not holds():
        if time.monotonic() > ends:
            return False
        time.sleep(0.01)
    return True


# ---- messages ----

STRENGTH = {"format": "sequence", "contents": [{"name": "Level", "format": "gint8"}, {"name": "Interface", "format": "gint8"}]}
FILE = [
    {"name": "Get Signal Strength", "type": "Message", "service": "NAS", "id": "0x0020", "output": [{"name": "Strength", "id": "0x01", **STRENGTH}]},
    {"name": "Event Report", "type": "Indication", "service": "NAS", "id": "0x0002", "output": [{"name": "Strength", "id": "0x10", **STRENGTH}]},
]
CTL, DMS, NAS = 0, 2, 3
ASKED, REPORT, UNKNOWN = 0x20, 0x02, 0x0ABC
REQUEST, RESPONSE, INDICATION = 0, 2, 4
EVERYBODY = 0xFF
SUCCESS = b"\x02\x04\x00" + bytes(4)
LEVEL = b"\x02\x00\xc4\x08"


def frame(service, client, kind, number, message, tlvs):
    """A message of the modem."""
    body = struct.pack("<BBHH" if service == CTL else "<BHHH", kind, number, message, len(tlvs)) + tlvs
    return struct.pack("<BHBBB", 1, 5 + len(body), 0x80, service, client) + body


def report(client, service=NAS, kind=INDICATION):
    return frame(service, client, kind, 0, REPORT, b"\x10" + LEVEL)


TEXT = {
    "answer": "Get Signal Strength:\n  0x02: status 0, error 0\n  0x01 Strength:\n    Level: -70\n    Interface: 8\n",
    "report": "indication Event Report:\n  0x10 Strength:\n    Level: -60\n    Interface: 8\n",
    "unknown": "indication 0x0ABC:\n  0x14: 0102\n",
}
JSON = {
    "answer": '{"Strength":{"Interface":8,"Level":-70},"result":"ok"}\n',
    "report": '{"Strength":{"Interface":8,"Level":-60},"indication":"Event Report"}\n',
    "unknown": '{"0x14":"0102","indication":"0x0ABC"}\n',
}
ANSWER, REPORTED = TEXT["answer"], TEXT["report"]


# ---- the modem ----

class Wire:
    """A way to the modem: a connection, or a terminal."""

    def __init__(self, number, connection=None):
        self.number, self.connection, self.sent = number, connection, 0

    def send(self, octets):
        self.sent += len(octets)
        while octets:
            octets = octets[os.write(self.number, octets):]

    def end(self):
        self.connection.shutdown(socket.SHUT_RDWR)


class Modem:
    """Gives client ids, one after another, and answers the one message. `behind` plays in a thread of its own what is sent for it."""

    def __init__(self, path):
        self.heard, self.behind, self.wire, self.clients = [], None, None, 0
        if path:
            self.listener = socket.socket(socket.AF_UNIX)
            self.listener.bind(path)
            self.listener.listen(8)
            self.start(self.accept)
        else:
            master, self.device = os.openpty()
            tty.setraw(self.device)
            self.start(self.serve, Wire(master))

    @staticmethod
    def start(job, *words):
        threading.Thread(target=job, args=words, daemon=True).start()

    def accept(self):
        while True:
            connection, _ = self.listener.accept()
            self.start(self.serve, Wire(connection.fileno(), connection))

    def serve(self, wire):
        self.wire, rest = wire, b""
        try:
            while piece := os.read(wire.number, 65536):
                rest += piece
                while len(rest) >= 3 and len(rest) > int.from_bytes(rest[1:3], "little"):
                    end = int.from_bytes(rest[1:3], "little") + 1
                    self.hear(wire, rest[:end])
                    rest = rest[end:]
        except OSError:
            pass
        if wire.connection:
            wire.connection.close()

    def hear(self, wire, message):
        service, client = message[4], message[5]
        if service == CTL:
            number, kind, tlvs, told = message[7], int.from_bytes(message[8:10], "little"), message[12:], b""
            if kind == 0x22:
                self.clients += 1
                told = bytes([1, 2, 0, tlvs[3], self.clients])
            elif kind == 0x23:
                self.heard.append(f"gives {tlvs[4]}")
                told = tlvs[:5]
            wire.send(frame(CTL, 0, 1, number, kind, SUCCESS + told))
            return
        number, kind = struct.unpack_from("<HH", message, 7)
        self.heard.append(f"asks {client}")
        answer = frame(service, client, RESPONSE, number, kind, SUCCESS + b"\x01\x02\x00\xba\x08")
        if self.behind:
            self.start(self.play, wire, client, answer)
        else:
            wire.send(answer)

    def play(self, wire, client, answer):
        try:
            self.behind(wire, client, answer)
        except OSError:
            pass


# ---- the program ----

class Following:
    """The program, and what it has printed so far."""

    def __init__(self, *words, device="modem.sock", out=subprocess.PIPE):
        line = [program, "qmicli", "-d", device, "--tables", "nas.json", "--request", "Get Signal Strength", "--follow", *words]
        self.process = subprocess.Popen(line, stdin=subprocess.DEVNULL, stdout=out, stderr=subprocess.PIPE)
        self.out, self.is_over = "", False

    def read(self, seconds):
        """What comes next, if anything does in this time."""
        if not self.is_over and select.select([self.process.stdout], [], [], max(seconds, 0))[0]:
            piece = os.read(self.process.stdout.fileno(), 65536)
            self.out += piece.decode()
            self.is_over = not piece

    def has(self, text, seconds=SOON):
        """Whether it has printed this and nothing more, once it has."""
        ends = time.monotonic() + seconds
        while len(self.out) < len(text) and not self.is_over and time.monotonic() < ends:
            self.read(ends - time.monotonic())
        return self.out == text

    def stays(self, text):
        """Whether nothing more comes."""
        self.read(LATER)
        return self.out == text

    def end(self, seconds=20):
        """Its status, what it printed, and its line."""
        ends = time.monotonic() + seconds
        while self.process.stdout and not self.process.stdout.closed and not self.is_over and time.monotonic() < ends:
            self.read(ends - time.monotonic())
        try:
            self.process.wait(max(ends - time.monotonic(), 0.1))
        except subprocess.TimeoutExpired:
            self.process.kill()
            return None, self.out, "it doesn't end"
        return self.process.returncode, self.out, self.process.stderr.read().decode()


def ended(following, wanted, modem, heard, name):
    """A point: it ends so, and the modem has heard this."""
    found = following.end()
    # (the modem may read what was sent last only now)
    wait_until(lambda: modem.heard == heard, 1)
    point(name, found == wanted and modem.heard == heard, f"{found}, {modem.heard}")


# ---- what is shown ----

def mixed(wire, client, answer):
    """Before the answer and behind it: what is to be shown, and what isn't."""
    mine, others = report(client), report(client + 1)
    unknown = frame(NAS, client, INDICATION, 0, UNKNOWN, b"\x14\x02\x00\x01\x02")
    response, foreign = report(client, kind=RESPONSE), report(client, service=DMS)
    wire.send(mine + answer + mine + others + report(EVERYBODY))
    wire.send(response + foreign + unknown + mine[:7])
    time.sleep(0.3)
    wire.send(mine[7:])
    wire.end()


def one_by_one(turns):
    def play(wire, client, answer):
        wire.send(answer)
        for octet in report(client):
            time.sleep(0.01)
            wire.send(bytes([octet]))
        while turns.acquire():
            wire.send(report(client))
    return play


def try_shown():
    for name, form, words in (("lines", TEXT, []), ("JSON", JSON, ["--json"])):
        modem = fresh(mixed)
        wanted = form["answer"] + 2 * form["report"] + form["unknown"] + form["report"]
        ended(Following(*words), (0, wanted, ""), modem, ["asks 1"], f"in {name} just those behind the answer that are for its client or for all are shown, one unknown and one in two pieces")
    turns = threading.Semaphore(0)
    fresh(one_by_one(turns))
    following = Following()
    shown = following.has(ANSWER + REPORTED)
    for count in range(2, 5):
        turns.release()
        shown = shown and following.has(ANSWER + count * REPORTED)
    point("each is shown while nothing more comes, also one that came byte by byte", shown, following.out)
    following.process.kill()
    following.end()


# ---- how it ends ----

def then(*pieces, ends=False):
    """The answer, and these behind it."""
    def play(wire, client, answer):
        wire.send(answer + b"".join(piece(client) if callable(piece) else piece for piece in pieces))
        if ends:
            wire.end()
    return play


def spoilt(ends):
    """The answer and an indication, and then a byte that begins no message: by itself, or in the same piece with the end behind it."""
    def play(wire, client, answer):
        wire.send(answer + report(client) + (b"\x05" if ends else b""))
        if ends:
            wire.end()
        else:
            time.sleep(0.3)
            wire.send(b"\x05")
    return play


def fresh(behind=None, at="modem.sock"):
    if os.path.exists(at):
        os.unlink(at)
    modem = Modem(at)
    modem.behind = behind
    return modem


def try_ends():
    modem = fresh(then(report, ends=True))
    ended(Following(), (0, ANSWER + REPORTED, ""), modem, ["asks 1"], "the link's end: status 0, nothing can be given back")
    modem = fresh(then(report, lambda client: report(client)[:9], ends=True))
    ended(Following(), (0, ANSWER + REPORTED, ""), modem, ["asks 1"], "the same in the midst of a message")
    for name, ends in (("what is no message", False), ("the same at the link's end", True)):
        modem = fresh(spoilt(ends))
        following = Following()
        found = following.end()
        broken = f"error: broken at {modem.wire.sent - 1}\n"
        point(f"{name}: status 6, nothing is given back", found == (6, ANSWER + REPORTED, broken) and modem.heard == ["asks 1"], f"{found}, {modem.heard}")
    modem = fresh(lambda wire, client, answer: wire.send(answer[:16] + b"\x01\x00\x5e\x00" + answer[20:] + report(client)))
    ended(Following(), (1, "", "error: denied 94\n"), modem, ["asks 1", "gives 1"], "a refusal: status 1, nothing is followed")
    try_turns()
    try_signal()
    try_outputs()


def try_turns():
    modem = fresh()
    begins = time.monotonic()
    ended(Following("--turns", "5"), (0, ANSWER, ""), modem, ["asks 1", "gives 1"], "--turns 5 in silence: status 0, the client id is given back")
    took = time.monotonic() - begins
    point("and that takes half a second", 0.4 <= took < 2, f"{took:.2f} s")
    modem = fresh(then(report, lambda client: report(client + 1), report, report))
    ended(Following("--turns=3"), (0, ANSWER + 2 * REPORTED, ""), modem, ["asks 1", "gives 1"], "--turns 3 of messages: each counts, shown or not")
    modem = fresh(then(report))
    ended(Following("--turns=0"), (0, ANSWER, ""), modem, ["asks 1", "gives 1"], "--turns 0: the answer alone")
    modem = fresh(then(report))
    kept = f"{ANSWER}client id kept: service 3, id 1\n{REPORTED}"
    ended(Following("--turns=1", "--client-no-release-cid"), (0, kept, ""), modem, ["asks 1"], "--client-no-release-cid: it is kept")
    modem = fresh(then(report))
    ended(Following("--turns=1", "--client-cid=9"), (0, ANSWER + REPORTED, ""), modem, ["asks 9", "gives 9"], "--client-cid: it is used, and given back")


def try_signal():
    modem = fresh(then(report))
    following = Following()
    shown = following.has(ANSWER + REPORTED)
    following.process.send_signal(signal.SIGINT)
    found = following.end()
    point("an interrupt ends it at once, and the client id isn't given back", shown and found == (-signal.SIGINT, ANSWER + REPORTED, "") and modem.heard == ["asks 1"], f"{found}, {modem.heard}")
    modem.behind = None
    ended(Following("--turns=0", "--client-cid=1"), (0, ANSWER, ""), modem, ["asks 1", "asks 1", "gives 1"], "a later command with --client-cid gives it back")


def try_outputs():
    turns = threading.Semaphore(0)

    def play(wire, client, answer):
        wire.send(answer)
        while turns.acquire():
            wire.send(report(client))
    modem = fresh(play)
    following = Following()
    shown = following.has(ANSWER)
    following.process.stdout.close()
    time.sleep(LATER)
    goes_on = following.process.poll() is None
    turns.release()
    ended(following, (8, ANSWER, "error: write fault\n"), modem, ["asks 1", "gives 1"], "an output that is closed: status 8 with the next indication, the client id is given back")
    point("and until then it goes on", shown and goes_on)
    modem = fresh(then(report))
    with open("/dev/full", "w") as full:
        ended(Following(out=full), (8, "", "error: write fault\n"), modem, ["asks 1", "gives 1"], "one that is full: status 8, nothing is followed")


# ---- through a proxy ----

def follow_two(name, modem, device, at):
    """Two that follow through a proxy: the one that goes on."""
    words = ["-p", "--socket", at]
    first, second = (Following(*words, device=device) for _ in range(2))
    point(f"{name}: both have their answers", first.has(ANSWER, 10) and second.has(ANSWER, 10), f"{first.out} {second.out}")
    # (which of them has which id isn't known)
    low, high = sorted(int(line.split()[1]) for line in modem.heard[-2:])
    modem.wire.send(report(low))
    wait_until(lambda: [one.read(0.05) for one in (first, second)] and len(first.out + second.out) > 2 * len(ANSWER), SOON)
    if first.out == ANSWER:
        first, second = second, first
    point(f"{name}: what is for one is shown by it alone", first.has(ANSWER + REPORTED) and second.stays(ANSWER), f"{first.out} {second.out}")
    modem.wire.send(report(EVERYBODY))
    both = first.has(ANSWER + 2 * REPORTED) and second.has(ANSWER + REPORTED)
    point(f"{name}: what is for all is shown by both", both, f"{first.out} {second.out}")
    first.process.send_signal(signal.SIGINT)
    point(f"{name}: an interrupt ends one", first.end()[0] == -signal.SIGINT)
    modem.wire.send(report(high))
    point(f"{name}: and the other goes on", second.has(ANSWER + 2 * REPORTED), second.out)
    last = Following(*words, "--turns=2", device=device)
    found = last.end()
    gives = f"gives {modem.clients}"
    point(f"{name}: --turns ends it, and its client id is given back", found == (0, ANSWER, "") and wait_until(lambda: gives in modem.heard, SOON), f"{found}, {modem.heard}")
    return low, second


def try_ours():
    modem = fresh()
    proxy = subprocess.Popen([program, "qmi-proxy", "-d", "modem.sock", "--socket", "proxy.sock"], stdout=subprocess.DEVNULL, stderr=subprocess.DEVNULL)
    wait_until(lambda: os.path.exists("proxy.sock"))
    low, second = follow_two("our proxy", modem, "modem.sock", "proxy.sock")
    point("our proxy: the client id of the one that was interrupted isn't given back", f"gives {low}" not in modem.heard)
    ended_by = Following("-p", "--socket", "proxy.sock", "--turns=0", f"--client-cid={low}").end()
    point("our proxy: a later command with --client-cid gives it back", ended_by == (0, ANSWER, "") and wait_until(lambda: f"gives {low}" in modem.heard, SOON), str(ended_by))
    proxy.terminate()
    proxy.wait()
    found = second.end()
    point("our proxy: its end is the link's end, status 0", found == (0, ANSWER + 2 * REPORTED, ""), str(found))


def try_loss():
    modem = fresh()
    if os.path.exists("proxy.sock"):
        os.unlink("proxy.sock")
    proxy = subprocess.Popen([program, "qmi-proxy", "-d", "modem.sock", "--socket", "proxy.sock", "--exit-when-lost"], stdout=subprocess.DEVNULL, stderr=subprocess.DEVNULL)
    wait_until(lambda: os.path.exists("proxy.sock"))
    following = Following("-p", "--socket", "proxy.sock")
    shown = following.has(ANSWER, 10)
    modem.wire.end()
    found = following.end()
    point("our proxy with --exit-when-lost: a modem that is lost ends the link, status 0", shown and found == (0, ANSWER, "") and proxy.wait() == 4, str(found))


def try_several():
    modems = {name: fresh(at=name) for name in ("one.sock", "two.sock")}
    proxy = subprocess.Popen([program, "qmi-proxies", "--socket", "several.sock", *modems], stdout=subprocess.DEVNULL, stderr=subprocess.DEVNULL)
    wait_until(lambda: os.path.exists("several.sock"))
    first, second = (Following("-p", "--socket", "several.sock", device=name) for name in modems)
    answered = first.has(ANSWER, 10) and second.has(ANSWER, 10)
    heard = [modem.heard for modem in modems.values()]
    point("one proxy of two modems: both that follow have the same client id, each of its own", answered and heard == [["asks 1"]] * 2, f"{first.out} {second.out} {heard}")
    modems["one.sock"].wire.send(report(1))
    point("one proxy of two modems: what one modem tells is shown by its own alone", first.has(ANSWER + REPORTED) and second.stays(ANSWER), f"{first.out} {second.out}")
    modems["two.sock"].wire.send(report(EVERYBODY))
    point("one proxy of two modems: also what it tells to all", second.has(ANSWER + REPORTED) and first.stays(ANSWER + REPORTED), f"{first.out} {second.out}")
    lost = modems["two.sock"].wire
    lost.end()
    opened = wait_until(lambda: modems["two.sock"].wire is not lost)
    modems["two.sock"].wire.send(report(EVERYBODY))
    stay = second.stays(ANSWER + REPORTED) and first.stays(ANSWER + REPORTED)
    point("one proxy of two modems: a modem that is lost ends no program, and what it tells later is for nobody", opened and stay, f"{first.out} {second.out}")
    proxy.terminate()
    proxy.wait()
    found = [one.end()[0] for one in (first, second)]
    point("one proxy of two modems: its end is the link's end, status 0", found == [0, 0], str(found))


def is_taken():
    return " @qmi-proxy\n" in open("/proc/net/unix").read()


def try_theirs():
    if os.getuid() or is_taken() or not shutil.which("socat") or not os.access(peer, os.X_OK):
        print("not tried: libqmi's proxy (it or socat isn't here, root is wanted, or its socket @qmi-proxy is taken)")
        return
    modem = Modem(None)
    started = [subprocess.Popen([peer, "--no-exit"], stdout=subprocess.DEVNULL, stderr=subprocess.DEVNULL)]
    wait_until(is_taken)
    started.append(subprocess.Popen(["socat", "UNIX-LISTEN:theirs.sock,fork", "ABSTRACT-CONNECT:qmi-proxy"], stderr=subprocess.DEVNULL))
    wait_until(lambda: os.path.exists("theirs.sock"))
    _, second = follow_two("libqmi's proxy", modem, os.ttyname(modem.device), "theirs.sock")
    started[0].terminate()
    found = second.end()
    point("libqmi's proxy: its end is the link's end, status 0", found == (0, ANSWER + 2 * REPORTED, ""), str(found))
    for process in started:
        process.terminate()
        process.wait()


def try_proxies():
    try_ours()
    try_loss()
    try_several()
    try_theirs()


# ---- a flood ----

def memory(pid):
    """What it has of its own, but for its code, in KB."""
    return int(re.search(r"RssAnon:\s+(\d+)", open(f"/proc/{pid}/status").read())[1])


def times(pid):
    """Processor time in user mode and in the system, in seconds."""
    fields = open(f"/proc/{pid}/stat").read().rsplit(")", 1)[1].split()
    return tuple(int(fields[place]) / os.sysconf("SC_CLK_TCK") for place in (11, 12))


def flood(*words):
    """Indications a second, microseconds of a processor each, memory behind a tenth of them and behind all, the lines that are printed, and how it ends."""
    begin, told = (threading.Semaphore(0) for _ in range(2))

    def play(wire, client, answer):
        wire.send(answer + report(client))
        told.release()
        block = 1000 * report(client)
        for count in (INDICATIONS // 10000, INDICATIONS // 10000 * 9):
            begin.acquire()
            for _ in range(count):
                wire.send(block)
            told.release()
        begin.acquire()
        wire.end()
    fresh(play)
    counter = subprocess.Popen(["wc", "-l"], stdin=subprocess.PIPE, stdout=subprocess.PIPE)
    following = Following(*words, out=counter.stdin)
    counter.stdin.close()
    pid = following.process.pid
    if not told.acquire(timeout=20):
        sys.exit(f"the modem isn't asked: {following.end(1)}")
    time.sleep(0.5)
    spent, begins = times(pid), time.monotonic()
    begin.release()
    told.acquire()
    early = memory(pid)
    begin.release()
    told.acquire()
    # (what still stands in the socket counts as shown: some hundred KB of many MB)
    took, late = time.monotonic() - begins, memory(pid)
    each = [(after - before) / FLOOD * 1e6 for before, after in zip(spent, times(pid))]
    begin.release()
    ends = following.end(60)
    return FLOOD / took, each, early, late, int(counter.stdout.read()), ends


def try_flood():
    for name, words, head, lines in (("lines", [], 5, 4), ("JSON", ["--json"], 1, 1)):
        runs = [flood(*words) for _ in range(3)]
        rate, each, early, late, _, _ = max(runs)
        point(f"a flood of {FLOOD:,} in {name}: each is shown, status 0", all(run[4:] == (head + lines * (FLOOD + 1), (0, "", "")) for run in runs), str(runs))
        print(f"       {rate:,.0f} a second by the clock, {sum(each):.2f} us of a processor each ({100 * each[0] / max(sum(each), 1e-9):.0f} % in user mode), "
              f"{early} KB of memory behind a tenth of them, {late} behind all", flush=True)
        point(f"at least 200,000 for each second of a processor in {name}", sum(each) <= 5)
        point(f"and no more memory behind all than behind a tenth in {name}", all(run[3] <= run[2] for run in runs), str(runs))


with open("nas.json", "w") as file:
    json.dump(FILE, file)
PARTS = {"shown": try_shown, "ends": try_ends, "proxy": try_proxies, "flood": try_flood}
for part in parts:
    PARTS[part]()
sys.exit(failed > 0)
