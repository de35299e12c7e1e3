"""Runs the load on both proxies of a kind, and prints what they took. `proxy.sh` starts it."""
import os
import re
import signal
import subprocess
import sys
import time

folder, program, peer, requests, kind = sys.argv[1], sys.argv[2], sys.argv[3], int(sys.argv[4]), sys.argv[5]
over_node = sys.argv[6:] == ["--node"]
NAMES = {"qmi": "libqmi", "mbim": "libmbim"}
TICKS = os.sysconf("SC_CLK_TCK")


def wait_for(path):
    for _ in range(400):
        if os.path.exists(path):
            return
        time.sleep(0.02)
    sys.exit(f"{path} doesn't come")


class Proxy:
    """A proxy with its modem, both started anew: ours, ours at a device node ("node"), the real one ("theirs"), or a bare forwarder in C
    ("bare"), to which no device is named. Of all but the real one each answer must be right."""
    wrong = 0

    def __init__(self, whose, under=()):
        self.strict = whose != "theirs"
        at_node = whose in ("node", "theirs")
        where = f"{folder}/{'modem.tty' if at_node else 'modem.sock'}"
        if os.path.lexists(where):
            os.unlink(where)
        self.modem = subprocess.Popen([f"{folder}/{kind}_modem", "pty" if at_node else "unix", where])
        wait_for(where)
        self.device = "" if whose == "bare" else os.readlink(where) if at_node else where
        self.socket = f"{folder}/proxy.sock" if self.strict else f"@{kind}-proxy"
        if self.strict and os.path.exists(self.socket):
            os.unlink(self.socket)
        ours = [program, f"{kind}-proxy", "-d", self.device, "--socket", self.socket, "--bridge", f"{folder}/bridge.sock", "--turns", "1000000000000"]
        words = {"ours": ours, "node": ours, "bare": [f"{folder}/{kind}_forwarder", where, self.socket], "theirs": [peer, "--no-exit"]}[whose]
        self.under = under
        self.process = subprocess.Popen([*under, *words], stderr=subprocess.DEVNULL, stdout=subprocess.DEVNULL)
        if self.strict:
            wait_for(self.socket)
        else:
            time.sleep(0.5 if not under else 2)

    def pid(self):
        """Of the proxy itself, also where another program has it as a child."""
        children = open(f"/proc/{self.process.pid}/task/{self.process.pid}/children").read().split() if self.under else []
        return int(children[0]) if children else self.process.pid

    def load(self, clients, in_flight, count, silent=0):
        words = [f"{folder}/{kind}_load", self.socket, self.device, str(clients), str(in_flight), str(count), str(silent)]
        lenient = {} if self.strict else {"LENIENT": "1"}
        done = subprocess.run(words, capture_output=True, text=True, timeout=600, env={**os.environ, **lenient})
        if done.returncode:
            sys.exit(f"the load fails: {done.stderr}")
        speed, wrong = done.stdout.split()
        Proxy.wrong += int(wrong)
        return float(speed)

    def times(self):
        """Processor time in user mode and in the system, in seconds, with that of its pumps."""
        children = open(f"/proc/{self.process.pid}/task/{self.process.pid}/children").read().split()
        stats = [open(f"/proc/{pid}/stat").read().rsplit(")", 1)[1].split() for pid in (self.process.pid, *children)]
        return tuple(sum(int(fields[place]) for fields in stats) / TICKS for place in (11, 12))

    def peak(self):
        status = open(f"/proc/{self.process.pid}/status").read()
        return int(re.search(r"VmHWM:\s+(\d+)", status)[1]) / 1024

    def end(self):
        os.kill(self.pid(), signal.SIGTERM)
        self.process.wait()
        self.modem.kill()
        self.modem.wait()


def rate(whose, clients, in_flight, silent=0):
    """The best of three: requests a second, and processor time a request in microseconds."""
    best = None
    for _ in range(3):
        proxy = Proxy(whose)
        before = proxy.times()
        speed = proxy.load(clients, in_flight, requests, silent)
        after = proxy.times()
        spent = [(b - a) / requests * 1e6 for a, b in zip(before, after)]
        found = (speed, sum(spent), spent[0] / max(sum(spent), 1e-9), proxy.peak())
        best = found if best is None or found[0] > best[0] else best
        proxy.end()
    return best


def calls(whose, clients, in_flight):
    """System calls a request."""
    counts = []
    for count in (1000, 1000 + 10000):
        table = f"{folder}/calls"
        proxy = Proxy(whose, ["strace", "-f", "-c", "-o", table])
        proxy.load(clients, in_flight, count)
        proxy.end()
        counts.append(int(re.search(r"(\d+)\s+(?:\d+\s+)?total", open(table).read())[1]))
    return (counts[1] - counts[0]) / 10000


def instructions(clients, in_flight):
    """Our user instructions a request."""
    counts = []
    for count in (1600, 1600 + 16000):
        out = f"{folder}/grind"
        proxy = Proxy("ours", ["valgrind", "--tool=callgrind", f"--callgrind-out-file={out}"])
        proxy.load(clients, in_flight, count)
        proxy.end()
        counts.append(int(re.search(r"^(?:summary|totals): (\d+)", open(out).read(), re.M)[1]))
    return (counts[1] - counts[0]) / 16000


theirs_name = f"{NAMES[kind]}'s"
if over_node:
    print(f"clients, in flight | ours at the node, its two pumps counted in: a second, us | {theirs_name}: a second, us | rate, processor time beside {theirs_name}")
    for clients, in_flight in ((1, 1), (16, 8)):
        ours, theirs = (rate(whose, clients, in_flight) for whose in ("node", "theirs"))
        print(f"{clients:2}, {in_flight} | {ours[0]:9,.0f} {ours[1]:6.2f} | {theirs[0]:9,.0f} {theirs[1]:6.2f} | {ours[0] / theirs[0]:.2f}, {ours[1] / theirs[1]:.2f}", flush=True)
    sys.exit()
print(f"clients, in flight | ours: a second, us, MB | a bare forwarder in C: a second, us | {theirs_name}: a second, us, MB | rate, processor time beside {theirs_name}, beside the forwarder")
for clients, in_flight in ((1, 1), (16, 8), (64, 1)):
    ours, bare, theirs = (rate(whose, clients, in_flight) for whose in ("ours", "bare", "theirs"))
    print(f"{clients:2}, {in_flight} | {ours[0]:9,.0f} {ours[1]:6.2f} {ours[3]:5.1f} | {bare[0]:9,.0f} {bare[1]:6.2f} | {theirs[0]:9,.0f} {theirs[1]:6.2f} {theirs[3]:5.1f} | "
          f"{ours[0] / theirs[0]:.2f}, {ours[1] / theirs[1]:.2f}, {ours[0] / bare[0]:.2f}, {ours[1] / bare[1]:.2f} (of ours {100 * ours[2]:.0f} % in user mode)", flush=True)
counted = ", ".join(f"{name} {calls(whose, 1, 1):.2f}" for name, whose in (("ours", "ours"), ("the forwarder", "bare"), (theirs_name, "theirs")))
print(f"system calls a request at 1, 1: {counted}", flush=True)
print(f"user instructions a request: {instructions(1, 1):,.0f} at 1, 1; {instructions(16, 8):,.0f} at 16, 8; {instructions(64, 1):,.0f} at 64, 1", flush=True)
quiet, crowded = rate("ours", 1, 8), rate("ours", 1, 8, 48)
print(f"beside 48 clients that say nothing: {crowded[1]:.2f} us a request, alone {quiet[1]:.2f}")
print(f"answers of {theirs_name} to another request than the client's next: {Proxy.wrong}")
