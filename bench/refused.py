"""Refuses the requests for memory of programs, one by one. `refused.sh` starts it."""
import os
import pty
import signal
import struct
import subprocess
import sys
import time
import tty

folder, program = sys.argv[1:3]
# How a run ends for want of memory: as that, or, where the words, the link, the hub or the spawner lack it, as where these can't be read or fail.
ENDS = {(70, b"error: out of memory\n"), (2, b"error: usage: words\n"), (3, b"error: link fault\n"), (13, b"error: hub fault\n"), (11, b"error: start fault\n")}
NO_END = 2**63


def preload(first, last):
    """The environment in which these requests for memory are refused; 0 refuses none."""
    with open(f"{folder}/count", "wb") as count:
        count.write(bytes(8))
    return {**os.environ, "LD_PRELOAD": f"{folder}/refuse.so", "REFUSE_COUNT": f"{folder}/count", "REFUSE_FROM": str(first), "REFUSE_UNTIL": str(last)}


def requests():
    """How many requests for memory were counted."""
    return struct.unpack("=Q", open(f"{folder}/count", "rb").read())[0]


def wait_for(is_so, seconds=5):
    """Whether it is so within this time."""
    end = time.monotonic() + seconds
    while not is_so():
        if time.monotonic() > end:
            return False
        time.sleep(0.002)
    return True


def start(words, first=0, last=0):
    return subprocess.Popen([program, *words], env=preload(first, last), stdout=subprocess.PIPE, stderr=subprocess.PIPE)


class Tool:
    """A command of a tool, which ends by itself."""

    def __init__(self, name, words):
        self.name, self.words = name, words
        process = start(words)
        self.whole = process.communicate(timeout=30)[0]
        if process.returncode:
            sys.exit(f"{name}: ends with {process.returncode} though no memory is refused")
        self.requests = requests()

    def run(self, first, last):
        """Why this run was wrong, or None; and whether it ended for want of memory."""
        process = start(self.words, first, last)
        out, err = process.communicate(timeout=60)
        if process.returncode == 0:
            return (None if out == self.whole and not err else "another text", False)
        if (process.returncode, err) not in ENDS:
            return (f"status {process.returncode}, {err}", True)
        return (None if self.whole.startswith(out) else "not a part of the text", True)


class Server:
    """A program that serves at a socket until it is stopped."""

    def __init__(self, name, words, at, ask):
        self.name, self.words, self.at, self.ask = name, words, at, ask
        process = start(words)
        self.serve(process)
        self.requests = requests()
        self.answer = self.asked()
        self.stop(process)

    def serve(self, process):
        """Whether it stands at its socket and waits, as against ending. Its socket is there before all its memory is."""
        wait_for(lambda: process.poll() is not None or os.path.exists(self.at))
        before = -1
        while process.poll() is None and before != requests():
            before = requests()
            time.sleep(0.1)
        return process.poll() is None

    def asked(self):
        """What a tool gets there."""
        done = subprocess.run([program, *self.ask], capture_output=True, timeout=60)
        return done.returncode, done.stdout

    def stop(self, process):
        process.send_signal(signal.SIGTERM)
        process.communicate()
        if os.path.exists(self.at):
            os.unlink(self.at)

    def run(self, first, last):
        process = start(self.words, first, last)
        if self.serve(process):
            # (behind the opening memory is refused no more: what is tried here is the opening)
            same = self.answer == self.asked()
            self.stop(process)
            return (None if same else "serves otherwise", False)
        err = process.stderr.read()
        if os.path.exists(self.at):
            os.unlink(self.at)
            return ("its socket is left", True)
        if (process.returncode, err) not in ENDS:
            return (f"status {process.returncode}, {err}", True)
        return (None, True)


def pumps():
    """The children of programs that ended, which the system gave to another parent."""
    found = subprocess.run(["pgrep", "-f", f"{program} pump"], capture_output=True, text=True)
    return found.stdout.split()


def try_all(subject):
    """Each request refused alone, and all from it on."""
    wrong = ended = runs = 0
    for number in range(1, subject.requests + 1):
        for last in (number, NO_END):
            why, for_want = subject.run(number, last)
            runs += 1
            ended += for_want
            left = [] if wait_for(lambda: not pumps()) else pumps()
            if why or left:
                wrong += 1
                print(f"{subject.name}: request {number}{'' if last == number else ' and all behind it'}: {why or 'children are left'}")
                for child in left:
                    os.kill(int(child), signal.SIGKILL)
    print(f"{subject.name}: {subject.requests} requests for memory, {runs} runs, {ended} ended for want of it, {runs - ended} did all, {wrong} wrong")
    return wrong


def node():
    """A pseudo terminal in raw mode, as a node at which nobody answers."""
    master, slave = pty.openpty()
    tty.setraw(slave)
    return master, os.ttyname(slave)


def modem(kind):
    """A simulated modem of a kind, which has its memory."""
    at = f"{folder}/{kind}.sock"
    process = subprocess.Popen([program, "modem-sim", "--socket", at, f"--kind={kind}"])
    wait_for(lambda: os.path.exists(at))
    return process, at


modems = []
try:
    wrong = 0
    for kind, tool, ask in (("qmi", "qmicli", "--dms-get-model"), ("mbim", "mbimcli", "--query-device-caps")):
        process, at = modem(kind)
        modems.append(process)
        sim, proxy = f"{folder}/{kind}-other.sock", f"{folder}/{kind}-proxy.sock"
        wrong += try_all(Tool(f"{tool} {ask}", [tool, "-d", at, ask]))
        wrong += try_all(Server(f"modem-sim --kind={kind}", ["modem-sim", "--socket", sim, f"--kind={kind}"], sim, [tool, "-d", sim, ask]))
        wrong += try_all(Server(f"{kind}-proxy", [f"{kind}-proxy", "-d", at, "--socket", proxy], proxy, [tool, "-d", proxy, ask]))
    for kind, tool, ask in (("qmi", "qmicli", "--dms-get-model"), ("mbim", "mbimcli", "--query-device-caps")):
        master, path = node()
        proxy = f"{folder}/{kind}-node.sock"
        wrong += try_all(Server(f"{kind}-proxy at a node", [f"{kind}-proxy", "-d", path, "--socket", proxy], proxy, [tool, "-d", proxy, "--timeout=1", ask]))
        os.close(master)
    sys.exit(1 if wrong else 0)
finally:
    for process in modems:
        process.kill()
        process.wait()
