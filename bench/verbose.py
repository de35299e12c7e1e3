"""Has the tools tell what goes over their links, and prints a line for each point. `verbose.sh` starts it: FOLDER PROGRAM PART.."""
import fcntl
import os
import shutil
import socket
import subprocess
import sys
import tempfile
import threading
import time

folder, program, parts = sys.argv[1], sys.argv[2], sys.argv[3:]
os.chdir(folder)
failed = 0
NOBODY = 65534
LINK_FAULT = 3


def point(name, holds, more=""):
    """A line for what is to hold."""
    global failed
    failed += not holds
    print(f"{'ok' if holds else 'FAILED':6} {name}{more and not holds and f' ({more})' or ''}", flush=True)


def wait_for(path):
    ends = time.monotonic() + 20
    while not os.path.exists(path) and time.monotonic() < ends:
        time.sleep(0.01)


def run(*words, **how):
    done = subprocess.run([program, *words], capture_output=True, timeout=60, **how)
    return done.returncode, done.stdout.decode(), done.stderr.decode()


def marked(text, mark):
    """The lines behind this mark, without it."""
    return "".join(line[len(mark):] for line in text.splitlines(True) if line.startswith(mark))


# ---- what went over a socket ----

class Tap:
    """Stands between a tool and a modem's socket, and keeps what went over the one connection that it takes, by direction."""

    def __init__(self, path, modem):
        self.went, self.came = b"", b""
        self.listener = socket.socket(socket.AF_UNIX)
        self.listener.bind(path)
        self.listener.listen(1)
        self.modem = modem
        self.carrier = threading.Thread(target=self.carry, daemon=True)
        self.carrier.start()

    def carry(self):
        tool, _ = self.listener.accept()
        modem = socket.socket(socket.AF_UNIX)
        modem.connect(self.modem)
        back = threading.Thread(target=self.carry_back, args=(modem, tool), daemon=True)
        back.start()
        while octets := tool.recv(65536):
            self.went += octets
            modem.sendall(octets)
        modem.shutdown(socket.SHUT_WR)
        back.join(5)

    def carry_back(self, modem, tool):
        # (one byte, and then the rest: a message is told with the take that completes it)
        while octets := modem.recv(65536):
            self.came += octets
            try:
                tool.sendall(octets[:1])
                tool.sendall(octets[1:])
            except OSError:
                return

    def end(self):
        self.carrier.join(10)
        self.listener.close()


def dissected(kind, octets):
    with open("capture", "wb") as file:
        file.write(octets)
    return run("dissect", f"--kind={kind}", "capture")[1]


taps = 0


def told(name, kind, modem, words, proxied=False):
    """One command with `-v` and without, each at a tap of its own, or at a proxy that is."""
    global taps
    seen = []
    for more in (["-v"], []):
        taps += 1
        path = f"tap{taps}"
        tap = Tap(path, modem)
        way = ["-p", f"--socket={path}", "-d", "of-qmi"] if proxied else ["-d", path]
        seen.append(run(f"{kind}cli", *more, *way, *words))
        tap.end()
        if more:
            went, came = tap.went, tap.came
    (status, out, err), without = seen
    lines = [line for line in err.splitlines(True) if not line.startswith(("> ", "< "))]
    point(f"{name}: what was sent is told as dissect shows it", went and marked(err, "> ") == dissected(kind, went), err)
    point(f"{name}: what was taken is told as dissect shows it", came and marked(err, "< ") == dissected(kind, came), err)
    point(f"{name}: the rest is what it is without -v", (status, out, "".join(lines)) == without and err.endswith("".join(lines)), f"{seen}")


MODEL = '[{"name": "Get Device Model ID", "type": "Message", "service": "DMS", "id": "0x0022", "output": [{"name": "Model", "id": "0x01", "format": "string"}]}]'


def try_told():
    modems = []
    for kind in ("qmi", "mbim"):
        modems.append(subprocess.Popen([program, "modem-sim", f"--kind={kind}", f"--socket=of-{kind}"]))
        wait_for(f"of-{kind}")
    modems.append(subprocess.Popen([program, "qmi-proxy", "--socket=proxy", "--device=of-qmi"]))
    wait_for("proxy")
    with open("dms.json", "w") as file:
        file.write(MODEL)
    told("qmicli", "qmi", "of-qmi", ["--dms-get-model"])
    told("qmicli in JSON", "qmi", "of-qmi", ["--get-service-version-info", "--json"])
    told("qmicli by tables", "qmi", "of-qmi", ["--tables=dms.json", "--request=Get Device Model ID"])
    told("qmicli that is refused", "qmi", "of-qmi", ["--tables=dms.json", "--request=Get Device Model ID", "--client-cid=77"])
    told("qmicli through our proxy", "qmi", "proxy", ["--dms-get-model"], proxied=True)
    told("mbimcli", "mbim", "of-mbim", ["--query-device-caps"])
    told("mbimcli in JSON", "mbim", "of-mbim", ["--query-signal-state", "--json"])
    for modem in modems:
        modem.terminate()
        modem.wait(10)


# ---- more than is noted ----

class Flood(Tap):
    """Before the modem's first answer come more bytes than a tool notes, as indications of DMS for everybody."""

    def carry_back(self, modem, tool):
        value = bytes(5000)
        tlvs = b"\x10" + len(value).to_bytes(2, "little") + value
        body = b"\x80\x02\xff" + b"\x04\0\0\x01\0" + len(tlvs).to_bytes(2, "little") + tlvs
        message = b"\x01" + (len(body) + 2).to_bytes(2, "little") + body
        flood = message * (MOST_BYTES // len(message) + 2)
        tool.sendall(flood)
        super().carry_back(modem, tool)


MOST_BYTES = 4_194_304


def try_full():
    modem = subprocess.Popen([program, "modem-sim", "--kind=qmi", "--socket=flooded"])
    wait_for("flooded")
    tap = Flood("flood", "flooded")
    status, out, err = run("qmicli", "-v", "-d", "flood", "--dms-get-model")
    tap.end()
    point("more than is noted: the command does what it does", (status, out) == run("qmicli", "-d", "flooded", "--dms-get-model")[:2], f"{status} {out}")
    point("more than is noted: a line `..` stands behind it", err.endswith("\n..\n") and err.count("\n..\n") == 1, err[-200:])
    modem.terminate()
    modem.wait(10)


# ---- calls that fail ----

def fails(name, path, words, **how):
    ended = run("qmicli", "-v", "-d", path, "--dms-get-model", **how)
    point(f"{name}: {words}", ended == (LINK_FAULT, "", f"! {path}: {words}\nerror: link fault\n"), f"{ended}")


def try_faults():
    fails("a socket that isn't there", "away", "No such file or directory")
    listener = socket.socket(socket.AF_UNIX)
    listener.bind("deserted")
    listener.close()
    fails("a socket that nobody listens at", "deserted", "Connection refused")
    os.mkdir("shut", 0o700)
    if os.geteuid():
        os.chmod("shut", 0)
        fails("a socket that may not be opened", "shut/modem", "Permission denied")
        os.chmod("shut", 0o700)
    else:
        os.chmod(folder, 0o711)
        fails("a socket that may not be opened", "shut/modem", "Permission denied", user=NOBODY, group=NOBODY)
    try_reset()


def try_reset():
    """The modem's end is closed with bytes unread."""
    listener = socket.socket(socket.AF_UNIX)
    listener.bind("reset")
    listener.listen(1)

    def reset():
        connection, _ = listener.accept()
        connection.recv(1)
        connection.close()

    threading.Thread(target=reset, daemon=True).start()
    status, out, err = run("qmicli", "-v", "-d", "reset", "--dms-get-model")
    lines = "".join(line for line in err.splitlines(True) if not line.startswith("> "))
    point("a socket that is reset: Connection reset by peer", (status, out, lines) == (LINK_FAULT, "", "! reset: Connection reset by peer\nerror: link fault\n"), f"{(status, out, err)}")


# ---- device nodes ----

def node_fails(name, path, words, times=2, **how):
    """Both pumps of a node, or one of them, say why it failed, and without `-v` they say only that it did."""
    bridge = "open/bridge"
    for more in (["-v"], []):
        ended = run("qmicli", *more, "-d", path, f"--bridge={bridge}", "--dms-get-model", **how)
        pump, tool = "error: read fault\n", "error: link fault\n"
        if more:
            pump, tool = f"! {path}: {words}\n{pump}", f"! {bridge}: timed out\n{tool}"
        point(f"{name}{more and f': {words}' or ', without -v'}", ended == (LINK_FAULT, "", pump * times + tool), f"{ended}")


def as_nobody():
    """What runs a program that permissions hold for."""
    return {} if os.geteuid() else {"user": NOBODY, "group": NOBODY}


def try_nodes():
    # (a path below /dev is that of a node, whatever stands there)
    nodes = tempfile.mkdtemp(dir="/dev/shm")
    os.chmod(nodes, 0o755)
    os.chmod(folder, 0o711)
    os.mkdir("open")
    os.chmod("open", 0o777)
    try:
        try_nodes_in(nodes)
    finally:
        shutil.rmtree(nodes)


def try_nodes_in(nodes):
    node_fails("a node that isn't there", f"{nodes}/away", "No such file or directory")
    for name, mode in (("shut", 0), ("read-only", 0o444)):
        with open(f"{nodes}/{name}", "w"):
            os.chmod(f"{nodes}/{name}", mode)
    node_fails("a node that may not be opened", f"{nodes}/shut", "Permission denied", **as_nobody())
    node_fails("a node that may not be written", f"{nodes}/read-only", "Permission denied", times=1, **as_nobody())
    listener = socket.socket(socket.AF_UNIX)
    listener.bind(f"{nodes}/socket")
    node_fails("a node without a device", f"{nodes}/socket", "No such device or address")
    listener.close()
    node_fails("a node that is a folder", nodes, "Is a directory")
    try_busy()


def try_busy():
    """A node that somebody else reads, and has locked: the pump that reads it fails alone."""
    modem, node = os.openpty()
    fcntl.flock(node, fcntl.LOCK_EX)
    node_fails("a node that is in use", os.ttyname(node), "Device or resource busy", times=1)
    os.close(node)
    os.close(modem)


for part in parts:
    {"told": try_told, "full": try_full, "faults": try_faults, "nodes": try_nodes}[part]()
sys.exit(failed > 0)
