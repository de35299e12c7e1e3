"""What goes wrong at a device node, over a pseudo terminal that takes writes as the kernel's cdc-wdm does, and prints a
line for each point. `node.sh` starts it: FOLDER PROGRAM WDM ROUNDS."""
import os
import pty
import re
import resource
import select
import signal
import socket
import struct
import subprocess
import sys
import threading
import time
import tty
import uuid

folder, program, wdm, rounds = sys.argv[1], sys.argv[2], sys.argv[3], int(sys.argv[4])
os.chdir(folder)
failed = 0
SOCKET, BRIDGE, LOG = f"{folder}/p.sock", f"{folder}/b.sock", f"{folder}/writes"
ASKS = {"qmi": "--dms-get-model", "mbim": "--query-device-caps"}
# What a tool may end with whose proxy another tool started, by docs/DEVICES.md.
LOST = {3: "link fault", 4: "link ended", 12: "no proxy"}


def point(name, holds, more=""):
    """A line for what is to hold."""
    global failed
    failed += not holds
    print(f"{'ok' if holds else 'FAILED':6} {name}{more and f' ({more})'}", flush=True)


def environment():
    return {**os.environ, "LD_PRELOAD": wdm, "WDM_LOG": LOG}


def length_of(kind, bytes):
    if kind == "qmi":
        return int.from_bytes(bytes[1:3], "little") + 1 if len(bytes) >= 3 else None
    return int.from_bytes(bytes[4:8], "little") if len(bytes) >= 8 else None


class Node:
    """A node with the program's simulated modem behind it. Each message of the modem is a writing of its own."""

    def __init__(self, kind):
        self.kind, self.path = kind, f"{folder}/{kind}.modem"
        self.master, self.slave = pty.openpty()
        tty.setraw(self.slave)
        self.name = os.ttyname(self.slave)
        self.start()

    def start(self):
        self.simulator = subprocess.Popen([program, "modem-sim", f"--kind={self.kind}", f"--socket={self.path}"])
        wait_until(lambda: os.path.exists(self.path))
        self.modem = socket.socket(socket.AF_UNIX)
        self.modem.connect(self.path)
        self.stopping = os.pipe()
        self.thread = threading.Thread(target=self.relay, daemon=True)
        self.thread.start()

    def relay(self):
        rest = b""
        while True:
            ready, _, _ = select.select([self.master, self.modem, self.stopping[0]], [], [])
            if self.stopping[0] in ready:
                return
            if self.master in ready:
                self.modem.sendall(os.read(self.master, 65536))
            if self.modem in ready:
                rest += self.modem.recv(65536)
                while (length := length_of(self.kind, rest)) and len(rest) >= length:
                    os.write(self.master, rest[:length])
                    rest = rest[length:]

    def stop(self):
        if self.thread.is_alive():
            os.write(self.stopping[1], b"x")
            self.thread.join()

    def goes(self):
        """The node is taken away, as a modem that is pulled out takes it."""
        self.stop()
        os.close(self.slave)
        os.close(self.master)

    def end(self):
        self.stop()
        self.modem.close()
        self.simulator.kill()
        self.simulator.wait()
        os.unlink(self.path)


def wait_until(holds, seconds=10):
    end = time.monotonic() + seconds
    while not holds():
        if time.monotonic() > end:
            return False
        time.sleep(0.01)
    return True


def ours():
    """The numbers of the program's processes, but for simulated modems, with their words."""
    found = {}
    for number in filter(str.isdigit, os.listdir("/proc")):
        try:
            if os.readlink(f"/proc/{number}/exe") == program:
                words = open(f"/proc/{number}/cmdline", "rb").read().split(b"\0")
                if b"modem-sim" not in words:
                    found[int(number)] = b" ".join(words).decode()
        except OSError:
            pass
    return found


def nothing_left(name):
    wait_until(lambda: not ours(), 3)
    left = [*ours().values(), *(it for it in os.listdir(folder) if re.search(r"\.sock\.\w+$", it))]
    point(f"{name}: nothing is left", not left, "; ".join(left))


def proxy_at(node, *more):
    if os.path.lexists(SOCKET):
        os.unlink(SOCKET)
    line = [program, f"{node.kind}-proxy", "-d", node.name, "--socket", SOCKET, "--bridge", BRIDGE, *more]
    proxy = subprocess.Popen(line, env=environment(), stderr=subprocess.PIPE, text=True)
    wait_until(lambda: os.path.exists(SOCKET) or proxy.poll() is not None)
    return proxy


def stop(process):
    process.kill()
    process.communicate()


def tool(node, *words, at=SOCKET, bridge=BRIDGE, through=True, **how):
    line = [program, f"{node.kind}cli", *(["-p"] if through else []), "-d", node.name, "--socket", at, "--bridge", bridge, *(words or [ASKS[node.kind]])]
    return subprocess.Popen(line, env=environment(), stdout=subprocess.PIPE, stderr=subprocess.PIPE, text=True, **how)


def end_of(process, seconds=60):
    out, err = process.communicate(timeout=seconds)
    return process.returncode, out, err


# ---- writes ----


def qmi_client(device, count, room):
    """So many requests, `room` of them at a time, each with an answer of its own number."""
    def message(number, name, tlvs=b""):
        body = bytes([0, number]) + name.to_bytes(2, "little") + len(tlvs).to_bytes(2, "little") + tlvs
        return bytes([1]) + (len(body) + 5).to_bytes(2, "little") + bytes([0, 0, 0]) + body

    opening = bytes([1]) + len(device).to_bytes(2, "little") + device.encode()
    yield message(255, 0xFF00, opening), lambda answer: answer[7] == 255 and answer[-4:] == bytes(4)
    for at in range(count):
        number = at % 250 + 1
        yield message(number, 0x0021), lambda answer, number=number: answer[7] == number and answer[8:10] == b"\x21\0" and len(answer) > 30


def mbim_client(device, count, room):
    def numbers(*all):
        return struct.pack(f"<{len(all)}I", *all)

    def command(number, service, cid, kind, body=b""):
        body = numbers(1, 0) + uuid.UUID(service).bytes + numbers(cid, kind, len(body)) + body
        return numbers(3, 12 + len(body), number) + body

    def is_done(number, kind, at):
        return lambda answer: answer[:4] == numbers(kind) and answer[8:12] == numbers(number) and answer[at:at + 4] == bytes(4)

    path = device.encode("utf-16-le")
    names = numbers(12, len(path), 30) + path + bytes(-len(path) % 4)
    yield command(1, "838cf7fb-8d0d-4d7f-871e-d71dbefbb39b", 1, 1, names), is_done(1, 0x80000003, 40)
    yield numbers(1, 16, 2, 4096), is_done(2, 0x80000001, 12)
    for at in range(count):
        yield command(at + 3, "a289cc33-bcbb-8b4f-b6b0-133ec2aae6df", 1, 0), is_done(at + 3, 0x80000003, 40)


def talk(kind, device, count, room, found):
    client = socket.socket(socket.AF_UNIX)
    client.connect(SOCKET)
    client.settimeout(20)
    requests = (qmi_client if kind == "qmi" else mbim_client)(device, count, room)
    openings = 1 if kind == "qmi" else 2
    waiting, rest, right = [], b"", 0
    try:
        while True:
            while len(waiting) < (room if right >= openings else 1):
                request, is_right = next(requests, (None, None))
                if request is None:
                    break
                client.sendall(request)
                waiting.append(is_right)
            if not waiting:
                break
            rest += client.recv(65536)
            while (length := length_of(kind, rest)) and len(rest) >= length:
                answer, rest = rest[:length], rest[length:]
                hits = [it for it in waiting if it(answer)]
                if not hits:
                    return
                waiting.remove(hits[0])
                right += 1
    except OSError:
        pass
    finally:
        client.close()
        found.append(right)


def many_at_once(node, count=200):
    open(LOG, "w").close()
    proxy, found = proxy_at(node), []
    clients = [threading.Thread(target=talk, args=[node.kind, node.name, count, 8, found]) for _ in range(16)]
    for it in clients:
        it.start()
    for it in clients:
        it.join()
    writes = open(LOG).read()
    wanted = 16 * (count + (1 if node.kind == "qmi" else 2))
    point(f"{node.kind}: 16 clients with 8 requests in flight get their answers", sum(found) == wanted, f"{sum(found)} of {wanted}")
    point(f"{node.kind}: each write is one whole message", len(writes) >= 16 * count and set(writes) == {"."},
          f"{len(writes)} writes, {writes.count('M')} of several, {writes.count('P')} of parts")
    stop(proxy)
    nothing_left(f"{node.kind}: a proxy that is killed")


def long_request(node):
    open(LOG, "w").close()
    text = "x" * 1000
    status, out, err = end_of(tool(node, f"--connect=access-string={'a' * 90},username={text},password={text}", through=False))
    writes = open(LOG).read()
    point("mbim: a command in fragments is written fragment by fragment", set(writes) == {"."}, f"status {status}, {len(writes)} writes, {err.strip()}")


# ---- a second reader ----


def second_reader(node):
    proxy = proxy_at(node)
    status, out, err = end_of(tool(node, at=f"{folder}/q.sock", bridge=f"{folder}/c.sock"))
    point(f"{node.kind}: a second opener fails, and says so", status in (3, 12) and "read fault" in err, f"status {status}")
    status, out, err = end_of(tool(node, at=f"{folder}/q.sock", bridge=f"{folder}/c.sock", through=False))
    point(f"{node.kind}: so does a tool beside the proxy", status == 3 and "read fault" in err, f"status {status}")
    statuses = [end_of(tool(node))[0] for _ in range(5)]
    point(f"{node.kind}: the first takes no harm", statuses == [0] * 5, str(statuses))
    stop(proxy)
    nothing_left(f"{node.kind}: two openers")


def killed(node):
    asking = tool(node, through=False)
    wait_until(lambda: len(ours()) >= 3)
    stop(asking)
    point(f"{node.kind}: pumps go with a tool that is killed", wait_until(lambda: not ours(), 2), "; ".join(ours().values()))


# ---- a lost node ----


def bad_byte(node):
    proxy = proxy_at(node)
    first = end_of(tool(node))[0]
    os.write(node.master, b"\x55" * 16)
    point(f"{node.kind}: pumps end where the stream goes bad", first == 0 and wait_until(lambda: not [it for it in ours().values() if " pump " in it], 2), "; ".join(ours().values()))
    status = end_of(tool(node, through=False, bridge=f"{folder}/c.sock"))[0]
    point(f"{node.kind}: a tool beside that proxy gets its answer", status == 0, f"status {status}")
    stop(proxy)


def goes(node):
    proxy = proxy_at(node)
    first = end_of(tool(node))[0]
    node.goes()
    point(f"{node.kind}: pumps end where the node goes", first == 0 and wait_until(lambda: not [it for it in ours().values() if " pump " in it], 2), "; ".join(ours().values()))
    stop(proxy)
    nothing_left(f"{node.kind}: a node that went")


def is_told(proxy):
    """It ended with its own line, behind those of its pumps."""
    status, _, err = end_of(proxy)
    return status == 4 and err.endswith("error: link ended\n") and all(map(is_line, err.split("\n")))


def exits(kind, name, is_lost):
    node = Node(kind)
    proxy = proxy_at(node, "--exit-when-lost", "--no-exit")
    first, alive = end_of(tool(node))[0], proxy.poll() is None
    is_lost(node)
    ends = wait_until(lambda: proxy.poll() is not None, 2)
    if not ends:
        stop(proxy)
    point(f"{kind}: with --exit-when-lost a proxy ends where {name}", first == 0 and alive and ends and is_told(proxy), f"status {proxy.returncode}")
    nothing_left(f"{kind}: a proxy that ended")
    node.end()


# ---- tools that start their proxies at one moment ----


def is_line(line):
    return line == "" or re.fullmatch(r"error: (link fault|link ended|no proxy|hub fault|read fault|start fault|timed out|denied link fault|out of memory)", line)


def at_once(node):
    odd, lost, mixed, beside = [], 0, 0, 0
    for number in range(rounds):
        if number % 25 == 24:
            # the client ids of tools that lost their proxies stay taken in a modem of QMI until it begins anew
            node.end()
            node.start()
        tools = [tool(node) for _ in range(16)]
        for it in tools:
            status, out, err = end_of(it)
            lines = err.split("\n")
            mixed += not all(map(is_line, lines))
            beside += status == 0 and err != ""
            lost += status in LOST
            if status and (status not in LOST or not err.endswith(f"error: {LOST[status]}\n")):
                odd.append((status, err))
        wait_until(lambda: not ours(), 3)
    point(f"{node.kind}: {rounds} rounds of 16 tools: no status but those that are told", not odd, str(odd[:3]))
    point(f"{node.kind}: lines aren't mixed, and none stands beside an answer", not mixed and not beside, f"{mixed}, {beside}; {lost} of {rounds * 16} lost their proxy")
    nothing_left(f"{node.kind}: {rounds} rounds")
    status, out, err = end_of(tool(node))
    point(f"{node.kind}: the next tool gets its answer", status == 0, f"status {status} {err.strip()}")


def killed_openings(node, count=200):
    for at in range(count):
        proxy = subprocess.Popen([program, f"{node.kind}-proxy", "-d", node.name, "--socket", SOCKET, "--bridge", BRIDGE], stderr=subprocess.DEVNULL)
        time.sleep(0.006 * at / count)
        stop(proxy)
    wait_until(lambda: not ours(), 3)
    status, out, err = end_of(tool(node))
    point(f"{node.kind}: after {count} killed openings a tool gets its answer", status == 0, f"status {status} {err.strip()}")
    nothing_left(f"{node.kind}: killed openings")


def few_descriptors(node):
    def limit():
        resource.setrlimit(resource.RLIMIT_NOFILE, (10, 10))

    begun = time.monotonic()
    status, out, err = end_of(tool(node, preexec_fn=limit))
    took = time.monotonic() - begun
    point(f"{node.kind}: with 10 descriptors a tool ends at once", took < 3, f"status {status} after {took:.1f} s, {err.strip()!r}")
    nothing_left(f"{node.kind}: few descriptors")


for kind in ("qmi", "mbim"):
    node = Node(kind)
    many_at_once(node)
    if kind == "mbim":
        long_request(node)
    second_reader(node)
    killed(node)
    at_once(node)
    killed_openings(node)
    few_descriptors(node)
    bad_byte(node)
    goes(node)
    node.end()
    exits(kind, "the node goes", Node.goes)
    exits(kind, "the stream goes bad", lambda node: os.write(node.master, b"\x55" * 16))
sys.exit(failed > 0)
