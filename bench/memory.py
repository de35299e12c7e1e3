"""Runs a proxy of a kind with too little memory, and with no more than it opened with. `memory.sh` starts it."""
import os
import re
import resource
import signal
import socket
import subprocess
import sys
import time

folder, program, kind = sys.argv[1:4]
modem_socket, proxy_socket = f"{folder}/modem.sock", f"{folder}/proxy.sock"
OUT_OF_MEMORY = 70
STEP = 256 * 1024
CLIENTS = 64
# A message that the proxy answers by itself: a request of DMS under a client id that wasn't granted, and a close of a device that wasn't opened.
ANSWERED = {"qmi": "010c0000020100010022000000", "mbim": "020000000c00000001000000"}


def start(limit=None):
    """A proxy that may take so many bytes of address space, any number where None is given."""
    def bound():
        if limit is not None:
            resource.setrlimit(resource.RLIMIT_AS, (limit, limit))
    words = [program, f"{kind}-proxy", "-d", modem_socket, "--socket", proxy_socket, "--no-exit"]
    return subprocess.Popen(words, stderr=subprocess.PIPE, preexec_fn=bound)


def opens(proxy):
    """Whether the proxy serves, as against ending. Its socket is there before all its memory is."""
    while proxy.poll() is None:
        if os.path.exists(proxy_socket):
            time.sleep(0.1)
            return proxy.poll() is None
        time.sleep(0.005)
    return False


def stop(proxy):
    """Ends the proxy by a signal, which leaves its socket's file."""
    proxy.send_signal(signal.SIGTERM)
    proxy.wait()
    os.unlink(proxy_socket)


def size(proxy, name):
    """A figure of the process, in bytes."""
    return int(re.search(rf"{name}:\s+(\d+)", open(f"/proc/{proxy.pid}/status").read())[1]) * 1024


def refusals():
    """Each opening with less address space than it takes, a step more each time. One that the system doesn't even load isn't counted."""
    counted, limit = 0, STEP
    while True:
        proxy = start(limit)
        if opens(proxy):
            stop(proxy)
            return counted, limit
        if proxy.stderr.read() == b"error: out of memory\n":
            counted += 1
            if proxy.returncode != OUT_OF_MEMORY or os.path.exists(proxy_socket):
                sys.exit(f"{kind}: with {limit} bytes the proxy ends with {proxy.returncode}, or its socket is left")
        limit += STEP


def load(clients, in_flight, count):
    words = [f"{folder}/{kind}_load", proxy_socket, modem_socket, str(clients), str(in_flight), str(count), "0"]
    done = subprocess.run(words, capture_output=True, text=True, timeout=600)
    if done.returncode:
        sys.exit(f"{kind}: with no memory more the load fails: {done.stderr}")


def connect():
    client = socket.socket(socket.AF_UNIX)
    client.connect(proxy_socket)
    return client


def ask_much(client):
    """Asks until the proxy drops the client, which takes no answer."""
    client.settimeout(5)
    try:
        while True:
            client.sendall(bytes.fromhex(ANSWERED[kind]) * 1000)
    except (BrokenPipeError, ConnectionResetError):
        pass


def peak(ask):
    """How much a proxy has used at most, once as many clients as it serves came, which do this."""
    proxy = start()
    opens(proxy)
    clients = [connect() for _ in range(CLIENTS)]
    for client in clients:
        ask(client)
    time.sleep(0.2)
    used = size(proxy, "VmHWM")
    stop(proxy)
    return used / 2**20


modem = subprocess.Popen([f"{folder}/{kind}_modem", "unix", modem_socket])
try:
    while not os.path.exists(modem_socket):
        time.sleep(0.005)
    counted, enough = refusals()
    print(f"{kind}: {counted} openings with too little memory ended with {OUT_OF_MEMORY} and left nothing; {enough / 2**20:.2f} MB are enough")
    proxy = start()
    opens(proxy)
    opened = size(proxy, "VmSize")
    resource.prlimit(proxy.pid, resource.RLIMIT_AS, (opened, opened))
    load(CLIENTS, 1, 100000)
    load(CLIENTS, 3, 100000)
    if size(proxy, "VmSize") > opened:
        sys.exit(f"{kind}: the proxy took memory")
    print(f"{kind}: {CLIENTS} clients were served with no more than the {opened / 2**20:.2f} MB of the opening, {size(proxy, 'VmHWM') / 2**20:.2f} MB of them used")
    stop(proxy)
    silent, full = peak(lambda client: None), peak(ask_much)
    print(f"{kind}: {CLIENTS} clients that say nothing use {silent:.2f} MB at most, and {CLIENTS} whose outboxes were full {full:.2f} MB")
finally:
    modem.kill()
    modem.wait()
