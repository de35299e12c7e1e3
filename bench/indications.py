"""What an indication costs a proxy that one client gets, alone and beside 63 that don't want it. `indications.sh` starts it."""
import struct
import sys
import time
import uuid

from mbim_talk import BASIC_CONNECT, INDICATION, Proxy, ask, command, list_of, message, processor_time

folder, program, count = sys.argv[1], sys.argv[2], int(sys.argv[3])
SMS = uuid.UUID("533fbeeb-14fe-4467-9f90-33a223e56c3f").bytes
# A thousand at once, which fit the queue of a client; or each once the one before has come.
WAYS = {"at once": (1000, count), "one by one": (1, count // 10)}
# Thirty CIDs of a service that the modem tells nothing of.
OTHERS = command(3, BASIC_CONNECT, 19, list_of((bytes(range(16)), range(30))))
TELLS = message(INDICATION, 0, struct.pack("<II", 1, 0) + SMS + struct.pack("<III", 2, 4, 5))


def tell(modem, client, at_once, count):
    """The modem tells the client so many indications, some at once, as fast as it takes them."""
    for _ in range(count // at_once):
        modem.sendall(TELLS * at_once)
        left = len(TELLS) * at_once
        while left:
            left -= len(client.recv(min(left, 65536)))


def measured(silent, at_once, count):
    """Microseconds of processor time an indication, and indications a second, beside so many open clients that don't want it."""
    with Proxy(folder, program) as proxy:
        clients = [proxy.client() for _ in range(silent + 1)]
        for client in clients[1:]:
            ask(client, OTHERS)
        time.sleep(0.2)
        spent, began = processor_time(proxy.process), time.monotonic()
        tell(proxy.modem, clients[0], at_once, count)
        return (processor_time(proxy.process) - spent) / count * 1e6, count / (time.monotonic() - began)


for way, (at_once, told) in WAYS.items():
    for silent in (0, 63):
        each, rate = min(measured(silent, at_once, told) for _ in range(3))
        print(f"{way}, beside {silent:2} that don't want it: {each:6.2f} us of processor time an indication, {rate:9,.0f} a second", flush=True)
