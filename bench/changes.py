"""What it costs an MBIM proxy that one of its clients changes its list of subscriptions. `changes.sh` starts it."""
import re
import sys

from mbim_talk import BASIC_CONNECT, Proxy, ask, command, list_of, processor_time

folder, count, programs = sys.argv[1], int(sys.argv[2]), sys.argv[3:]
CLIENTS = 64
VALGRIND = ("valgrind", "-q", "--tool=callgrind", f"--callgrind-out-file={folder}/grind")


def lists(client, change, apart):
    """Twenty-nine pairs that others have too, or of the client's own service, and one of its own, which changes."""
    own = bytes([client + 1]) * 16
    shared = own if apart else bytes(16)
    if apart:
        return list_of((own, [*range(1, 30), 1000 + change % 2]))
    return list_of((shared, range(1, 30)), (own, [1000 + change % 2]))


def changed(program, apart, count, before=()):
    """Processor time of so many changes, of one client after another; the modem is asked for each new merge."""
    with Proxy(folder, program, before) as proxy:
        clients = [proxy.client() for _ in range(CLIENTS)]
        for client, stream in enumerate(clients):
            ask(stream, command(3, BASIC_CONNECT, 19, lists(client, 0, apart)))
        spent = processor_time(proxy.process)
        for change in range(count):
            client = change % CLIENTS
            ask(clients[client], command(4 + change, BASIC_CONNECT, 19, lists(client, change // CLIENTS + 1, apart)))
        return processor_time(proxy.process) - spent


def instructions(program, apart):
    """User instructions of a change, as callgrind counts them."""
    counts = []
    for changes in (64, 64 + 640):
        changed(program, apart, changes, VALGRIND)
        counts.append(int(re.search(r"^(?:summary|totals): (\d+)", open(f"{folder}/grind").read(), re.M)[1]))
    return (counts[1] - counts[0]) / 640


for apart, name in ((True, "have nothing in common"), (False, "have all but one pair in common")):
    for program in programs:
        best = min(changed(program, apart, count) for _ in range(3))
        print(f"lists that {name}, {program}: {best / count * 1e6:7.2f} us of processor time and {instructions(program, apart):9,.0f} user instructions a change", flush=True)
