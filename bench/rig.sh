#!/bin/sh
# The rig's time: processor time of a run for 5,000, 20,000 and 100,000 messages and 10, 40 and 64 clients, of each kind, the
# best of several. Behind it the time a step, and for the smaller ones its instructions, which valgrind counts, since times differ
# much from run to run. A step is an event that a core meets: a request, its taking, its answer and what the client takes, once
# beside others and once alone, and each turn of the clock, once for all and once for each; what the openings take, which is what
# a run without messages takes, is left out of that. Fails where 40 clients and 20,000 messages take more than 2 s (QMI) or 4 s
# (MBIM), where a step has more than 1.5 times the instructions that it has in the cheapest run of its kind, or where a last line
# doesn't say that all are equal.
# MODEMKIT names a program that is built already.
top=$(CDPATH= cd -- "$(dirname -- "$0")/.." && pwd) || exit 70
. "$top/bench/needs.sh"
needs "Debian: python3, valgrind" python3 valgrind
program=${MODEMKIT:-$("$top/bench/build.sh")} || exit 70
exec python3 - "$program" <<'P'
import os, re, subprocess, sys

program = sys.argv[1]
LIMITS = {"qmi": 2.0, "mbim": 4.0}
NUMBER = 7
nothing = os.open("/dev/null", os.O_WRONLY)


def words(kind, clients, messages):
    return [program, "rig", f"--kind={kind}", f"--clients={clients}", f"--messages={messages}", f"--number={NUMBER}"]


def seconds(times, *run):
    """The least processor time of so many runs."""
    costs = []
    for _ in range(times):
        child = os.posix_spawn(program, words(*run), os.environ, file_actions=[(os.POSIX_SPAWN_DUP2, nothing, 1)])
        used = os.wait4(child, 0)[2]
        costs.append(used.ru_utime + used.ru_stime)
    return min(costs)


def instructions(*run):
    """How many a run executes."""
    counted = ["valgrind", "--tool=callgrind", "--callgrind-out-file=/dev/null", *words(*run)]
    told = subprocess.run(counted, check=True, capture_output=True, text=True).stderr
    return int(re.search(r"Collected : (\d+)", told).group(1))


def clock_turns(clients, messages):
    """How many turns of the clock are drawn."""
    x = NUMBER
    count = 0
    for _ in range(messages):
        for below in clients, 8:
            x = (x * 6364136223846793005 + 1442695040888963407) % 2**64
            drawn = x // 2**33 % below
        count += drawn == 7
    return count


def steps(clients, messages, lines):
    """How many events the cores meet, but for the openings."""
    counts = dict(line.split()[:2] for line in lines)
    forwarded, answered, expired = (int(counts[name]) for name in ("forwarded", "answered", "expired"))
    return 2 * (3 * forwarded + answered + expired) + (clock_turns(clients, messages) + 1) * (clients + 1)


missed = False
for kind in LIMITS:
    costs = []
    for clients in 10, 40, 64:
        opening = seconds(30, kind, clients, 0)
        opens = instructions(kind, clients, 0)
        for messages in 5000, 20000, 100000:
            lines = subprocess.run(words(kind, clients, messages), check=True, capture_output=True, text=True).stdout.splitlines()
            time = seconds(500000 // messages, kind, clients, messages)
            count = steps(clients, messages, lines)
            told = f"{kind}: {clients} clients, {messages} messages: {time * 1e3:.0f} ms, {opening * 1e3:.0f} of them for the openings; a step {(time - opening) / count * 1e9:.0f} ns"
            if messages < 100000:
                costs.append((instructions(kind, clients, messages) - opens) / count)
                told += f", {costs[-1]:.0f} instructions"
            print(told, flush=True)
            missed |= lines[-1] != f"equal {clients} of {clients}"
            missed |= (clients, messages) == (40, 20000) and time > LIMITS[kind]
    print(f"{kind}: the dearest step has {max(costs) / min(costs):.2f} times the instructions of the cheapest")
    missed |= max(costs) > 1.5 * min(costs)
sys.exit(missed)
P
