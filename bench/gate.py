#!/usr/bin/env python3
"""Runs `rt ci` with each call of the prover timed (`gate.sh` says more). rt's own file is loaded as it is; the one thing
that is changed is the prover's path, which leads here: this file then runs the prover and notes what it cost."""
import collections
import ctypes
import importlib.machinery
import importlib.util
import json
import os
import resource
import shutil
import signal
import subprocess
import sys
import tempfile
import threading
import time

COSTS, PROVER = "GATE_COSTS", "GATE_PROVER"
# What a run of the prover is for, in the order of the table's columns.
PARTS = ("proof", "tests", "before", "tries", "after", "compilers", "rest")


def after(words, flag):
    return words[words.index(flag) + 1] if flag in words else ""


def prove(words):
    """Runs the prover with these words, notes what it cost, and ends as it did."""
    begun = time.monotonic()
    with_parent = lambda: ctypes.CDLL(None).prctl(1, signal.SIGKILL)
    prover = subprocess.Popen([os.environ[PROVER], *words], preexec_fn=with_parent)
    _, status, used = os.wait4(prover.pid, 0)
    row = {
        "verb": words[0] if words else "",
        "crate": after(words, "--crate-name"),
        "folder": os.getcwd(),
        "is_test": "--test" in words,
        "is_checked": "--crate-checked" in words,
        "over": after(words, "--incremental"),
        "seconds": used.ru_utime + used.ru_stime,
        "clock": time.monotonic() - begun,
    }
    with open(os.environ[COSTS], "a", encoding="utf-8") as costs:
        costs.write(json.dumps(row) + "\n")
    code = os.waitstatus_to_exitcode(status)
    if code < 0:
        os.kill(os.getpid(), -code)
    return code


def part_of(row, seeded):
    """What a run of the prover was for. A crate with two or more edits is checked before the first and behind the last."""
    if row["verb"] not in ("build", "check"):
        return "rest"
    if "rt-edit" in row["folder"]:
        if os.path.basename(row["over"]) != "seed":
            return "tries"
        seeded[row["crate"]] += 1
        return "before" if seeded[row["crate"]] == 1 else "after"
    if row["is_test"]:
        return "tests"
    return "compilers" if row["is_checked"] else "proof"


def lines_of(folder, ending):
    """How many lines below a folder are neither blank nor comments."""
    count = 0
    for at, _, names in os.walk(folder):
        for name in names:
            if name.endswith(ending):
                with open(f"{at}/{name}", encoding="utf-8") as text:
                    count += sum(bool(it.strip()) and not it.strip().startswith(("//", "--")) for it in text)
    return count


def edits_of(crate):
    folder = f"crates/{crate}/must-fail"
    return len([it for it in os.listdir(folder) if it.endswith(".edit")]) if os.path.isdir(folder) else 0


def crates_of():
    """The crates in the order of crates.txt, each with those that it uses."""
    with open("crates.txt", encoding="utf-8") as text:
        lines = [it.partition(":") for it in text if ":" in it and not it.startswith("#")]
    return {name.split()[0]: uses.split() for name, _, uses in lines}


def program_of(crates):
    """The crates that the program is built of."""
    found = ["modemkit"]
    for crate in found:
        found += [it for it in crates.get(crate, ()) if it in crates and it not in found]
    return found


class Pace(threading.Thread):
    """How long a fixed loop takes while the gate runs: on a host with other guests one minute of a processor does more or
    less than another, and figures of two runs compare only beside this."""

    def __init__(self):
        super().__init__(daemon=True)
        self.seconds = []

    def run(self):
        while True:
            begun = time.thread_time()
            sum(it * it % 7 for it in range(500_000))
            self.seconds.append(time.thread_time() - begun)
            time.sleep(15)

    def __str__(self):
        mean = sum(self.seconds) / len(self.seconds)
        return f"a loop of 500,000 steps took {min(self.seconds):.3f} to {max(self.seconds):.3f} s meanwhile, {mean:.3f} on average"


def tell(rows, clock, whole, pace):
    minutes, seeded = collections.defaultdict(lambda: collections.Counter()), collections.Counter()
    for row in rows:
        minutes[row["crate"]][part_of(row, seeded)] += row["seconds"] / 60
    print("\n| Crate | Code | Specs | Proofs | Proof | Tests | Edits | Minutes of edits |")
    print("|---|---|---|---|---|---|---|---|")
    crates = crates_of()
    for crate in crates:
        cost = minutes[crate]
        if not cost:
            continue
        counts = [lines_of(f"crates/{crate}/{part}", end) for part, end in (("src", ".rt"), ("specs", ".antt"), ("proofs", ".antt"))]
        of_edits = cost["before"] + cost["tries"] + cost["after"]
        texts = [f"{it:,}" for it in counts] + [f"{cost['proof'] + cost['compilers']:.2f}", f"{cost['tests']:.2f}", str(edits_of(crate)), f"{of_edits:.2f}"]
        print(f"| `{crate}` | {' | '.join(texts)} |")
    sums = {part: sum(it[part] for it in minutes.values()) for part in PARTS}
    print(f"\n{len(rows)} runs of the prover, {clock / 60:.1f} minutes of the clock on {os.cpu_count()} processors; {pace}")
    for part in PARTS:
        print(f"{part:10} {sums[part]:7.1f} processor minutes")
    build = sum(minutes[it]["proof"] + minutes[it]["compilers"] for it in program_of(crates))
    print(f"{'program':10} {build:7.1f} of these, for the proofs and the compilers of its crates alone")
    print(f"{'together':10} {sum(sums.values()):7.1f} processor minutes of the prover, {whole / 60:.1f} with all else that the gate runs")


def main(words):
    loader = importlib.machinery.SourceFileLoader("gate_rt", os.path.realpath(shutil.which("rt")))
    rt = importlib.util.module_from_spec(importlib.util.spec_from_loader("gate_rt", loader))
    sys.modules["gate_rt"] = rt
    loader.exec_module(rt)
    with tempfile.TemporaryDirectory(prefix="gate-") as room:
        os.environ[PROVER], os.environ[COSTS] = rt.rtlib.RATTLE, f"{room}/costs"
        rt.rtlib.RATTLE = os.path.realpath(__file__)
        begun, pace = time.monotonic(), Pace()
        pace.start()
        status = rt.main(["ci", *words])
        clock = time.monotonic() - begun
        whole = sum(it.ru_utime + it.ru_stime for it in map(resource.getrusage, (resource.RUSAGE_SELF, resource.RUSAGE_CHILDREN)))
        with open(f"{room}/costs", encoding="utf-8") as costs:
            rows = [json.loads(it) for it in costs]
    tell([it for it in rows if it["crate"] or it["verb"] == "fmt"], clock, whole, pace)
    print("passed" if status == 0 else "failed")
    return status


if __name__ == "__main__":
    sys.exit(prove(sys.argv[1:]) if COSTS in os.environ else main(sys.argv[1:]))
