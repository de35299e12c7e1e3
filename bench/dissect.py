"""Times the showing of captures, and looks at how it ends. `dissect.sh` starts it."""
import os
import re
import shutil
import struct
import subprocess
import sys
import time

folder, program, megabytes = sys.argv[1], sys.argv[2], int(sys.argv[3])
MB = 1_000_000
BASIC_CONNECT = bytes.fromhex("a289cc33bcbb8b4fb6b0133ec2aae6df")
failed = False
COUNTS = shutil.which("valgrind") is not None


def check(holds, what):
    global failed
    if not holds:
        print(f"MISSED: {what}")
        failed = True


# ---- messages ----

def tlv(kind, value):
    return struct.pack("<BH", kind, len(value)) + value


def qmi(service, client, flags, number, message, tlvs):
    head = struct.pack("<BB", flags, number) if service == 0 else struct.pack("<BH", flags, number)
    body = head + struct.pack("<HH", message, len(tlvs)) + tlvs
    return struct.pack("<BHBBB", 1, len(body) + 5, 0x80, service, client) + body


def mbim(kind, number, rest):
    return struct.pack("<III", kind, 12 + len(rest), number) + rest


def done(number, cid, buffer, status=0):
    return mbim(0x80000003, number, struct.pack("<II", 1, 0) + BASIC_CONNECT + struct.pack("<III", cid, status, len(buffer)) + buffer)


OK = tlv(2, bytes(4))
QMI = [
    qmi(0, 0, 1, 1, 0x22, OK + tlv(1, b"\x02\x07")),
    qmi(2, 7, 2, 2, 0x22, OK + tlv(1, b"EM7455")),
    qmi(2, 7, 2, 3, 0x25, OK + tlv(0x11, b"014582000001234")),
    qmi(3, 8, 2, 4, 0x20, OK + tlv(1, b"\xbd\x08")),
    qmi(3, 8, 2, 5, 0x24, OK + tlv(1, b"\x01\x01\x01\x01\x01\x08") + tlv(0x12, struct.pack("<HHB", 262, 1, 10) + b"Telekom.de")),
    qmi(3, 255, 4, 0, 0x24, tlv(1, b"\x01\x01\x01\x01\x01\x08") + tlv(0x10, b"\x01")),
    qmi(1, 9, 2, 6, 0x2D, OK + b"".join(tlv(kind, struct.pack("<I", 0x0A000001 + kind)) for kind in (0x15, 0x16, 0x1E, 0x20, 0x21, 0x29))),
    qmi(1, 9, 2, 7, 0x23, OK + tlv(1, struct.pack("<IIII", 50_000_000, 150_000_000, 50_000_000, 150_000_000))),
    qmi(0, 0, 1, 8, 0x23, OK + tlv(1, b"\x02\x07")),
]
WDS = [
    qmi(1, 9, 2, 1, 0x20, OK + tlv(1, struct.pack("<I", 0x01020304))),
    qmi(1, 9, 2, 2, 0x22, OK + tlv(1, b"\x02")),
] + QMI[6:8]
MBIM = [
    mbim(0x80000001, 1, bytes(4)),
    done(2, 3, struct.pack("<II", 1, 1)),
    done(3, 11, struct.pack("<IIIII", 17, 99, 5, 0, 0)),
    done(4, 10, struct.pack("<IIIQQ", 0, 2, 0x20, 50_000_000, 150_000_000)),
    done(5, 20, struct.pack("<IIQQQQII", 0, 0, 123_456_789, 98_765, 23_456_789, 87_654, 0, 0)),
    done(6, 4, b"", status=9),
    mbim(0x80000007, 0, struct.pack("<II", 1, 0) + BASIC_CONNECT + struct.pack("<II", 3, 8) + struct.pack("<II", 1, 0)),
]


def stream(name, messages, length):
    """A file of whole messages, of at least so many bytes."""
    path = f"{folder}/{name}"
    block = b"".join(messages)
    block *= max(1, MB // len(block))
    with open(path, "wb") as file:
        written = 0
        while written < length:
            written += file.write(block)
    return path, written


# ---- runs ----

def peak_of(child):
    """The peak of its memory in KB, as long as it is there."""
    try:
        with open(f"/proc/{child.pid}/status") as status:
            return max(int(line.split()[1]) for line in status if line.startswith("VmHWM"))
    except (OSError, ValueError):
        return 0


def run(words, watched=False):
    """Seconds of processor time, the peak of memory in KB if it is watched, and the exit status."""
    with open(os.devnull, "wb") as null:
        child = subprocess.Popen([program, "dissect", *words], stdout=null, stderr=null)
    peak = 0
    while watched and not os.waitid(os.P_PID, child.pid, os.WEXITED | os.WNOHANG | os.WNOWAIT):
        peak = max(peak, peak_of(child))
        time.sleep(0.005)
    _, status, usage = os.wait4(child.pid, 0)
    child.returncode = os.waitstatus_to_exitcode(status)
    return usage.ru_utime + usage.ru_stime, peak, child.returncode


def instructions(words):
    """How many instructions a run takes, by valgrind."""
    words = ["valgrind", "--tool=callgrind", "--callgrind-out-file=/dev/null", program, "dissect", *words]
    said = subprocess.run(words, stdout=subprocess.DEVNULL, stderr=subprocess.PIPE, text=True).stderr
    return int(re.search(r"refs: +([0-9,]+)", said)[1].replace(",", ""))


def costs(words, captures):
    """What a byte of each stream of some messages and about so many bytes costs, and in what: in instructions where they can be counted, since
    they are the same beside other work."""
    found = []
    for messages, length in captures:
        path, written = stream("cost.bin", messages, length)
        cost = instructions([*words, path]) if COUNTS else min(run([*words, path])[0] for _ in range(3)) * 1e9
        found.append(cost / written)
        os.remove(path)
    return found, "instructions" if COUNTS else "ns"


def rate(name, messages, words, least):
    if COUNTS:
        print(f"{name}: {costs(words, [(messages, 2 * MB)])[0][0]:.0f} instructions a byte")
    path, length = stream(f"{name}.bin", messages, megabytes * MB)
    runs = [run([*words, path]) for _ in range(3)]
    check(all(status == 0 for _, _, status in runs), f"{name} ends with 0")
    seconds = min(took for took, _, _ in runs)
    count = length // sum(map(len, messages)) * len(messages)
    print(f"{name}: {length / MB / seconds:.1f} MB a second, {count / seconds:,.0f} messages a second")
    check(length / MB / seconds >= least, f"{name}: {least} MB a second")
    os.remove(path)
    return count / seconds


def tshark_rate():
    """How many messages of MBIM tshark prints a second, each a packet of a capture file."""
    path = f"{folder}/mbim.pcap"
    count = 0
    with open(path, "wb") as file:
        file.write(struct.pack("<IHHiIII", 0xA1B2C3D4, 2, 4, 0, 0, 65_535, 147))
        while count < 20_000:
            for message in MBIM:
                file.write(struct.pack("<IIII", 0, 0, len(message), len(message)) + message)
                count += 1
    words = ["tshark", "-n", "-r", path, "-V", "-o", 'uat:user_dlts:"User 0 (DLT=147)","mbim.control","0","","0",""']
    took = []
    for _ in range(3):
        child = subprocess.Popen(words, stdout=subprocess.DEVNULL, stderr=subprocess.DEVNULL)
        usage = os.wait4(child.pid, 0)[2]
        took.append(usage.ru_utime + usage.ru_stime)
    return count / min(took)


def memory():
    peaks = []
    for length in (MB, 1_000 * MB):
        path, _ = stream("long.bin", QMI, length)
        _, peak, status = run([path], watched=True)
        check(status == 0, "a long capture ends with 0")
        peaks.append(peak)
        os.remove(path)
    print(f"peak of memory: {peaks[0]} KB at 1 MB, {peaks[1]} KB at 1 GB")
    check(peaks[1] <= peaks[0] + 200, "as much memory at 1 GB as at 1 MB")


def linear():
    short, long = (2 * MB, 8 * MB) if COUNTS else (megabytes * MB // 4, megabytes * MB)
    (few, many), unit = costs([], [(QMI, short), (QMI, long)])
    print(f"a byte: {few:.1f} {unit} at {short // MB} MB, {many:.1f} at {long // MB} MB")
    check(many <= few * 1.25, "time that is linear in the length")


def one_message():
    """A byte of a message with 20,000 TLVs, beside one of many small messages with as many TLVs a byte."""
    tlvs = tlv(0x10, b"") * 19_999
    large = qmi(1, 9, 2, 1, 0x7FFF, tlvs + tlv(0x11, bytes(65_536 - 13 - len(tlvs) - 3)))
    small = qmi(1, 9, 2, 1, 0x7FFF, tlv(0x10, b"") * 20)
    assert len(large) == 65_536
    length = 2 * MB if COUNTS else 20 * MB
    (of_large, of_small), unit = costs([], [([large], length), ([small], length)])
    print(f"a byte of a message with 20,000 TLVs: {of_large:.1f} {unit}, of messages with 20: {of_small:.1f}")
    check(of_large <= of_small * 2, "a byte of a large message costs no more")


# ---- bad input ----

def ends():
    answer = bytes.fromhex("011b0080000001012100100002040000000000010600010201000300")

    def ends_as(what, content, status, words=()):
        path = f"{folder}/capture.bin"
        with open(path, "wb") as file:
            file.write(content)
        found = run([*words, path])[2]
        check(found == status, f"{what}: status {status}, not {found}")

    for cut in range(1, len(answer)):
        ends_as(f"cut at {cut}", answer + answer[:cut], 6)
    ends_as("empty", b"", 0)
    ends_as("the other kind", MBIM[0], 6)
    ends_as("the other kind of MBIM", answer, 6, ["--kind=mbim"])
    ends_as("both mixed", answer + MBIM[0], 6)
    check(run([folder])[2] == 10, "a folder: status 10")
    check(run([f"{folder}/none"])[2] == 10, "no file: status 10")
    with open(f"{folder}/t.json", "w") as file:
        file.write("{")
    ends_as("tables that don't read", answer, 9, ["--tables", f"{folder}/t.json"])
    with open(f"{folder}/long.bin", "wb") as file:
        file.write(answer * 10_000)
    with open("/dev/full", "wb") as full:
        check(subprocess.run([program, "dissect", f"{folder}/long.bin"], stdout=full, stderr=subprocess.DEVNULL).returncode == 8, "full: status 8")
    reader, writer = os.pipe()
    os.close(reader)
    closed = subprocess.run([program, "dissect", f"{folder}/long.bin"], stdout=writer, stderr=subprocess.DEVNULL).returncode
    os.close(writer)
    check(closed == 8, f"a closed pipe: status 8, not {closed}")


def live():
    """Each message's lines come before the next one is sent."""
    answer = bytes.fromhex("011b0080000001012100100002040000000000010600010201000300")
    child = subprocess.Popen([program, "dissect", "/dev/stdin"], stdin=subprocess.PIPE, stdout=subprocess.PIPE)
    for number in range(3):
        child.stdin.write(answer)
        child.stdin.flush()
        lines = [child.stdout.readline() for _ in range(7)]
        check(lines[0].startswith(b"%d ctl" % (28 * number)), "a live message is shown at once")
    child.stdin.close()
    check(child.wait() == 0, "a pipe that ends behind a message: status 0")


ends()
live()
rate("QMI", QMI, [], 30)
tables = os.environ.get("WDS_TABLES")
if tables:
    with open(tables) as described, open(f"{folder}/wds.json", "w") as known:
        known.write(re.sub(r',\s*"endian"\s*:\s*"network"', "", described.read()))
    rate("QMI by WDS's file", WDS, ["--tables", f"{folder}/wds.json"], 20)
else:
    print("QMI by WDS's file: not run, WDS_TABLES names no file")
ours = rate("MBIM", MBIM, ["--kind=mbim"], 30)
if shutil.which("tshark"):
    theirs = tshark_rate()
    print(f"tshark: {theirs:,.0f} messages of MBIM a second, ours {ours / theirs:.1f} times as many")
    check(ours >= 10 * theirs, "ten times as many as tshark")
else:
    print("tshark: not here")
linear()
one_message()
memory()
sys.exit(failed)
