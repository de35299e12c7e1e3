"""Sends each message of libqmi's descriptions with drawn values, and compares what is sent and what is printed: see services.sh.

    services.py PROGRAM FOLDER ROUNDS

What a format means is taken from libqmi's build-aux/qmi-codegen (VariableInteger.py, VariableString.py, VariableArray.py,
VariableSequence.py, Container.py), and not from our tables.
"""

import glob
import json
import os
import random
import re
import socket
import subprocess
import sys
import tempfile
import threading

SERVICES = {"CTL": 0, "WDS": 1, "DMS": 2, "NAS": 3, "QOS": 4, "WMS": 5, "PDS": 6, "VOICE": 9, "UIM": 11, "PBM": 12, "SAR": 17, "LOC": 16,
            "WDA": 26, "OMA": 226, "PDC": 36, "DSD": 42, "DPM": 47, "FOX": 227, "GMS": 231, "GAS": 232}
NUMBERS = {f"g{sign}int{8 * size}": (size, not sign) for size in (1, 2, 4, 8) for sign in ("u", "")}


class Unknown(Exception):
    """A form that the program's tables don't know."""


def objects(path):
    """The objects of a description, in which a line may be a comment."""
    with open(path) as file:
        return json.loads(re.sub(r"^\s*//.*$", "", file.read(), flags=re.M))


def resolved(entry, common):
    return common[entry["common-ref"]] if "common-ref" in entry else entry


def counted(entry, default):
    """How many bytes a count has, or how many elements there are."""
    if "fixed-size" in entry:
        return None, int(entry["fixed-size"])
    prefix = entry.get("size-prefix-format", default)
    return (NUMBERS[prefix][0] if prefix else 0), None


class Drawn:
    """Draws values of a form: their JSON as it is given, as it is printed, and their bytes."""

    def __init__(self, common, random):
        self.common, self.random = common, random

    def value(self, entry, whole):
        """A value of a form, which is a TLV's whole form or stands inside another."""
        form = entry["format"]
        if form in NUMBERS or form == "guint-sized":
            return self.number(entry, *(NUMBERS.get(form) or (int(entry["guint-size"]), False)))
        if form == "string":
            return self.text(entry, whole)
        if form == "array":
            return self.array(entry)
        if form in ("sequence", "struct"):
            return self.sequence(entry)
        raise Unknown("floats")

    def number(self, entry, size, signed):
        if entry.get("endian") == "network":
            raise Unknown("network order")
        low, high = (-(1 << 8 * size - 1), (1 << 8 * size - 1) - 1) if signed else (0, (1 << 8 * size) - 1)
        n = self.random.choice([low, high, self.random.randint(low, high), self.random.randint(0, 9)])
        return n, n, n.to_bytes(size, "little", signed=signed)

    def text(self, entry, whole):
        prefix, fixed = counted(entry, None if whole else "guint8")
        count = self.random.randint(0, 9) if fixed is None else fixed
        octets = bytes(self.random.choice(b'aZ09 "\\/~<>\x01\x7f') for _ in range(count))
        if count and self.random.random() < 0.3:
            octets = b"\xff" + octets[1:]
            json_value = {"hex": octets.hex().upper()}
        else:
            json_value = octets.decode()
        return json_value, json_value, (count.to_bytes(prefix, "little") if prefix else b"") + octets

    def array(self, entry):
        if "sequence-prefix-format" in entry:
            raise Unknown("a sequence number before a list")
        prefix, fixed = counted(entry, "guint8")
        element = resolved(entry["array-element"], self.common)
        count = self.random.randint(0, 3) if fixed is None else fixed
        each = [self.value(element, False) for _ in range(count)]
        if not each:
            self.value(element, False)  # (an unknown form is one of no elements too)
        octets = b"".join(one[2] for one in each)
        given, printed = [one[0] for one in each], [one[1] for one in each]
        if element["format"] == "guint8":
            printed = Bytes(printed)
            if self.random.random() < 0.5:
                given = octets.hex()
        return given, printed, (count.to_bytes(prefix, "little") if prefix else b"") + octets

    def sequence(self, entry):
        fields = [resolved(field, self.common) for field in entry["contents"]]
        names = [field["name"] for field in fields]
        if len(set(names)) < len(names):
            raise Unknown("two fields of a name")
        each = [self.value(field, False) for field in fields]
        return dict(zip(names, (one[0] for one in each))), dict(zip(names, (one[1] for one in each))), b"".join(one[2] for one in each)

    def tlvs(self, entries, left_out):
        """The values of some TLVs by their names, as they are given and printed, and the TLVs' bytes."""
        entries = [entry for entry in (resolved(entry, self.common) for entry in entries) if int(entry["id"], 0) not in left_out]
        names, ids = [entry["name"] for entry in entries], [int(entry["id"], 0) for entry in entries]
        if len(set(ids)) < len(ids) or len(set(names)) < len(names):
            raise Unknown("two TLVs of an id or a name")
        given, printed, octets = {}, {}, b""
        for entry in entries:
            one = self.value(entry, True)
            if self.random.random() < 0.8:
                given[entry["name"]], printed[entry["name"]] = one[:2]
                octets += tlv(int(entry["id"], 0), one[2])
        return given, printed, octets


class Bytes(list):
    """Bytes, which are printed as numbers or as hexadecimal digits."""


def tlv(kind, value):
    return bytes([kind]) + len(value).to_bytes(2, "little") + value


def is_printed(wanted, printed):
    """Whether a value is printed so; words stand beside the numbers that have some."""
    if isinstance(wanted, Bytes):
        return printed in (list(wanted), bytes(wanted).hex().upper())
    if isinstance(wanted, list):
        return isinstance(printed, list) and len(wanted) == len(printed) and all(map(is_printed, wanted, printed))
    if isinstance(wanted, dict):
        return isinstance(printed, dict) and all(key in printed and is_printed(value, printed[key]) for key, value in wanted.items()) \
            and all(key in wanted or key.endswith(" word") and key[:-5] in wanted for key in printed)
    return wanted == printed


class Modem(threading.Thread):
    """Answers each connection: gives client id 1, and to the message what `answer` has, whose request `asked` gets."""

    def __init__(self, path):
        super().__init__(daemon=True)
        self.listener = socket.socket(socket.AF_UNIX)
        self.listener.bind(path)
        self.listener.listen(8)
        self.answer, self.asked = b"", []
        # what is told behind the answer, upon which the modem hangs up
        self.behind = b""

    def run(self):
        while True:
            connection, _ = self.listener.accept()
            with connection:
                rest = b""
                while piece := connection.recv(65536):
                    rest += piece
                    while len(rest) >= 3 and len(rest) > int.from_bytes(rest[1:3], "little"):
                        end = int.from_bytes(rest[1:3], "little") + 1
                        reply, is_last = self.reply(rest[:end])
                        connection.sendall(reply)
                        rest = rest[end:]
                        if is_last:
                            connection.shutdown(socket.SHUT_RDWR)

    def reply(self, message):
        service, client = message[4], message[5]
        head = 6 + (2 if service == 0 else 3)
        identity, tlvs = message[head : head + 2], message[head + 4 :]
        success, behind = tlv(2, bytes(4)), b""
        if service == 0 and identity in (b"\x22\x00", b"\x23\x00") and not self.for_control:
            # Allocate CID, and Release CID
            success += tlv(1, tlvs[3:4] + (b"\x01" if identity == b"\x22\x00" else tlvs[4:5]))
        else:
            self.asked.append((service, int.from_bytes(identity, "little"), tlvs))
            success += self.answer
            behind = self.behind
        number = message[7:8] if service == 0 else message[7:9]
        kind = b"\x01" if service == 0 else b"\x02"
        body = kind + number + identity + len(success).to_bytes(2, "little") + success
        return framed(service, client, body) + behind, bool(behind)


def framed(service, client, body):
    """A message of the modem."""
    return b"\x01" + (5 + len(body)).to_bytes(2, "little") + b"\x80" + bytes([service, client]) + body


def main():
    program, folder, rounds = sys.argv[1], sys.argv[2], int(sys.argv[3])
    drawing = random.Random(os.environ.get("SEED", "1"))
    common = {entry["common-ref"]: entry for entry in objects(f"{folder}/qmi-common.json") if "common-ref" in entry}
    failed = 0
    with tempfile.TemporaryDirectory() as room:
        modem = Modem(f"{room}/modem")
        modem.start()
        for path in sorted(glob.glob(f"{folder}/qmi-service-*.json")):
            entries = objects(path)
            here = dict(common, **{entry["common-ref"]: entry for entry in entries if "common-ref" in entry})
            messages = [entry for entry in entries if entry.get("type") == "Message"]
            names = [entry["name"] for entry in messages]
            sent, differ, others = 0, 0, {}
            for entry in messages:
                try:
                    if names.count(entry["name"]) > 1:
                        raise Unknown("two messages of a name")
                    for _ in range(rounds):
                        wrong = try_message(program, f"{room}/modem", path, entry, Drawn(here, drawing), modem)
                        if wrong:
                            differ += 1
                            print(f"  {entry['name']}: {wrong}")
                    sent += 1
                except Unknown as why:
                    others[str(why)] = others.get(str(why), 0) + 1
                    if not is_refused(program, f"{room}/modem", path, entry):
                        differ += 1
                        print(f"  {entry['name']}: isn't refused for {why}")
            others = "".join(f", {count} refused for {why}" for why, count in sorted(others.items()))
            print(f"{os.path.basename(path)}: {len(messages)} messages, {sent} sent {rounds} times, {differ} differ{others}", flush=True)
            failed += differ + follow(program, f"{room}/modem", path, entries, Drawn(here, drawing), modem, rounds)
    sys.exit(failed > 0)


def follow(program, path, tables, entries, drawn, modem, rounds):
    """Follows each indication of a file behind the answer to one of its messages; how many are shown otherwise than they are told."""
    told = [entry for entry in entries if entry.get("type") == "Indication" and entry["service"] != "CTL"]
    asked = message_of(entries, drawn)
    if not told or not asked:
        return 0
    differ, unknown = 0, set()
    for _ in range(rounds):
        wanted, modem.behind = [], b""
        for entry in told:
            values, octets = indication(entry, told, drawn, unknown)
            wanted.append(values)
            head = b"\x04" + bytes(2) + int(entry["id"], 0).to_bytes(2, "little") + len(octets).to_bytes(2, "little")
            modem.behind += framed(SERVICES[entry["service"]], drawn.random.choice([1, 255]), head + octets)
        modem.answer, modem.for_control = b"", False
        words = [program, "qmicli", "-d", path, "--tables", tables, "--request", asked["name"], "--json", "--follow"]
        ran = subprocess.run(words, capture_output=True, timeout=60, check=False)
        shown = [json.loads(line) for line in ran.stdout.decode().splitlines()[1:]]
        if ran.returncode or len(shown) != len(wanted):
            differ += 1
            print(f"  {asked['name']}: status {ran.returncode}, {ran.stderr.decode().strip()}, {len(shown)} indications shown of {len(wanted)}")
        for printed, values in zip(shown, wanted):
            if not is_printed(values, printed):
                differ += 1
                print(f"  {values['indication']}: printed {json.dumps(printed)} in place of {values}")
    modem.behind = b""
    by_id = f", {len(unknown)} of them by their ids" if unknown else ""
    print(f"{os.path.basename(tables)}: {len(told)} indications, told {rounds} times, {differ} differ{by_id}", flush=True)
    return differ


def message_of(entries, drawn):
    """A message that can be asked for."""
    names = [entry["name"] for entry in entries if entry.get("type") == "Message"]
    for entry in entries:
        try:
            if entry.get("type") == "Message" and names.count(entry["name"]) == 1:
                drawn.tlvs(entry.get("input", []), ())
                drawn.tlvs(entry.get("output", []), (2,))
                return entry
        except Unknown:
            pass
    return None


def indication(entry, told, drawn, unknown):
    """The values of an indication as they are to be printed, and its TLVs. The first one of an id that is known counts."""
    for first in (other for other in told if other["id"] == entry["id"]):
        try:
            _, values, octets = drawn.tlvs(first.get("output", []), ())
            return {**values, "indication": first["name"]}, octets
        except Unknown:
            unknown.add(first["name"])
    octets = bytes(drawn.random.randrange(256) for _ in range(5))
    return {"0x10": Bytes(octets), "indication": f"0x{int(entry['id'], 0):04X}"}, tlv(0x10, octets)


def is_refused(program, path, tables, entry):
    """Whether a message of a form that isn't known is refused before the modem is reached."""
    words = [program, "qmicli", "-d", path, "--tables", tables, "--request", entry["name"]]
    ran = subprocess.run(words, capture_output=True, timeout=60, check=False)
    return ran.returncode == 9 and ran.stderr.startswith(b"error: tables: ")


def try_message(program, path, tables, entry, drawn, modem):
    """What is wrong with how a message is sent and its answer printed; None where nothing is."""
    service, identity = SERVICES[entry["service"]], int(entry["id"], 0)
    given, _, wanted = drawn.tlvs(entry.get("input", []), ())
    _, values, modem.answer = drawn.tlvs(entry.get("output", []), (2,))
    modem.asked, modem.for_control = [], service == 0
    words = [program, "qmicli", "-d", path, "--tables", tables, "--request", entry["name"], f"--input={json.dumps(given)}", "--json"]
    ran = subprocess.run(words, capture_output=True, timeout=60, check=False)
    if ran.returncode:
        return f"status {ran.returncode}, {ran.stderr.decode().strip()}, for {json.dumps(given)}"
    if modem.asked != [(service, identity, wanted)]:
        return f"sent {[(one[0], one[1], one[2].hex()) for one in modem.asked]} in place of {wanted.hex()} for {json.dumps(given)}"
    printed = json.loads(ran.stdout)
    if printed.pop("result", None) != "ok" or not is_printed(values, printed):
        return f"printed {ran.stdout.decode().strip()} of {modem.answer.hex()}"
    return None


if __name__ == "__main__":
    main()
