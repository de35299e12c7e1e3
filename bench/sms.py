"""Short messages read and made outside of the program: written after 3GPP TS 23.040 and 23.038, with the alphabet of Perl's
Encode::GSM0338 and Python's own UTF-16.

`sms.py draw KIND COUNT SEED` writes drawn messages, one a line: of `read` bytes of all kinds in hexadecimal, of `kept` such as networks
deliver, and of `made` a number and a text in hexadecimal. `sms.py tell KIND` tells what it has for each such line of its input."""
import random
import subprocess
import sys


def alphabet():
    """Each code's character, and those of the extension by the code behind the escape."""
    told = subprocess.run(
        ["perl", "-MEncode", "-e", r"""
for my $escape ("", "\x1b") { for my $code (0 .. 127) {
    next if $code == 27;
    my $char = decode("gsm0338", $escape . chr($code), Encode::FB_QUIET);
    printf("%d %d %s\n", length($escape), $code, join(",", map { ord } split(//, $char)));
} }"""], check=True, capture_output=True, text=True).stdout
    codes, extension = {}, {}
    for line in told.splitlines():
        escaped, code, chars = line.split(" ")
        if chars and "," not in chars and chars != "65533":
            (extension if escaped == "1" else codes)[int(code)] = chr(int(chars))
    return codes, extension


CODES, EXTENSION = alphabet()
assert len(CODES) == 127 and len(EXTENSION) >= 10, (len(CODES), len(EXTENSION))
# Perl's table gives what isn't of the extension a character too, or none: the ten are what TS 23.038 has.
EXTENSION = {code: EXTENSION[code] for code in (0x0A, 0x14, 0x28, 0x29, 0x2F, 0x3C, 0x3D, 0x3E, 0x40, 0x65)}
OF_CHAR = {char: [code] for code, char in CODES.items()} | {char: [0x1B, code] for code, char in EXTENSION.items()}


# ---- bits ----

def packed(codes, fill):
    bits = sum(code << (fill + 7 * at) for at, code in enumerate(codes))
    return bits.to_bytes((fill + 7 * len(codes) + 7) // 8, "little")


def unpacked(octets, count):
    bits = int.from_bytes(octets, "little")
    return [bits >> (7 * at) & 127 for at in range(count)]


def chars_of(codes):
    text, at = "", 0
    while at < len(codes):
        if codes[at] != 0x1B:
            text += CODES[codes[at]]
        elif at + 1 == len(codes) or codes[at + 1] == 0x1B:
            text += " "
            at += 1
        else:
            text += EXTENSION.get(codes[at + 1], CODES[codes[at + 1]])
            at += 1
        at += 1
    return text


# ---- reading ----

class Short(Exception):
    def __init__(self, place):
        self.place = place


class Kind(Exception):
    pass


class Fields:
    def __init__(self, octets):
        self.octets, self.place = octets, 0

    def take(self, count):
        if len(self.octets) < self.place + count:
            raise Short(self.place)
        self.place += count
        return self.octets[self.place - count:self.place]

    def octet(self):
        return self.take(1)[0]


def halves(octets):
    return [half for octet in octets for half in (octet & 15, octet >> 4)]


def address_of(count, kind, octets):
    if kind >> 4 & 7 == 5:
        return chars_of(unpacked(octets, count * 4 // 7))
    return ("+" if kind >> 4 & 7 == 1 else "") + "".join("0123456789*#abc"[half] for half in halves(octets)[:count] if half < 15)


def time_of(octets):
    told = [f"{octet & 15:X}{octet >> 4:X}" for octet in octets]
    zone = octets[6]
    sign = "-" if zone & 8 else "+"
    return f"{told[0]}-{told[1]}-{told[2]} {told[3]}:{told[4]}:{told[5]} {sign}{zone & 7:X}{zone >> 4:X}"


def coded_as(coding):
    plain = coding & 0xA0 == 0
    if plain and coding >> 2 & 3 in (0, 3) or 8 <= coding >> 4 <= 13 or coding >> 4 == 15 and not coding & 4:
        return "codes"
    return "ucs2" if plain and coding >> 2 & 3 == 2 or coding >> 4 == 14 else "octets"


def part_of(header):
    at = 0
    while at + 2 <= len(header) and at + 2 + header[at + 1] <= len(header):
        data = header[at + 2:at + 2 + header[at + 1]]
        if header[at] == 0 and len(data) == 3 or header[at] == 8 and len(data) == 4:
            reference, total, place = int.from_bytes(data[:-2], "big"), data[-2], data[-1]
            return (reference, total, place) if 1 <= place <= total else None
        at += 2 + len(data)
    return None


def read(octets):
    """Who sent it, when, its part, and its text or its octets."""
    fields = Fields(octets)
    fields.take(fields.octet())
    first = fields.octet()
    if first & 3 > 1:
        raise Kind
    submit = first & 3 == 1
    if submit:
        fields.octet()
    count, kind = fields.octet(), fields.octet()
    address = address_of(count, kind, fields.take((count + 1) // 2))
    fields.octet()
    coding = fields.octet()
    time = ""
    if submit:
        fields.take((0, 7, 1, 7)[first >> 3 & 3])
    else:
        time = time_of(fields.take(7))
    length = fields.octet()
    how = coded_as(coding)
    start = fields.place
    data = fields.take((7 * length + 7) // 8 if how == "codes" else length)
    behind, part = 0, None
    if first & 0x40:
        if not data or data[0] + 1 > len(data):
            raise Short(start)
        behind = data[0] + 1
        part = part_of(data[1:behind])
    if how == "codes":
        return address, time, part, chars_of(unpacked(data, length)[(8 * behind + 6) // 7:])
    if how == "ucs2":
        try:
            return address, time, part, data[behind:].decode("utf-16-be")
        except UnicodeDecodeError:
            pass
    return address, time, part, data[behind:]


# ---- making ----

def units_of(text):
    return text.encode("utf-16-be")


def address_octets(number):
    digits = number.lstrip("+")
    kind = 0x91 if number.startswith("+") else 0x81
    full = digits + "f" * (len(digits) % 2)
    return bytes([len(digits), kind]) + bytes(int(full[at + 1] + full[at], 16) for at in range(0, len(full), 2))


def pieces_of(text, coded, most):
    pieces, size = [""], 0
    for char in text:
        more = len(OF_CHAR[char]) if coded else len(units_of(char)) // 2
        if size + more > most:
            pieces.append("")
            size = 0
        pieces[-1] += char
        size += more
    return pieces


def made(number, text, reference):
    coded = all(char in OF_CHAR for char in text)
    size = sum(len(OF_CHAR[char]) for char in text) if coded else len(units_of(text)) // 2
    alone, among = (160, 153) if coded else (70, 67)
    pieces = [text] if size <= alone else pieces_of(text, coded, among)
    messages = []
    for place, piece in enumerate(pieces, 1):
        several = len(pieces) > 1
        header = bytes([5, 0, 3, reference, len(pieces), place]) if several else b""
        if coded:
            codes = [code for char in piece for code in OF_CHAR[char]]
            length = len(codes) + (7 if several else 0)
            data = header + packed(codes, 1 if several else 0)
        else:
            data = header + units_of(piece)
            length = len(data)
        messages.append(bytes([0, 0x41 if several else 1, 0]) + address_octets(number) + bytes([0, 0 if coded else 8, length]) + data)
    return messages


# ---- printed ----

def shown(text):
    return "".join(char if " " <= char <= "~" and char != "\\" else f"\\u{{{ord(char):x}}}" for char in text)


def printed(octets):
    try:
        address, time, part, body = read(octets)
    except Kind:
        return ["PDU: kind"]
    except Short as short:
        return [f"PDU: short at {short.place}"]
    lines = [f"Sender: {shown(address)}"] + ([f"Time: {time}"] if time else [])
    if part:
        lines.append(f"Part: {part[2]} of {part[1]}, reference {part[0]}")
    return lines + [f"Text: {shown(body)}" if isinstance(body, str) else f"Data: {body.hex().upper()}"]


# ---- drawn ----

def drawn_number(draw):
    return draw.choice(("", "+")) + "".join(draw.choices("0123456789", k=draw.randint(1, 20)))


def drawn_text(draw):
    kind = draw.randint(0, 3)
    size = draw.choice((draw.randint(0, 20), draw.randint(60, 75), draw.randint(130, 165), draw.randint(300, 330)))
    plain = "".join(CODES.values())
    more = "".join(EXTENSION.values())
    letters = (plain, plain + more * 4, plain + "\u0436\U0001F600", "\u0436\u4e2d\U0001F600\x1b")[kind]
    return "".join(draw.choices(letters, k=size))


def drawn_address(draw):
    count = draw.choice((draw.randint(0, 20), draw.randint(0, 255)))
    kind = draw.choice((0x81, 0x91, 0xD0, draw.randint(0, 255)))
    return bytes([count, kind]) + draw.randbytes((count + 1) // 2)


def drawn_header(draw):
    elements = [bytes([number, len(data)]) + data for number, data in (
        draw.choice(((0, bytes([draw.randint(0, 255), 2, draw.randint(0, 3)])), (8, bytes([1, 2, 3, draw.randint(0, 4)])), (0x24, b"\x01"),
                     (draw.randint(0, 9), draw.randbytes(draw.randint(0, 4)))))
        for _ in range(draw.randint(0, 3)))]
    told = b"".join(elements)[:draw.randint(3, 30)]
    return bytes([len(told)]) + told


def drawn_pdu(draw):
    if draw.random() < 0.2:
        return draw.choice(made(drawn_number(draw), drawn_text(draw), draw.randint(0, 255)))
    if draw.random() < 0.1:
        return draw.randbytes(draw.randint(0, 60))
    first = draw.choice((0x00, 0x04, 0x01, 0x11, 0x09, 0x19, 0x40, 0x44, 0x41, 0x51, draw.randint(0, 255)))
    center = draw.randbytes(draw.choice((0, 0, 7)))
    told = bytes([len(center)]) + center + bytes([first])
    if first & 3 == 1:
        told += draw.randbytes(1)
    told += drawn_address(draw) + b"\0"
    coding = draw.choice((0, 0, 8, 8, 4, 0xF0, 0xF4, draw.randint(0, 255)))
    told += bytes([coding])
    told += draw.randbytes((0, 7, 1, 7)[first >> 3 & 3] if first & 3 == 1 else 7)
    data = (drawn_header(draw) if first & 0x40 and draw.random() < 0.9 else b"") + draw.randbytes(draw.randint(0, 60))
    if coding == 8 and draw.random() < 0.7:
        data = data[:len(data) & ~1]
    length = len(data) * 8 // 7 if coded_as(coding) == "codes" else len(data)
    told += bytes([min(length, 255)]) + data
    return told[:draw.randint(0, len(told))] if draw.random() < 0.2 else told


def drawn_kept(draw):
    """A message as networks deliver it: from a number or a name, with a time that is one, whole or a part, and in a coding that phones use."""
    half = lambda n: n % 10 << 4 | n // 10
    time = bytes(half(draw.randint(low, high)) for low, high in ((0, 99), (1, 12), (1, 28), (0, 23), (0, 59), (0, 59), (0, 47)))
    if draw.random() < 0.3:
        codes = [OF_CHAR[char][0] for char in draw.choices("ABCDEFGHIJKLMNOPQRSTUVWXYZabcdefghijklmnopqrstuvwxyz0123456789 ", k=draw.randint(1, 11))]
        address = bytes([(7 * len(codes) + 3) // 4, 0xD0]) + packed(codes, 0)
    else:
        address = address_octets(drawn_number(draw))
    header = b""
    total = draw.randint(2, 9)
    if draw.random() < 0.4:
        header = bytes([5, 0, 3, draw.randint(1, 255), total, draw.randint(1, total)])
    elif draw.random() < 0.1:
        header = bytes([6, 8, 4, draw.randint(1, 255), draw.randint(0, 255), total, draw.randint(1, total)])
    how = draw.choice((0, 0, 0, 8, 8, 0xF0, 4))
    if how == 4:
        data = header + draw.randbytes(draw.randint(1, 100))
        length = len(data)
    elif how == 8:
        data = header + units_of("".join(draw.choices("\u0436\u4e2d\u00e9a\U0001F600", k=draw.randint(1, 30))))
        length = len(data)
    else:
        letters = "".join(CODES.values()) + "".join(EXTENSION.values()) * draw.randint(0, 1)
        behind = (8 * len(header) + 6) // 7
        codes = [code for char in draw.choices(letters, k=draw.randint(1, 70)) for code in OF_CHAR[char]]
        data = header + packed(codes, 7 * behind - 8 * len(header))
        length = behind + len(codes)
    center = bytes.fromhex("07917283010010F5")
    return center + bytes([0x44 if header else 4]) + address + bytes([0, how]) + time + bytes([length]) + data


def draw_lines(kind, count, seed):
    draw = random.Random(seed)
    for _ in range(count):
        if kind == "read":
            yield drawn_pdu(draw).hex()
        elif kind == "kept":
            yield drawn_kept(draw).hex()
        else:
            yield f"{drawn_number(draw)} {drawn_text(draw).encode().hex()}"


def tell(kind, line):
    if kind == "read":
        return "|".join(printed(bytes.fromhex(line)))
    number, text = line.split(" ")
    return "|".join(message.hex().upper() for message in made(number, bytes.fromhex(text).decode(), 0))


def main(words):
    if words[0] == "draw":
        print("\n".join(draw_lines(words[1], int(words[2]), words[3])))
    else:
        for line in sys.stdin:
            print(tell(words[1], line.rstrip("\n")))


if __name__ == "__main__":
    main(sys.argv[1:])
