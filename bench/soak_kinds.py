"""What a message of each kind is, and what the proxy answers by itself: a model that shares nothing with the program. `soak.py` uses it."""
import struct

GOOD, FOE = b"SOAK", b"FOES"
DEVICE = "modem"


def u16(number):
    return number.to_bytes(2, "little")


def u32(number):
    return number.to_bytes(4, "little")


def tag(client, serial, mark=GOOD):
    return mark + u32(client) + u32(serial)


def tag_in(message, mark=GOOD):
    """The client and the serial number of the first tag in these bytes."""
    at = message.find(mark)
    return struct.unpack("<II", message[at + 4:at + 12]) if 0 <= at <= len(message) - 12 else None


class Qmi:
    """Messages of QMI. Service 0 has the number space 0, all others have 1."""
    name, tops, limits = "qmi", {0: 255, 1: 65535}, {0: 255, 1: 1024}
    ABORTED, AWAY, HELD = 4, 3, 5
    BAD = (b"\x02", b"\x01\x0a\x00", b"\x01\x00\x00", b"GET / HTTP/1.0\r\n\r\n")

    @staticmethod
    def size(stream):
        """The length of the first message, none where it isn't known yet, 0 where the stream is bad."""
        if len(stream) < 3:
            return None
        length = int.from_bytes(stream[1:3], "little") + 1
        return length if stream[0] == 1 and length >= 12 else 0

    @staticmethod
    def message(service, client, number, name, tlvs=b"", flags=0, kind=0, length=None):
        head = bytes([kind, number & 0xFF]) if service == 0 else bytes([kind]) + u16(number)
        body = bytes([flags, service, client]) + head + u16(name) + u16(len(tlvs) if length is None else length) + tlvs
        return b"\x01" + u16(len(body) + 2) + body

    @staticmethod
    def tlv(kind, value):
        return bytes([kind]) + u16(len(value)) + value

    @staticmethod
    def space(message):
        return 0 if message[4] == 0 else 1

    @staticmethod
    def number(message):
        return message[7] if message[4] == 0 else int.from_bytes(message[7:9], "little")

    @staticmethod
    def with_number(message, number):
        return message[:7] + (bytes([number]) + message[8:] if message[4] == 0 else u16(number) + message[9:])

    @classmethod
    def reply(cls, message, error):
        """What the proxy answers by itself: the message's own head, and the Result TLV."""
        result = cls.tlv(2, u16(1 if error else 0) + u16(error))
        name = message[8:10] if message[4] == 0 else message[9:11]
        return cls.message(message[4], message[5], cls.number(message), int.from_bytes(name, "little"), result, 0x80, 1 if message[4] == 0 else 2)

    @classmethod
    def answer(cls, message, tlvs, error=0):
        """What the modem answers to a message."""
        result = cls.tlv(2, u16(1 if error else 0) + u16(error))
        name = message[8:10] if message[4] == 0 else message[9:11]
        return cls.message(message[4], message[5], cls.number(message), int.from_bytes(name, "little"), result + tlvs, 0x80, 1 if message[4] == 0 else 2)

    @classmethod
    def opening(cls, number, device=DEVICE):
        return cls.message(0, 0, number, 0xFF00, cls.tlv(1, device.encode()))

    @classmethod
    def indication(cls, service, client, name, value):
        return cls.message(service, client, 0, name, cls.tlv(0xE1, value), 0x80, 2 if service == 0 else 4)

    SYNC = b""


Qmi.SYNC = Qmi.message(0, 0, 0, 0x27, b"", 0x80, 2)


class Mbim:
    """Messages of MBIM, which have one number space."""
    name, tops, limits = "mbim", {0: 2 ** 32 - 1}, {0: 256}
    OPEN, CLOSE, COMMAND, HOST_ERROR = 1, 2, 3, 4
    OPEN_DONE, CLOSE_DONE, DONE, ERROR, INDICATION = 0x80000001, 0x80000002, 0x80000003, 0x80000004, 0x80000007
    BASIC_CONNECT = bytes.fromhex("a289cc33bcbb8b4fb6b0133ec2aae6df")
    PROXY_CONTROL = bytes.fromhex("838cf7fb8d0d4d7f871ed71dbefbb39b")
    LIST = 19
    BAD = (u32(3) + u32(11), u32(3) + u32(65557), b"\x01" + bytes(7), b"GET / HTTP/1.0\r\n\r\n")

    @staticmethod
    def size(stream):
        if len(stream) < 8:
            return None
        length = int.from_bytes(stream[4:8], "little")
        return length if 12 <= length <= 65556 else 0

    @staticmethod
    def space(message):
        return 0

    @staticmethod
    def kind(message):
        return int.from_bytes(message[:4], "little")

    @staticmethod
    def number(message):
        return int.from_bytes(message[8:12], "little")

    @staticmethod
    def plain(kind, number, *fields):
        return u32(kind) + u32(12 + 4 * len(fields)) + u32(number) + b"".join(map(u32, fields))

    @staticmethod
    def fragment(kind, number, total, current, part):
        return u32(kind) + u32(20 + len(part)) + u32(number) + u32(total) + u32(current) + part

    @classmethod
    def split(cls, kind, number, longest, body):
        """The fragments of a body, each full but the last."""
        room = longest - 20
        parts = [body[at:at + room] for at in range(0, len(body), room)] or [b""]
        return [cls.fragment(kind, number, len(parts), at, part) for at, part in enumerate(parts)]

    @staticmethod
    def command(uuid, cid, is_set, buffer):
        return uuid + u32(cid) + u32(is_set) + u32(len(buffer)) + buffer

    @staticmethod
    def done(uuid, cid, status, buffer=b""):
        return uuid + u32(cid) + u32(status) + u32(len(buffer)) + buffer

    @staticmethod
    def indicated(uuid, cid, buffer):
        return uuid + u32(cid) + u32(len(buffer)) + buffer

    @classmethod
    def configuration(cls, device=DEVICE):
        path = device.encode("utf-16-le")
        return cls.command(cls.PROXY_CONTROL, 1, 1, u32(12) + u32(len(path)) + u32(30) + path + bytes(-len(path) % 4))

    @staticmethod
    def normal(pairs):
        """Pairs of a UUID and a CID, or none for all CIDs: each once, in order, and none beside all of its service."""
        whole = {uuid for uuid, cid in pairs if cid is None}
        return sorted({(uuid, cid) for uuid, cid in pairs if cid is None or uuid not in whole}, key=lambda pair: (pair[0], -1 if pair[1] is None else pair[1]))

    @staticmethod
    def list_buffer(events):
        """A list of events, a UUID with its CIDs each."""
        structures = [uuid + u32(len(cids)) + b"".join(map(u32, cids)) for uuid, cids in events]
        place, references = 4 + 8 * len(events), b""
        for each in structures:
            references += u32(place) + u32(len(each))
            place += len(each)
        return u32(len(events)) + references + b"".join(structures)

    @classmethod
    def normal_buffer(cls, pairs):
        events = {}
        for uuid, cid in cls.normal(pairs):
            events.setdefault(uuid, []).extend([] if cid is None else [cid])
        return cls.list_buffer(list(events.items()))

    @staticmethod
    def pairs_in(buffer):
        """The pairs of a list that the proxy asks for."""
        found = set()
        for at in range(int.from_bytes(buffer[:4], "little")):
            place, length = struct.unpack("<II", buffer[4 + 8 * at:12 + 8 * at])
            each = buffer[place:place + length]
            cids = struct.unpack(f"<{int.from_bytes(each[16:20], 'little')}I", each[20:])
            found |= {(each[:16], cid) for cid in cids} or {(each[:16], None)}
        return found


KINDS = {"qmi": Qmi, "mbim": Mbim}
