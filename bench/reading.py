"""Writes buffers of lists of subscriptions of up to 64 KB, each in a file of the folder that is named: `reading.sh` has them read."""
import struct
import sys

# What the command of 64 KB has room for.
LARGEST = 65536 - 48
SERVICES = [bytes([number] * 16) for number in range(1, 6)]


def structure(service, cids):
    return service + struct.pack(f"<I{len(cids)}I", len(cids), *cids)


def buffer(structures, references):
    """References to these structures, by their places among them, and the structures behind the references."""
    offsets, offset = [], 4 + 8 * len(references)
    for each in structures:
        offsets.append(offset)
        offset += len(each)
    referred = b"".join(struct.pack("<II", offsets[place], len(structures[place])) for place in references)
    return struct.pack("<I", len(references)) + referred + b"".join(structures)


def in_turn(events, count):
    """So many structures of one service take turns, with as many CIDs, thirty different ones, as there is room for."""
    room = (LARGEST - 4 - 8 * events) // count // 4 - 5
    return buffer([structure(SERVICES[0], [1 + cid % 30 for cid in range(room)])] * count, [event % count for event in range(events)])


def one_word(count):
    """One word everywhere behind the references, which is how many CIDs each structure has: every place is one, and the structures are referred to
    one after another at places that are apart as far as they are long, then at the next ones."""
    events = 5300
    words = (LARGEST - 4 - 8 * events) // 4
    slots = max((words - 5) // count, 1)
    last = words - 5 - count
    starts = [min(event % slots * count + event // slots % (last // slots), last) for event in range(events)]
    first = 4 + 8 * events
    return struct.pack("<I", events) + b"".join(struct.pack("<II", first + 4 * start, 20 + 4 * count) for start in starts) + struct.pack("<I", count) * words


def two_words(events):
    """Fifteen services whose UUIDs are made of two words, over the same CIDs, which are these two words."""
    count = (LARGEST - 4 - 8 * events - 15 * 20) // 4
    first, words = 4 + 8 * events, (count - 1, count)
    heads = b"".join(struct.pack("<5I", *(words[number >> bit & 1] for bit in range(4)), count - 1) for number in range(15))
    referred = b"".join(struct.pack("<II", first + event % 15 * 20, 20 + 4 * (count - 1)) for event in range(events))
    return struct.pack("<I", events) + referred + heads + struct.pack("<2I", *words) * (count // 2) + struct.pack("<I", words[0]) * (count % 2)


LISTS = {
    "30 CIDs of five services": buffer([structure(service, range(1, 7)) for service in SERVICES], range(5)),
    "8,000 events of one structure": in_turn(8000, 1),
    "4,090 events of one structure": in_turn(4090, 1),
    "4,090 events of two structures in turn": in_turn(4090, 2),
    "4,090 events of 91 structures in turn": in_turn(4090, 91),
    "5,300 events of one word, 70 CIDs each": one_word(70),
    "5,300 events of one word, 400 CIDs each": one_word(400),
    "15 services of two words": two_words(15),
    "900 events of 15 services of two words": two_words(900),
    "4,095 events of 15 services of two words": two_words(4095),
}
for name, text in LISTS.items():
    with open(f"{sys.argv[1]}/{name}", "wb") as file:
        file.write(text)
