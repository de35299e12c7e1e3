"""Compares what was told of short messages and made of texts with Gammu, a program of another house.

    sms_gammu.py kept DRAWN FOUND       messages in hexadecimal, and what was told of each
    sms_gammu.py made DRAWN FOUND       a number and a text in hexadecimal, and the bodies that were made of each

It knows no zone of a time. Three of its ways are its own, and passed over: it reads no message of one
octet or none behind a number of 17 digits or more; it counts the two codes of a character behind the escape as one, so
that its texts go on behind the message's end, after a character U+0000; and its years from 90 on are ten too early."""
import re
import sys

import gammu


def shown(text):
    return "".join(char if " " <= char <= "~" and char != "\\" else f"\\u{{{ord(char):x}}}" for char in text)


def read(line):
    try:
        return gammu.DecodePDU(bytes.fromhex(line), True)
    except (gammu.GSMError, ValueError, UnicodeError):
        return None


def text_of(message):
    text = message["Text"]
    return text if isinstance(text, bytes) else text.split(chr(0))[0]


def told(message):
    lines = [f"Sender: {shown(message['Number'])}"]
    if message["DateTime"]:
        lines.append(f"Time: {message['DateTime']:%y-%m-%d %H:%M:%S}")
    header = message["UDH"]
    if header["AllParts"] > 0:
        reference = header["ID16bit"] if header["ID16bit"] > 0 else header["ID8bit"]
        lines.append(f"Part: {header['PartNumber']} of {header['AllParts']}, reference {reference}")
    text = text_of(message)
    return "|".join(lines + [f"Data: {text.hex().upper()}" if isinstance(text, bytes) else f"Text: {shown(text)}"])


def kept(drawn, found):
    """Whether it is the same, or the same but for the year."""
    message = read(drawn)
    if message is None:
        return "not read by Gammu"
    found = re.sub(r"(\|Time: [-0-9]+ [:0-9]+) [-+][0-9A-F]+", r"\1", found)
    if told(message) == found:
        return "the same"
    if message["DateTime"] and re.search(r"\|Time: 9", found):
        years = re.sub(r"\|Time: 9", "|Time: 8", found)
        return "the same but for a year from 90 on" if told(message) == years else None
    return None


def made(drawn, found):
    number, text = drawn.split(" ")
    messages = [read(body) for body in found.split("|")]
    if None in messages:
        return "too short for Gammu, behind a long number" if len(number) > 16 and len(text) <= 4 else None
    places = [message["UDH"]["PartNumber"] for message in messages]
    numbers = {message["Number"] for message in messages}
    whole = "".join(text_of(message) for message in messages)
    if whole == bytes.fromhex(text).decode() and numbers == {number} and (places == [-1] or places == list(range(1, len(messages) + 1))):
        return "the same"
    return None


def main(kind, drawn, found):
    counts, others = {}, 0
    with open(drawn) as lines, open(found) as answers:
        for line, answer in zip(lines, answers, strict=True):
            line, answer = line.rstrip("\n"), answer.rstrip("\n")
            same = (kept if kind == "kept" else made)(line, answer)
            if same is None:
                others += 1
                if others <= 10:
                    print(f"{kind}: {line}\n  found {answer}\n  Gammu {[told(message) if message else None for message in map(read, (line if kind == 'kept' else answer).split('|'))]}")
            else:
                counts[same] = counts.get(same, 0) + 1
    print(f"{kind}, by Gammu {gammu.Version()[0]}: {'; '.join(f'{count} {same}' for same, count in counts.items())}; {others} differ")
    return 1 if others else 0


sys.exit(main(*sys.argv[1:]))
