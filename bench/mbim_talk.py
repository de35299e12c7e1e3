"""MBIM for benches: messages, a modem that takes every command, and a proxy between it and some clients."""
import os
import socket
import struct
import subprocess
import threading
import time
import uuid

BASIC_CONNECT = uuid.UUID("a289cc33-bcbb-8b4f-b6b0-133ec2aae6df").bytes
PROXY_CONTROL = uuid.UUID("838cf7fb-8d0d-4d7f-871e-d71dbefbb39b").bytes
OPEN, COMMAND, INDICATION, DONE = 1, 3, 0x80000007, 0x80000000


def message(kind, number, body):
    return struct.pack("<III", kind, 12 + len(body), number) + body


def command(number, service, cid, buffer):
    return message(COMMAND, number, struct.pack("<II", 1, 0) + service + struct.pack("<III", cid, 1, len(buffer)) + buffer)


def list_of(*events):
    """The buffer of a list of subscriptions: services with their CIDs."""
    structures = [service + struct.pack(f"<I{len(cids)}I", len(cids), *cids) for service, cids in events]
    place, references = 4 + 8 * len(structures), b""
    for structure in structures:
        references += struct.pack("<II", place, len(structure))
        place += len(structure)
    return struct.pack("<I", len(structures)) + references + b"".join(structures)


def pieces(stream):
    """What comes over a stream until it ends, or the other end is killed."""
    try:
        while piece := stream.recv(65536):
            yield piece
    except ConnectionResetError:
        pass


def messages(stream):
    """Each message that comes over a stream."""
    left = b""
    for piece in pieces(stream):
        left += piece
        while len(left) >= 8 and len(left) >= (size := struct.unpack_from("<I", left, 4)[0]):
            yield left[:size]
            left = left[size:]


def answer(stream):
    """A modem that opens and takes every command; one in fragments is answered behind its last."""
    for asked in messages(stream):
        kind, _, number = struct.unpack_from("<III", asked)
        if kind == OPEN:
            stream.sendall(message(OPEN | DONE, number, struct.pack("<I", 0)))
            continue
        total, place = struct.unpack_from("<II", asked, 12)
        if place == 0:
            names = asked[20:40]
        if place + 1 == total:
            stream.sendall(message(COMMAND | DONE, number, struct.pack("<II", 1, 0) + names + struct.pack("<II", 0, 0)))


def ask(client, asks):
    client.sendall(asks)
    done = next(messages(client))
    assert struct.unpack_from("<I", done)[0] == struct.unpack_from("<I", asks)[0] | DONE, done.hex()
    return done


def processor_time(process):
    fields = open(f"/proc/{process.pid}/stat").read().rsplit(")", 1)[1].split()
    return (int(fields[11]) + int(fields[12])) / os.sysconf("SC_CLK_TCK")


class Proxy:
    """An MBIM proxy of this program, maybe run by another one, before such a modem. It is ended behind the block that it is made for."""

    def __init__(self, folder, program, before=()):
        self.modem_socket, self.socket = f"{folder}/modem.sock", f"{folder}/proxy.sock"
        for path in (self.modem_socket, self.socket):
            if os.path.exists(path):
                os.unlink(path)
        listener = socket.socket(socket.AF_UNIX)
        listener.bind(self.modem_socket)
        listener.listen()
        self.process = subprocess.Popen([*before, program, "mbim-proxy", "-d", self.modem_socket, "--socket", self.socket, "--no-exit"])
        self.modem, _ = listener.accept()
        threading.Thread(target=answer, args=(self.modem,), daemon=True).start()
        while not os.path.exists(self.socket):
            time.sleep(0.01)

    def client(self):
        """A client that named the modem, and is open."""
        stream = socket.socket(socket.AF_UNIX)
        stream.connect(self.socket)
        path = self.modem_socket.encode("utf-16-le")
        ask(stream, command(1, PROXY_CONTROL, 1, struct.pack("<III", 12, len(path), 30) + path + bytes(-len(path) % 4)))
        ask(stream, message(OPEN, 2, struct.pack("<I", 4096)))
        return stream

    def __enter__(self):
        return self

    def __exit__(self, *_):
        self.process.terminate()
        self.process.wait()
