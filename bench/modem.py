#!/usr/bin/env python3
"""A stand-in modem: it answers Get Version Info, and nothing else.

usage: modem.py SOCKET         serves the connections of a Unix socket, one after another
       modem.py --pty LINK     serves a raw pseudo terminal, to whose device LINK leads
It serves until it is stopped.
"""
import os
import pty
import socket
import sys
import tty

# Service list: ctl 1.5, wds 1.36, dms 1.14, nas 1.25, wms 1.10
SERVICES = [(0, 1, 5), (1, 1, 36), (2, 1, 14), (3, 1, 25), (5, 1, 10)]


def tlv(kind, value):
    return bytes([kind]) + len(value).to_bytes(2, "little") + value


def answer(request):
    """The response to a CTL request for the versions, under the request's number."""
    services = b"".join(
        bytes([service]) + major.to_bytes(2, "little") + minor.to_bytes(2, "little")
        for service, major, minor in SERVICES
    )
    body = tlv(2, bytes(4)) + tlv(1, bytes([len(SERVICES)]) + services)
    head = bytes([0x80, 0, 0, 1, request[7]]) + request[8:10] + len(body).to_bytes(2, "little")
    return b"\x01" + (2 + len(head) + len(body)).to_bytes(2, "little") + head + body


def serve(stream):
    """Answers what is read from this file descriptor, until its end."""
    rest = b""
    while piece := os.read(stream, 4096):
        rest += piece
        while len(rest) >= 3 and len(rest) > int.from_bytes(rest[1:3], "little"):
            end = int.from_bytes(rest[1:3], "little") + 1
            request, rest = rest[:end], rest[end:]
            if request[4] == 0 and request[8:10] == b"\x21\x00":
                os.write(stream, answer(request))


def serve_socket(path):
    listener = socket.socket(socket.AF_UNIX)
    listener.bind(path)
    listener.listen(64)
    while True:
        connection, _ = listener.accept()
        with connection:
            try:
                serve(connection.fileno())
            except (BrokenPipeError, ConnectionResetError):
                pass


def serve_terminal(link):
    # the device stays open here, so that the terminal outlives each program that uses it
    modem, device = pty.openpty()
    tty.setraw(device)
    os.symlink(os.ttyname(device), link)
    serve(modem)


if __name__ == "__main__":
    if sys.argv[1] == "--pty":
        serve_terminal(sys.argv[2])
    else:
        serve_socket(sys.argv[1])
