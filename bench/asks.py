"""One client of a proxy: opens the device, and asks for a Sync so many times, each after the answer
before it. `asks.py SOCKET DEVICE COUNT`"""
import socket
import sys
import time

path, device, count = sys.argv[1], sys.argv[2].encode(), int(sys.argv[3])


def message(number, name, tlvs):
    body = bytes([0, number]) + name.to_bytes(2, "little") + len(tlvs).to_bytes(2, "little") + tlvs
    return bytes([1]) + (len(body) + 5).to_bytes(2, "little") + bytes([0, 0, 0]) + body


def answer(client):
    got = b""
    while len(got) < 19:
        piece = client.recv(19 - len(got))
        assert piece, "the proxy hung up"
        got += piece
    return got


client = socket.socket(socket.AF_UNIX)
client.connect(path)
client.sendall(message(1, 0xFF00, bytes([1]) + len(device).to_bytes(2, "little") + device))
assert answer(client)[-4:] == bytes(4), "the device isn't this proxy's"
started = time.perf_counter()
for at in range(count):
    number = at % 255 + 1
    client.sendall(message(number, 0x0027, b""))
    got = answer(client)
    assert got[7] == number and got[-4:] == bytes(4), got.hex()
print(f"{count} answers, {count / (time.perf_counter() - started):,.0f} a second")
