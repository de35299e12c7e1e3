"""Treats the program roughly, and prints a line for each point. `rough.sh` starts it."""
import fcntl
import os
import socket
import stat
import subprocess
import sys
import threading
import time

sys.dont_write_bytecode = True
from modem import answer

folder, program = sys.argv[1:3]
os.chdir(folder)
failed = 0
# An answer to Get Version Info is asked for with these 12 bytes, the number aside.
ASKS = bytes.fromhex("010b00000000000121000000")


def point(name, holds):
    """A line for what is to hold."""
    global failed
    failed += not holds
    print(f"{'ok' if holds else 'FAILED':6} {name}", flush=True)


class Modem:
    """A modem at a socket of this path, which keeps all bytes that come."""

    def __init__(self, path="modem"):
        self.got, self.joined = b"", 0
        if os.path.lexists(path):
            os.unlink(path)
        self.listener = socket.socket(socket.AF_UNIX)
        self.listener.bind(path)
        self.listener.listen(64)
        threading.Thread(target=self.listen, daemon=True).start()

    def listen(self):
        try:
            while True:
                stream, _ = self.listener.accept()
                self.joined += 1
                threading.Thread(target=self.serve, args=[stream], daemon=True).start()
        except OSError:
            pass  # it was ended

    def serve(self, stream):
        rest = b""
        try:
            while piece := stream.recv(4096):
                self.got += piece
                rest += piece
                while len(rest) >= 12:
                    end = int.from_bytes(rest[1:3], "little") + 1
                    if rest[4] == 0 and rest[8:10] == b"\x21\x00":
                        stream.sendall(answer(rest[:end]))
                    rest = rest[end:]
        except OSError:
            pass

    def end(self):
        self.listener.shutdown(socket.SHUT_RDWR)
        self.listener.close()


def words(*settings, at="proxy.sock", modem="modem"):
    return [program, "qmi-proxy", "-d", modem, "--socket", at, *settings]


def run(line, **how):
    """Its status and what it writes to stderr."""
    done = subprocess.run(line, stderr=subprocess.PIPE, stdout=subprocess.DEVNULL, timeout=60, **how)
    return done.returncode, done.stderr.decode()


FAULT = (13, "error: hub fault\n")


def start(*settings, **how):
    return subprocess.Popen(words(*settings), stderr=subprocess.DEVNULL, **how)


def listens(path="proxy.sock"):
    """Waits until somebody listens there."""
    for _ in range(1000):
        try:
            with socket.socket(socket.AF_UNIX) as stream:
                stream.connect(path)
                return True
        except OSError:
            time.sleep(0.01)
    return False


def answers(path="proxy.sock"):
    """Whether a command is answered through the proxy there."""
    line = [program, "qmicli", "-p", "--socket", path, "-d", "modem", "--get-service-version-info"]
    return run(line)[0] == 0


def end(proxy):
    proxy.terminate()
    proxy.wait()


def leave_socket(path="proxy.sock"):
    """Leaves a socket to which nobody listens."""
    with socket.socket(socket.AF_UNIX) as listener:
        listener.bind(path)
        listener.listen()


def file_at(path):
    found = os.lstat(path)
    return found.st_dev, found.st_ino


def nothing_left():
    """Nothing stands here but the modem."""
    return os.listdir(".") == ["modem"]


def what_stands_at_the_path():
    modem = Modem()
    with open("report", "w") as report:
        report.write("a report")
    point("a report at the path is refused", run(words(at="report")) == FAULT)
    point(".. and stays", open("report").read() == "a report")
    os.unlink("report")
    os.mkdir("some")
    point("a folder at the path is refused, and stays", run(words(at="some")) == FAULT and os.path.isdir("some"))
    os.symlink("some/other.sock", "link")
    point("a link at the path is refused, and stays", run(words(at="link")) == FAULT and os.path.islink("link"))
    os.unlink("link")
    os.rmdir("some")
    point("the modem wasn't touched", modem.joined == 0)

    before = file_at("modem")
    os.symlink(".", "here")
    for path in ("modem", "./modem", "here/modem", folder + "/modem"):
        point(f"the modem's own socket is refused as {path.replace(folder, 'FOLDER')}", run(words(at=path)) == FAULT)
    modem.end()
    point("the socket of a modem that is gone is refused", run(words(at="modem")) == FAULT)
    point(".. and they stay", file_at("modem") == before)
    os.unlink("here")

    modem = Modem()
    leave_socket()
    proxy = start()
    point("a left-over socket is replaced", listens() and answers())
    joined = modem.joined
    before = file_at("proxy.sock")
    point("a live proxy's socket is refused", run(words()) == FAULT)
    point(".. and stays", file_at("proxy.sock") == before and answers())
    point("the modem wasn't touched", modem.joined == joined)
    end(proxy)
    point("an ended proxy's socket stays after a signal", stat.S_ISSOCK(os.lstat("proxy.sock").st_mode))
    proxy = start()
    point(".. and is replaced", listens() and answers())
    end(proxy)
    os.unlink("proxy.sock")
    point("nothing else is left", nothing_left())

    for stands in ("nothing", "a left-over socket"):
        one_each = True
        for _ in range(20):
            if stands != "nothing":
                leave_socket()
            proxies = [start() for _ in range(8)]
            # all but one end by themselves
            for _ in range(1000):
                living = [proxy for proxy in proxies if proxy.poll() is None]
                if len(living) <= 1:
                    break
                time.sleep(0.01)
            one_each &= len(living) == 1 and listens() and answers()
            for proxy in living:
                end(proxy)
            if os.path.lexists("proxy.sock"):
                os.unlink("proxy.sock")
        point(f"of eight proxies that start at once one serves, where {stands} stands at the path", one_each)
    point("nothing is left", nothing_left())
    modem.end()


def what_else_is_a_fault():
    modem = Modem()
    point("a path in no folder is refused", run(words(at="none/proxy.sock")) == FAULT)
    held = []
    for number in range(10):
        os.mkdir(f"proxy.sock.{number}")
        held.append(os.open(f"proxy.sock.{number}", os.O_RDONLY))
        fcntl.flock(held[-1], fcntl.LOCK_EX)
    point("so is one beside which all folders are used already", run(words()) == FAULT)
    for number in range(10):
        os.close(held[number])
        os.rmdir(f"proxy.sock.{number}")
    os.mkdir("elsewhere")
    for number in range(10):
        os.symlink("elsewhere", f"proxy.sock.{number}")
    point("no link is taken for such a folder", run(words()) == FAULT and os.listdir("elsewhere") == [])
    for number in range(10):
        os.unlink(f"proxy.sock.{number}")
    os.rmdir("elsewhere")
    point("so is one of 104 bytes", run(words(at="./" + 102 * "p")) == FAULT)
    point("one of 103 bytes isn't", run(words("--turns", "1", at="./" + 101 * "p"))[0] == 14)
    point("a modem is refused where nothing stands", run(words(modem="none")) == FAULT)
    leave_socket("gone")
    point("so is one that doesn't listen", run(words(modem="gone")) == FAULT)
    os.unlink("gone")
    limited = ["sh", "-c", 'ulimit -n 5; exec "$@"', "sh"]
    point("the proxy ends where it may open no more files", run(limited + words()) == FAULT)
    point("nothing is left", nothing_left())
    # what is would be in the way of the points below
    for name in os.listdir("."):
        if name.startswith("proxy.sock."):
            os.rmdir(name)
    modem.end()


def rights():
    modem = Modem()
    modes, folders, seen = set(), set(), 0
    for _ in range(100):
        proxy = start(preexec_fn=lambda: os.umask(0))
        while proxy.poll() is None:
            names = os.listdir(".")
            for name in names:
                try:
                    found = os.lstat(name)
                except OSError:
                    continue
                if name not in ("modem", "proxy.sock"):
                    seen += 1
                    folders.add((stat.S_ISDIR(found.st_mode), found.st_mode & 0o777))
            if "proxy.sock" in names:
                modes.add(os.lstat("proxy.sock").st_mode & 0o777)
                break
        while len(os.listdir(".")) > 2:
            modes.add(os.lstat("proxy.sock").st_mode & 0o777)
        end(proxy)
        os.unlink("proxy.sock")
    point("the socket is its owner's alone from its first moment on, under a mask of 0", modes == {0o600})
    point(f"so is the folder in which it is made ({seen} times seen)", folders <= {(True, 0o700)})
    point("nothing is left", nothing_left())
    os.mkdir("proxy.sock.0")
    leave_socket("proxy.sock.0/s")
    proxy = start()
    point("a folder that a killed proxy left is taken by the next", listens() and answers() and not os.path.exists("proxy.sock.0"))
    end(proxy)
    proxy = start(preexec_fn=lambda: os.umask(0o077))
    point("it listens under a mask of 077", listens() and answers())
    end(proxy)
    os.unlink("proxy.sock")
    modem.end()


def the_end_of_the_file():
    modem = Modem()
    point("nobody came: the proxy ends", run(words("--empty-timeout", "1")) == (0, ""))
    point(".. and leaves nothing", nothing_left())
    point("its turns are taken: the proxy ends", run(words("--turns", "3")) == (14, "error: turns spent\n"))
    point(".. and leaves nothing", nothing_left())
    point("the modem can't be opened: the proxy ends", run(words(modem="none")) == FAULT)
    point(".. and leaves nothing", nothing_left())
    leave_socket()
    before = file_at("proxy.sock")
    point("so it does beside a left-over socket", run(words(modem="none")) == FAULT)
    point(".. which stays", file_at("proxy.sock") == before)
    os.unlink("proxy.sock")

    earlier = start("--empty-timeout", "2")
    point("a proxy whose socket's file is taken away serves on", listens())
    os.unlink("proxy.sock")
    later = start()
    point("a later one listens in its place", listens())
    before = file_at("proxy.sock")
    earlier.wait()
    point(".. and keeps its file at the end of the earlier one", file_at("proxy.sock") == before and answers())
    end(later)
    os.unlink("proxy.sock")
    os.mkdir("some")
    proxy = subprocess.Popen(words("--empty-timeout", "1", at="some/proxy.sock"), stderr=subprocess.DEVNULL)
    listens("some/proxy.sock")
    os.unlink("some/proxy.sock")
    with open("some/proxy.sock", "w") as report:
        report.write("a report")
    point("a report that took the file's place stays at the end", proxy.wait() == 0 and open("some/proxy.sock").read() == "a report")
    os.unlink("some/proxy.sock")
    point("nothing else is left", os.listdir("some") == [])
    os.rmdir("some")
    modem.end()


def closed_streams():
    asked = [program, "qmicli", "-d", "modem", "--get-service-version-info"]
    for closed in ("", "0", "1", "2", "01", "02", "12", "012"):
        without = " ".join(f"{number}>&-" for number in closed)
        under = ["sh", "-c", f'exec "$@" {without}', "sh"]
        name = f"without {', '.join(closed) or 'none'} of the streams"
        modem = Modem()
        status, said = run([*under, *words("--turns", "3")])
        wanted = "" if "2" in closed else "error: turns spent\n"
        point(f"{name}: a proxy ends, and its modem got nothing", (status, said, modem.got) == (14, wanted, b"") and modem.joined == 1)
        status, said = run([*under, *asked])
        broken = "1" in closed
        wanted = "error: write fault\n" if broken and "2" not in closed else ""
        point(f"{name}: a tool ends, and its modem got its request alone", (status, said, modem.got) == (8 if broken else 0, wanted, ASKS))
        modem.end()
    os.unlink("modem")


what_stands_at_the_path()
what_else_is_a_fault()
rights()
the_end_of_the_file()
closed_streams()
sys.exit(failed > 0)
