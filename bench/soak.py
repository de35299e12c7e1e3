"""Well-behaved programs beside hostile ones at a proxy, before a hostile modem. `soak.sh` starts it: FOLDER PROGRAM KIND SECONDS SEED.

One loop plays the modem and all programs, so it knows what each byte was. A well-behaved program gets, in this order, what the modem says to
it; what the proxy answers by itself, in the order of its messages; and a refusal for each request whose time is over. How these
three take turns isn't foretold. That the modem heard something before is known from what came back behind it.
"""
import atexit
import collections
import heapq
import os
import random
import resource
import selectors
import socket
import subprocess
import sys
import time

from soak_kinds import KINDS, tag_in
from soak_play import PLAYS

folder, program, kind_name, seconds, seed = sys.argv[1], sys.argv[2], sys.argv[3], float(sys.argv[4]), sys.argv[5]
os.chdir(folder)
K = KINDS[kind_name]
# So long a request waits at the proxy, in seconds; so much earlier the modem's last answer in time comes; and so old the time may be that
# the proxy's clock showed last where the machine is busy.
PATIENCE, MARGIN, BEHIND = 15.0, 10.0, 3.0
GOOD_ONES, FOES, PLACES = 8, 24, 64
# So many requests of hostile programs may be under way in a number space, and so many of a well-behaved one.
ROOM, SHARE = {0: 100, 1: 400}, 12
MOST_WAITING = 100_000


class Difference(Exception):
    """Something that isn't as the manuals say."""


def draws(name):
    return random.Random(f"{seed} {kind_name} {name}")


class Line:
    """A socket that never waits. What goes out is cut at drawn places."""

    def __init__(self, stream, draw, most=30000):
        stream.setblocking(False)
        self.stream, self.draw, self.most = stream, draw, most
        self.out, self.written, self.ended = bytearray(), 0, False

    def write(self):
        if not self.out or self.ended:
            return
        count = self.most if self.draw.random() < 0.6 else self.draw.randint(1, min(self.most, 50))
        try:
            done = self.stream.send(self.out[:count])
            del self.out[:done]
            self.written += done
        except BlockingIOError:
            pass
        except OSError:
            self.ended = True

    def read(self):
        try:
            piece = self.stream.recv(65536)
        except BlockingIOError:
            return b""
        except OSError:
            piece = b""
        self.ended = self.ended or not piece
        return piece

    def close(self):
        self.ended = True
        self.stream.close()


def connect():
    stream = socket.socket(socket.AF_UNIX)
    stream.connect("proxy")
    return stream


def is_hung_up(stream):
    try:
        return stream.recv(1) == b""
    except BlockingIOError:
        return False
    except OSError:
        return True


def whole(rest):
    """The whole messages at the front, and what is left; a bad stream is a difference."""
    found = []
    while (size := K.size(rest)) is not None and len(rest) >= max(size, 1):
        if size == 0:
            raise Difference(f"no message: {rest[:40].hex()}")
        found.append(rest[:size])
        rest = rest[size:]
    return found, rest


class Asked:
    """A request of a well-behaved program: what comes to the modem under a number, and what refuses it."""

    def __init__(self, client, serial, space, what, number, wire, refusal):
        self.client, self.serial, self.space, self.what, self.number = client, serial, space, what, number
        self.wire, self.refusal, self.sent_at = wire, refusal, time.monotonic()
        self.theirs, self.answered, self.refused, self.dead = None, False, False, False


class Due:
    """What a program is to get at once, and how far the modem had spoken then."""

    def __init__(self, messages, position=None, then=None, asked=None):
        self.messages, self.position, self.then, self.asked, self.since = messages, position, then, asked, time.monotonic()


class Good:
    """A well-behaved program."""

    def __init__(self, run, name):
        self.run, self.name, self.draw = run, name, draws(f"good {name}")
        self.line, self.rest = Line(connect(), self.draw), b""
        self.of_modem, self.own, self.due = collections.deque(), collections.deque(), []
        self.asked, self.on_way, self.serial, self.numbers = {}, collections.deque(), 0, set()
        self.open, self.busy, self.ids, self.list, self.longest = False, False, {}, set(), 4096
        self.leaving, self.waits, self.flux = False, None, False

    def fresh_number(self, most):
        while (number := self.draw.randint(1, most)) in self.numbers:
            pass
        self.numbers.add(number)
        return number

    def says(self, message, *replies, then=None):
        """A message that the proxy answers by itself."""
        self.line.out += message
        if replies:
            self.own.append(Due(list(replies), then=then))

    def asks(self, asked, bytes):
        self.line.out += bytes
        self.asked[asked.serial] = asked
        self.on_way.append(asked)
        self.run.asked[self.name, asked.serial] = asked

    def next_serial(self):
        self.serial += 1
        return self.serial

    def waiting(self, space):
        return sum(asked.space == space for asked in self.asked.values())

    def is_quiet(self):
        return not (self.own or self.of_modem or self.due or self.on_way or self.line.out)

    def gets(self, messages, then=None, asked=None):
        """What the modem is saying now."""
        self.of_modem.append(Due(list(messages), self.run.modem.pushed, then, asked))

    def bytes_due(self):
        return sum(len(each) for due in self.of_modem for each in due.messages)

    def read(self):
        self.rest += self.line.read()
        if self.line.ended and not self.leaving:
            if not self.open and self.run.may_be_full:
                self.leaving = True
                return
            raise Difference(f"program {self.name} was hung up")
        found, self.rest = whole(self.rest)
        for message in found:
            self.run.messages += 1
            self.run.bytes += len(message)
            self.take(message)

    def take(self, message):
        if self.due:
            if message != self.due.pop(0):
                self.differs(message)
            return
        for queue in (self.of_modem, self.own):
            if queue and queue[0].messages[0] == message:
                due = queue.popleft()
                self.due = due.messages[1:]
                self.run.consumed = max(self.run.consumed, due.position or 0)
                if due.then:
                    due.then()
                return
        for asked in list(self.asked.values()):
            if asked.refusal == message and not asked.answered:
                return self.refused(asked)
            if asked.refusal == message and asked.what == "plain" and time.monotonic() > asked.sent_at + PATIENCE - BEHIND:
                return self.outrun(asked)
        self.differs(message)

    def refused(self, asked):
        """A request gets no answer: its time is over, or the modem lost."""
        if not asked.dead and time.monotonic() < asked.sent_at + PATIENCE - BEHIND:
            raise Difference(f"program {self.name} is refused after {time.monotonic() - asked.sent_at:.2f} s")
        asked.refused = True
        self.settle(asked)
        self.run.expired += not asked.dead
        if not asked.dead:
            self.run.modem.later(asked)

    def is_told(self):
        """It hears that the modem began anew: its requests were refused before."""
        if self.asked:
            raise Difference(f"program {self.name} is told of the modem before its requests are refused")

    def outrun(self, asked):
        """The proxy hadn't heard the answer when the request's time was over, since this machine is busy: the answer is late."""
        self.of_modem = collections.deque(due for due in self.of_modem if due.asked is not asked)
        self.settle(asked)
        self.run.stalls += 1

    def settle(self, asked):
        del self.asked[asked.serial]
        self.numbers.discard(asked.number)

    def differs(self, message):
        heads = [queue[0].messages[0][:60].hex() if queue else "nothing" for queue in (self.of_modem, self.own)]
        raise Difference(f"program {self.name} gets {len(message)} bytes {message[:60].hex()}, and is due of the modem {heads[0]}, of the proxy {heads[1]}")


class Modem:
    """The modem, which keeps to what leaves the well-behaved programs' answers known."""

    def __init__(self, run):
        self.run, self.draw, self.listener, self.line = run, draws("modem"), None, None
        self.rest, self.pushed, self.plans, self.holds_back = b"", 0, [], False
        self.hearing = collections.deque()
        # By space and number: what is in use, and how far the modem had spoken when it answered.
        self.in_use, self.answered, self.last, self.pieces = {}, {}, {}, []
        self.listen()

    def listen(self):
        self.listener = socket.socket(socket.AF_UNIX)
        self.listener.bind("modem")
        self.listener.listen()
        self.listener.setblocking(False)

    def plan(self, delay, action):
        heapq.heappush(self.plans, (time.monotonic() + delay, self.run.next_count(), action))

    def push(self, *messages):
        for message in messages:
            self.line.out += message
            self.pushed += len(message)

    def step(self):
        if self.line is None or self.line.ended:
            if self.listener:
                try:
                    stream, _ = self.listener.accept()
                    self.line, self.rest, self.pieces = Line(stream, self.draw), b"", []
                    self.run.watch(stream, self.read)
                except BlockingIOError:
                    pass
            return
        while self.plans and self.plans[0][0] <= time.monotonic():
            heapq.heappop(self.plans)[2]()
        if self.run.hostile and not self.holds_back and not self.run.is_behind and len(self.line.out) < 20000 and self.draw.random() < 0.3:
            self.run.play.harass()
        for _ in range(8):
            self.line.write()

    def read(self):
        self.rest += self.line.read()
        found, self.rest = whole(self.rest)
        for message in found:
            self.run.play.hear(message)

    def heard(self):
        """How much the proxy had surely heard when it gave the number of a request that comes now: what it had heard two seconds ago."""
        now = time.monotonic()
        if not self.hearing or self.hearing[-1][1] != self.run.consumed:
            self.hearing.append((now, self.run.consumed))
        while len(self.hearing) > 1 and self.hearing[1][0] <= now - 2:
            self.hearing.popleft()
        return self.hearing[0][1] if self.hearing[0][0] <= now - 2 else 0

    def given(self, space, number):
        """The number is the first free one after the last, as far as is known what is free."""
        last, top = self.last.get(space), K.tops[space]
        if (space, number) in self.in_use:
            raise Difference(f"number {number} is given twice")
        if last is not None:
            between, at = 0, last % top + 1
            while at != number:
                if (space, at) not in self.in_use and self.answered.get((space, at), -1) <= self.heard():
                    raise Difference(f"number {number} is given after {last}, and {at} is free")
                at, between = at % top + 1, between + 1
                if between > 2000:
                    raise Difference(f"number {number} is given after {last}")
        self.last[space] = number
        if len(self.in_use) + 1 > sum(K.limits.values()):
            raise Difference("more numbers are in use than may be")

    def use(self, space, number, who):
        self.in_use[space, number] = who

    def frees(self, space, number):
        """The modem is answering it now."""
        self.in_use.pop((space, number), None)
        self.answered[space, number] = self.pushed
        if len(self.answered) > 5000:
            self.answered = {key: at for key, at in self.answered.items() if at > self.run.consumed}

    def far(self, space):
        """A number that no request has, nor gets soon, if there is one."""
        top, last = K.tops[space], self.last.get(space)
        for _ in range(50 if last else 0):
            number = (last + self.draw.randint(200, 253 if top == 255 else min(top - 1, 60000)) - 1) % top + 1
            if (space, number) not in self.in_use:
                return number
        return None

    def asked(self, asked, number):
        """A request of a well-behaved program came."""
        client = asked.client
        if not client.leaving and (not client.on_way or client.on_way.popleft() is not asked):
            raise Difference(f"a request of program {client.name} came twice, or too early")
        asked.theirs = number
        self.use(asked.space, number, asked)
        self.run.forwarded += 1
        chance = self.draw.random()
        late = sum(it.what == "late" for it in client.asked.values())
        if asked.what == "plain" and chance < 0.06 and late < 3:
            asked.what = "late"
            self.run.play.spoil(asked)
        else:
            self.plan(self.draw.uniform(0, 0.05) if chance < 0.8 else self.draw.uniform(0, 1.5), lambda: self.answers(asked))

    def answers(self, asked):
        if asked.dead or asked.refused or asked.what == "late":
            return
        if time.monotonic() > asked.sent_at + PATIENCE - MARGIN:
            # too late to be sure: it waits for the refusal
            asked.what = "late"
            self.run.stalls += 1
        elif self.holds_back or len(self.line.out) > 200_000 or asked.client.bytes_due() > MOST_WAITING:
            self.plan(0.2, lambda: self.answers(asked))
        else:
            self.run.play.answer(asked)
            asked.answered = True
            self.frees(asked.space, asked.theirs)

    def later(self, asked):
        """The request was refused: the answer comes all the same, and is for nobody."""
        def answers():
            if asked.dead:
                return
            if self.holds_back:
                self.plan(0.5, answers)
                return
            self.run.late += 1
            self.push(*self.run.play.late(asked))
            self.frees(asked.space, asked.theirs)
        if asked.theirs is None:
            raise Difference(f"a request of program {asked.client.name} never came, and was refused")
        self.plan(self.draw.uniform(0, 2), answers)

    def forget(self):
        """The modem begins anew or is lost: no number is in use."""
        for who in self.in_use.values():
            if isinstance(who, Asked):
                who.dead = True
        self.in_use, self.answered, self.last, self.plans = {}, {}, {}, []


class Foe:
    """A hostile program."""

    def __init__(self, run, name):
        self.run, self.draw, self.rest = run, draws(f"foe {name}"), b""
        self.line, self.what = Line(connect(), self.draw), None
        # what it sends waits here, and not in the system
        self.line.stream.setsockopt(socket.SOL_SOCKET, socket.SO_SNDBUF, 4096)
        self.reads, self.must_end, self.cut, self.goes_on = True, None, None, None
        self.leaves_at = time.monotonic() + self.draw.uniform(0.05, 6)
        self.got, self.spent = 0, run.spent()
        run.play.arm(self)
        run.foes_of[self.what] += 1

    def step(self):
        if self.cut is not None and self.line.written >= self.cut and not self.line.ended:
            self.leave()
        if self.goes_on and not self.line.ended and len(self.line.out) < 10_000 and (self.must_end or not self.run.is_behind):
            self.goes_on()
        for _ in range(4):
            self.line.write()
        if self.must_end is None:
            if not self.line.ended and time.monotonic() > self.leaves_at:
                self.leave()
        elif not self.line.ended and time.monotonic() > self.must_end and self.run.spent() > self.spent + 10:
            raise Difference(f"a program of the kind `{self.what}` isn't hung up")

    def leave(self):
        if self.draw.random() < 0.3:
            try:
                self.line.stream.shutdown(self.draw.choice((socket.SHUT_WR, socket.SHUT_RDWR)))
            except OSError:
                pass
        self.line.ended = True

    def half_close(self):
        """It says that it sends no more, once all is sent."""
        if not self.line.out:
            self.goes_on = None
            self.line.stream.shutdown(socket.SHUT_WR)

    def read(self):
        if not self.reads:
            # whether it is hung up is seen by writing
            return
        piece = self.line.read()
        self.got += len(piece)
        self.rest = (self.rest + piece)[-70000:]
        if tag_in(self.rest):
            raise Difference(f"a hostile program got bytes of program {tag_in(self.rest)[0]}: {self.rest[-60:].hex()}")

    def can_ask(self, space, count=1):
        return self.run.hostile and self.run.foes_waiting(space) + count <= ROOM[space]

    def asks(self, message):
        """A request that may go to the modem."""
        self.run.foes_way[self.run.next_count()] = (time.monotonic() + 5, K.space(message))
        self.line.out += message


class Run:
    """All of it, of one kind."""

    Asked, Difference, Line = Asked, Difference, Line
    connect, draws = staticmethod(connect), staticmethod(draws)

    def __init__(self):
        self.count, self.asked, self.good, self.foes = 0, {}, [], []
        self.consumed, self.flux, self.hostile, self.is_full, self.full_until = 0, 0, False, False, 0.0
        self.messages = self.bytes = self.forwarded = self.expired = self.late = self.strays = self.indications = self.stalls = 0
        self.foes_way, self.foes_of, self.events, self.tools = {}, collections.Counter(), collections.Counter(), []
        self.is_behind, self.behind, self.turned, self.settling = False, 0, 0, False
        self.selector, self.slowest, self.went = selectors.DefaultSelector(), 0.0, time.monotonic()
        self.draw, self.hung_up, self.names = draws("run"), collections.Counter(), 0
        self.modem = Modem(self)
        self.play = PLAYS[kind_name](self)
        self.proxy = subprocess.Popen([program, f"{kind_name}-proxy", "-d", "modem", "--socket", "proxy", "--no-exit", f"--time={int(PATIENCE * 1000)}"], stderr=subprocess.PIPE)
        atexit.register(self.proxy.kill)

    @property
    def may_be_full(self):
        """Whether the proxy may have no place for one more."""
        return self.is_full or time.monotonic() < self.full_until

    def next_count(self):
        self.count += 1
        return self.count

    def watch(self, stream, read):
        self.selector.register(stream, selectors.EVENT_READ, read)

    def drop(self, line):
        try:
            self.selector.unregister(line.stream)
        except (KeyError, ValueError):
            pass
        line.close()

    def foes_under_way(self):
        """The spaces of the hostile programs' requests that may come yet."""
        for key in [key for key, (until, _) in self.foes_way.items() if until < time.monotonic()]:
            del self.foes_way[key]
        return [where for _, where in self.foes_way.values()]

    def foes_waiting(self, space):
        """How many requests of hostile programs may be under way in a space."""
        return self.foes_under_way().count(space) + sum(not isinstance(who, Asked) and key[0] == space for key, who in self.modem.in_use.items())

    def foe_came(self, space):
        """One of them came."""
        for key, (_, where) in self.foes_way.items():
            if where == space:
                del self.foes_way[key]
                return

    # ---- the loop ----

    def turn(self):
        if self.proxy.poll() is not None:
            raise Difference(f"the proxy ended with {self.proxy.returncode}: {self.proxy.stderr.read().decode(errors='replace')[-2000:]}")
        now = time.monotonic()
        self.slowest = max(self.slowest, now - self.went)
        self.went = now
        self.turned += 1
        # where the proxy is behind, as on a machine with other work, nobody says anything new
        self.is_behind = any(queue and queue[0].since < now - 0.3 for client in self.good for queue in (client.of_modem, client.own))
        self.behind += self.is_behind
        for key, _ in self.selector.select(0.02 if self.is_behind else 0.001):
            key.data()
        self.modem.step()
        for client in list(self.good):
            if client.leaving:
                self.gone(client)
                continue
            if client.waits or not self.is_behind:
                self.play.act(client)
            for _ in range(4):
                client.line.write()
            if client.line.ended:
                client.read()
        for foe in list(self.foes):
            foe.step()
            if foe.line.ended:
                self.hung_up[foe.what] += foe.must_end is not None
                self.foes.remove(foe)
                self.drop(foe.line)

    def until(self, holds, what, limit=40.0):
        end = time.monotonic() + limit
        while not holds():
            if time.monotonic() > end:
                raise Difference(f"{limit:.0f} s are over, and it isn't so that {what}")
            self.turn()

    def turns(self, count):
        end = time.monotonic() + count
        while time.monotonic() < end:
            self.turn()

    # ---- who is there ----

    def join(self):
        self.names += 1
        client = Good(self, self.names)
        self.good.append(client)
        self.watch(client.line.stream, client.read)
        self.play.opens(client)
        return client

    def gone(self, client):
        """A well-behaved program is gone: what it is due goes nowhere."""
        self.good.remove(client)
        self.drop(client.line)
        self.play.left(client)

    def send_foes(self, count):
        for _ in range(count):
            if len(self.foes) + len(self.good) + len(self.tools) >= PLACES - 6:
                return
            try:
                foe = Foe(self, self.next_count())
            except (BlockingIOError, ConnectionError):
                return
            self.foes.append(foe)
            self.watch(foe.line.stream, foe.read)

    def storm(self):
        for _ in range(30):
            try:
                connect().close()
            except OSError:
                return
        self.foes_of["come and go"] += 30
        self.full_until = time.monotonic() + 3

    def kill_tool(self):
        """A tool of our own is started, and those that were are killed."""
        for tool in self.tools:
            tool.kill()
            tool.wait()
        self.tools = []
        if self.hostile and not self.may_be_full:
            line = [program, f"{kind_name}cli", "-p", "-d", "modem", "--socket", "proxy", self.play.COMMAND]
            self.tools.append(subprocess.Popen(line, stdout=subprocess.DEVNULL, stderr=subprocess.DEVNULL))
            self.foes_of["tools that are killed"] += 1

    # ---- what happens to all ----

    def calm(self):
        """All is said: no request is on its way, and the modem answers none."""
        self.hostile, self.modem.holds_back = False, True
        self.kill_tool()
        self.turns(0.5)
        for client in self.good:
            client.busy_before, client.busy = client.busy, True
        for foe in list(self.foes):
            if foe.must_end is None:
                foe.leave()
        self.until(lambda: all(client.is_quiet() for client in self.good), "each request came to the modem, and each answer to its program")
        self.until(lambda: not self.modem.line.out, "the proxy takes what the modem says")
        self.until(lambda: not self.foes_under_way(), "nothing of hostile programs is on its way")
        self.turns(0.2)

    def aborts(self):
        """Each request that waits is refused, those of service 0 first, each space in order of coming."""
        waiting = {client: sorted(client.asked.values(), key=lambda it: (it.space, self.order_of(it))) for client in self.good}
        self.modem.forget()
        return waiting

    def order_of(self, asked):
        return list(self.modem.in_use).index((asked.space, asked.theirs)) if (asked.space, asked.theirs) in self.modem.in_use else -1

    def goes_on(self):
        for client in self.good:
            client.busy = False
        self.hostile, self.modem.holds_back = True, False

    def loses(self, how):
        self.calm()
        self.aborts()
        self.modem.listener.close()
        os.unlink("modem")
        self.modem.listener = None
        if how != "hangs up":
            self.modem.push(self.draw.choice(K.BAD) + self.draw.randbytes(self.draw.randrange(200)))
            self.until(lambda: self.modem.line.ended or not self.modem.line.out, "the proxy takes what is no message")
            self.until(lambda: self.modem.line.ended, "a modem that sends what is no message is given up")
        elif self.draw.random() < 0.5:
            self.modem.push(self.play.half_message())
            self.until(lambda: not self.modem.line.out, "the proxy takes half a message")
        self.drop(self.modem.line)
        self.until(lambda: not any(client.asked for client in self.good), "each request is refused where the modem is lost")
        self.play.lost()
        self.until(lambda: all(client.is_quiet() for client in self.good), "requests are refused while the modem is away")
        self.modem.line, self.consumed = None, self.modem.pushed
        self.modem.listen()
        self.until(lambda: self.modem.line, "the modem is opened again")
        self.modem.holds_back = False
        self.play.back()
        self.goes_on()

    def few_descriptors(self):
        """The proxy gets no descriptor more for a while."""
        before = resource.prlimit(self.proxy.pid, resource.RLIMIT_NOFILE)
        self.is_full = True
        used = len(os.listdir(f"/proc/{self.proxy.pid}/fd"))
        resource.prlimit(self.proxy.pid, resource.RLIMIT_NOFILE, (used, before[1]))
        waiting = []
        for _ in range(40):
            try:
                waiting.append(connect())
            except OSError:
                break
        self.turns(2)
        resource.prlimit(self.proxy.pid, resource.RLIMIT_NOFILE, before)
        for stream in waiting:
            stream.close()
        self.turns(1)
        self.is_full, self.full_until = False, time.monotonic() + 3

    def crowd(self):
        """More programs come than there are places."""
        self.is_full = True
        crowd = []
        for _ in range(PLACES + 10):
            try:
                stream = connect()
                stream.setblocking(False)
                crowd.append(stream)
            except OSError:
                break
            if len(crowd) % 10 == 0:
                self.turn()
        self.until(lambda: len(crowd) - sum(map(is_hung_up, crowd)) + len(self.good) <= PLACES, f"no more than {PLACES} programs are there")
        for stream in crowd:
            stream.close()
        self.turns(0.5)
        self.is_full, self.full_until = False, time.monotonic() + 3

    # ---- from the start to the end ----

    def descriptors(self):
        return len(os.listdir(f"/proc/{self.proxy.pid}/fd"))

    def spent(self):
        """The processor time of the proxy, in seconds."""
        with open(f"/proc/{self.proxy.pid}/schedstat") as told:
            return int(told.read().split()[0]) / 1e9

    def peak(self):
        for line in open(f"/proc/{self.proxy.pid}/status"):
            if line.startswith("VmHWM"):
                return int(line.split()[1]) / 1024

    def soak(self):
        self.until(lambda: self.modem.line and os.path.exists("proxy"), "the proxy serves")
        self.turns(0.3)
        alone = self.descriptors()
        end = time.monotonic() + seconds
        for _ in range(GOOD_ONES):
            self.join()
        self.until(lambda: all(client.open for client in self.good), "each program has opened the device")
        self.hostile = True
        events, next_event, next_tool = list(self.play.EVENTS), time.monotonic() + 8, 0
        while time.monotonic() < end:
            self.turn()
            now = time.monotonic()
            if len(self.foes) < FOES and self.draw.random() < 0.1 and not self.is_behind:
                self.send_foes(1)
            if self.draw.random() < 0.002 and not self.is_behind and not self.may_be_full:
                self.storm()
            if now > next_tool:
                next_tool = now + self.draw.uniform(0.3, 3)
                self.kill_tool()
            if self.draw.random() < 0.001 and not self.may_be_full and not self.settling:
                client = self.draw.choice(self.good)
                if client.name > 2 and client.open and not client.busy:
                    client.leaving = True
                    self.foes_of["well-behaved ones that went"] += 1
            # before what happens to all, nobody comes, and nobody sets a list
            self.settling = now > next_event
            if len(self.good) < GOOD_ONES and not self.may_be_full and not self.flux and not self.settling:
                self.join()
            if self.settling and all(client.open and not client.busy for client in self.good) and not self.flux:
                what = events.pop(0)
                events.append(what)
                self.events[what] += 1
                {"hangs up": lambda: self.loses(what), "sends no message": lambda: self.loses(what), "few descriptors": self.few_descriptors,
                 "crowd": self.crowd}.get(what, getattr(self.play, what.replace(" ", "_"), None))()
                next_event = time.monotonic() + self.draw.uniform(4, 12)
        self.hostile = False
        self.kill_tool()
        # one that has done with its list, or has opened anew, would ask on
        self.until(lambda: not self.flux and not any(client.busy for client in self.good), "nobody sets a list, or opens the device, any more")
        for client in self.good:
            client.busy = True
        self.until(lambda: not any(client.asked for client in self.good) and all(client.is_quiet() for client in self.good), "each program gets all that it is due", 60)
        for foe in list(self.foes):
            if foe.must_end is None:
                foe.leave()
        self.until(lambda: not self.foes, "whoever sends no message, or doesn't read, is hung up", 600)
        self.turns(0.5)
        self.until(lambda: self.descriptors() == alone + len(self.good), f"the proxy has as many descriptors as programs and {alone} more", 10)
        self.play.ends()

    def tell(self):
        spent = ", ".join(f"{count} {what}" for what, count in sorted(self.foes_of.items()))
        print(f"       {self.messages:,} messages of {self.bytes:,} bytes to well-behaved programs; {self.forwarded:,} requests of theirs; {self.expired:,} refused in their time, {self.late:,} late answers")
        print(f"       of the modem {self.strays:,} messages for nobody, {self.indications:,} indications for somebody; {', '.join(f'{count} times `{what}`' for what, count in self.events.items())}")
        print(f"       hostile: {spent}; hung up for what they sent or didn't read: {sum(self.hung_up.values())}")
        print(f"       the proxy used {self.peak() or 0:.1f} MB at most; the longest turn of this script took {self.slowest:.2f} s, {self.stalls} answers were put off for want of time, and in {100 * self.behind / max(self.turned, 1):.0f} % of the turns the proxy was behind", flush=True)


def point(name, holds, more=""):
    print(f"{'ok' if holds else 'FAILED':6} {name}{more and f': {more}'}", flush=True)
    return holds


print(f"{kind_name}, {seconds:.0f} s, seed {seed}", flush=True)
run, told = Run(), None
try:
    run.soak()
except Difference as difference:
    told = str(difference)
    time.sleep(0.5)
    if run.proxy.poll() is not None:
        told += f"; the proxy ended with {run.proxy.returncode}, and said {run.proxy.stderr.read().decode(errors='replace')[-3000:]!r}"
holds = point(f"{kind_name}: well-behaved programs get every byte, and each of their requests comes to the modem once, beside hostile ones and before a hostile modem", told is None, told or "")
run.tell()
for tool in run.tools:
    tool.kill()
run.proxy.kill()
run.proxy.wait()
for name in ("modem", "proxy"):
    if os.path.lexists(name):
        os.unlink(name)
sys.exit(not holds)
