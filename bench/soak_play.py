"""What programs and modems of each kind say in `soak.py`, and what comes of it."""
import time

from soak_kinds import FOE, GOOD, Mbim, Qmi, tag, tag_in, u16, u32


class Play:
    """What both kinds have in common."""

    def __init__(self, run):
        self.run, self.draw = run, run.draws("play")

    def when_heard(self, client, action):
        """The action comes once the proxy has heard all that the modem said so far."""
        client.waits = (self.run.modem.pushed, action)

    def is_waiting(self, client):
        """Whether the program waits for its turn."""
        if client.waits:
            position, action = client.waits
            if self.run.consumed >= position and not self.run.modem.holds_back:
                client.waits = None
                action()
        return client.waits or client.busy or not client.open or len(client.line.out) > 4000 or client.draw.random() < 0.6

    def in_flux(self, client):
        """The modem keeps back what the program may or may not be due."""
        if not client.flux:
            client.flux = True
            self.run.flux += 1

    def settled(self, client):
        if client.flux:
            client.flux = False
            self.run.flux -= 1

    def left(self, client):
        self.settled(client)

    def stray(self, *messages):
        self.run.modem.push(*messages)
        self.run.strays += len(messages)

    def payload(self, client, serial, draw):
        """A tag, and mostly little behind it."""
        chance = draw.random()
        return tag(client.name, serial) + draw.randbytes(draw.randrange(60000 if chance < 0.004 else 3000 if chance < 0.1 else 60))

    def good_one_in_use(self):
        found = [who for who in self.run.modem.in_use.values() if isinstance(who, self.run.Asked) and not who.client.leaving]
        return self.draw.choice(found) if found else None

    def asks(self, client, what, space, number, bytes, wire, refusal, serial):
        asked = self.run.Asked(client, serial, space, what, number, wire, refusal)
        client.asks(asked, bytes)
        return asked

    def came(self, who, space, number, messages):
        """A request with the tag of a well-behaved program came."""
        run, asked = self.run, self.run.asked.pop(who, None)
        if asked is None:
            raise run.Difference(f"a request of program {who[0]} came twice, or was never made: {messages[0][:60].hex()}")
        if asked.wire(number) != messages:
            raise run.Difference(f"a request of program {who[0]} came changed: {messages[0][:60].hex()}, and not {asked.wire(number)[0][:60].hex()}")
        if asked.client.leaving or asked.client not in run.good:
            self.foreign(space, number, messages)
        else:
            run.modem.asked(asked, number)

    def foreign(self, space, number, messages):
        """One of a hostile program, or of one that went."""
        modem = self.run.modem
        modem.use(space, number, messages)
        if tag_in(messages[0], FOE):
            self.run.foe_came(space)
        many = sum(not isinstance(who, self.run.Asked) for who in modem.in_use.values()) > 60
        chance = self.draw.random()
        delay = 0 if many else self.draw.uniform(0, 0.1) if chance < 0.7 else self.draw.uniform(0, 3) if chance < 0.9 else self.draw.uniform(9, 14)

        def answers():
            if modem.in_use.get((space, number)) is messages:
                if modem.holds_back and not self.run.hostile:
                    modem.plan(0.3, answers)
                    return
                self.answer_foe(space, number, messages)
                modem.frees(space, number)
        modem.plan(delay, answers)

    def kind_of_foe(self, draw):
        """Of those that don't read, who cost the proxy most, a few are there at a time."""
        what = draw.choice(self.FOES)
        return "floods" if what == "deaf" and sum(foe.what == "deaf" for foe in self.run.foes) >= 3 else what

    def fill(self):
        """Hostile programs take all numbers of space 0, and well-behaved ones are refused until some are free."""
        run, limit = self.run, {"qmi": 255, "mbim": 256}[self.name]
        run.calm()
        run.is_full = True
        lines = []
        for _ in range(19):
            line = run.Line(run.connect(), run.draws(f"fill {run.next_count()}"))
            line.out += b"".join(self.asks_much())
            lines.append(line)
        def turn():
            for line in lines:
                line.write()
                line.read()
            full = sum(space == 0 for space, _ in run.modem.in_use) == limit
            if not full and not any(line.out for line in lines):
                self.draw.choice(lines).out += self.asks_much()[-1]
            return full

        # a number of the proxy's own request comes free again, and is taken then
        for _ in range(3):
            run.until(turn, "hostile programs can take all numbers")
            run.turns(0.7)
        run.until(turn, "hostile programs can take all numbers")
        for client in run.good:
            self.asks_in_vain(client)
        run.until(lambda: turn() and all(client.is_quiet() for client in run.good), "requests are refused while no number is free")
        for line in lines:
            line.close()
        run.turns(0.3)
        for (space, number), who in list(run.modem.in_use.items()):
            if not isinstance(who, run.Asked):
                self.answer_foe(space, number, who)
                run.modem.frees(space, number)
        # whoever hears of this knows that the proxy heard all that was before it
        self.tells_something()
        run.until(lambda: all(client.is_quiet() for client in run.good), "the proxy hears what frees the numbers")
        run.is_full, run.full_until = False, time.monotonic() + 3
        run.goes_on()


class QmiPlay(Play):
    name, COMMAND = "qmi", "--dms-get-model"
    EVENTS = ("sync", "few descriptors", "hangs up", "fill", "crowd", "sends no message")
    FOES = ("garbage", "bad length", "vanish", "deaf", "floods", "slow", "strangers", "thieves", "adopters", "half closed")
    SERVICES, NOBODYS = (1, 2, 3, 5, 9), 0xEE

    def __init__(self, run):
        super().__init__(run)
        # Which well-behaved program has a client id, by what the modem said, and until when none gets one that was left.
        self.holds, self.left_until = {}, {}

    # ---- well-behaved programs ----

    def opens(self, client):
        self.in_flux(client)

        def opened():
            client.open = True
            self.settled(client)

        def sends():
            message = Qmi.opening(client.draw.randint(1, 255))
            client.says(message, Qmi.reply(message, 0), then=opened)
        self.when_heard(client, sends)

    def left(self, client):
        super().left(client)
        for key in [key for key, holder in self.holds.items() if holder is client]:
            del self.holds[key]
            self.left_until[key] = time.monotonic() + 8

    def act(self, client):
        if self.is_waiting(client):
            return
        draw, held = client.draw, [key for key, state in client.ids.items() if state == "held"]
        what = draw.choices(("plain", "control", "allocate", "release", "own"), (50, 20, 12 if len(client.ids) < 6 else 0, 6, 12))[0]
        if not held and what in ("plain", "release"):
            what = "allocate"
        if what == "own":
            return self.says_own(client)
        space = 1 if what == "plain" else 0
        if client.waiting(space) >= 12 or (what == "allocate" and sum(it.kind == "allocate" for it in client.asked.values()) > 2):
            return
        serial = client.next_serial()
        mark = Qmi.tlv(0xE0, self.payload(client, serial, draw) if what == "plain" else tag(client.name, serial))
        number = client.fresh_number(0xFFFF if space else 255)
        if what == "plain":
            message = Qmi.message(*draw.choice(held), number, draw.randint(0x20, 0x60), mark)
        elif what == "control":
            message = Qmi.message(0, 0, number, 0x21, mark)
        elif what == "allocate":
            message = Qmi.message(0, 0, number, 0x22, Qmi.tlv(1, bytes([draw.choice(self.SERVICES)])) + mark)
        else:
            key = draw.choice(held)
            if client.name <= 2 or len(held) < 2:
                return client.numbers.discard(number)
            client.ids[key] = "released"
            message = Qmi.message(0, 0, number, 0x23, Qmi.tlv(1, bytes(key)) + mark)
        asked = self.asks(client, "plain" if what in ("plain", "control") else what, space, number, message,
                          lambda theirs: [Qmi.with_number(message, theirs)], Qmi.reply(message, Qmi.ABORTED), serial)
        asked.kind, asked.message = what, message

    def says_own(self, client):
        """What the proxy answers by itself."""
        draw, number = client.draw, client.draw.randint(1, 255)
        others = [key for key, holder in self.holds.items() if holder.name <= 2 and holder is not client and holder.ids.get(key) == "held"]
        key = draw.choice(others) if others else None
        message, error = draw.choice((
            (Qmi.message(0, 0, number, 0x27), 0),
            (Qmi.opening(number), 0),
            (Qmi.opening(number, "modem2"), 3),
            (Qmi.message(2, draw.choice((0, 255)), number, 0x22), 7),
            (Qmi.message(0, 0, number, 0x23, Qmi.tlv(1, bytes([0, 7]))), 7),
            (Qmi.message(*key, number, 0x22) if key else Qmi.message(0, 0, number, 0x27), 7 if key else 0),
            (Qmi.message(0, 0, number, 0x23, Qmi.tlv(1, bytes(key))) if key else Qmi.message(0, 0, number, 0x27), 7 if key else 0),
            (Qmi.message(0, 0, number, 0x22), 1),
            (Qmi.message(0, 9, number, 0x21), 1),
            (Qmi.message(2, 3, number, 0x22, kind=draw.choice((1, 2, 4))), 1),
            (Qmi.message(2, 3, number, 0x22, b"\x01\x00", length=3), 1),
        ))
        client.says(message, Qmi.reply(message, error))

    # ---- the modem ----

    def hear(self, message):
        run, space, number = self.run, Qmi.space(message), Qmi.number(message)
        run.modem.given(space, number)
        who = tag_in(message)
        if who:
            return self.came(who, space, number, [message])
        key = (message[4], message[5]) if space else (message[15], message[16]) if message[8:10] == b"\x23\x00" else None
        holder = self.holds.get(key)
        if holder and holder in run.good and holder.ids.get(key) == "held":
            raise run.Difference(f"a hostile program used client id {key} of program {holder.name}")
        self.foreign(space, number, [message])

    def answer(self, asked):
        modem, client, message = self.run.modem, asked.client, Qmi.with_number(asked.message, asked.theirs)
        if self.draw.random() < 0.2 and self.run.hostile:
            self.stray_to(message)
        if asked.kind == "allocate":
            return self.answer_allocate(asked, message)
        if asked.kind == "release":
            key = (asked.message[15], asked.message[16])
            answer = Qmi.answer(message, Qmi.tlv(1, bytes(key)))
            self.holds.pop(key, None)
            self.left_until[key] = time.monotonic() + 8
        else:
            key, answer = None, Qmi.answer(message, Qmi.tlv(0xE0, self.payload(client, asked.serial, self.draw)), 0 if self.draw.random() < 0.9 else 48)
        modem.push(answer)

        def then():
            client.settle(asked)
            client.ids.pop(key, None)
        client.gets([Qmi.with_number(answer, asked.number)], then, asked)
        if self.draw.random() < 0.2 and self.run.hostile:
            self.stray(answer)

    def answer_allocate(self, asked, message):
        modem, client, service = self.run.modem, asked.client, asked.message[15]
        others = [key for key, holder in self.holds.items() if key[0] == service and holder.name <= 2 and holder is not client and holder.ids.get(key) == "held"]
        if others and self.draw.random() < 0.15 and self.run.hostile:
            modem.push(Qmi.answer(message, Qmi.tlv(1, bytes(self.draw.choice(others)))))
            return client.gets([Qmi.reply(asked.message, Qmi.HELD)], lambda: client.settle(asked))
        now = time.monotonic()
        # 5 is what an answer out of form tells, and whoever reads it uses it
        free = [it for it in range(6, 121) if (service, it) not in self.holds and self.left_until.get((service, it), 0) < now]
        if not free:
            answer = Qmi.answer(message, b"", Qmi.HELD)
            modem.push(answer)
            return client.gets([Qmi.with_number(answer, asked.number)], lambda: client.settle(asked))
        key = (service, self.draw.choice(free))
        answer = Qmi.answer(message, Qmi.tlv(1, bytes(key)) + Qmi.tlv(0xE0, tag(client.name, asked.serial)))
        modem.push(answer)
        self.holds[key] = client
        client.ids[key] = "promised"

        def then():
            client.settle(asked)
            client.ids[key] = "held"
        client.gets([Qmi.with_number(answer, asked.number)], then)

    def late(self, asked):
        if asked.kind == "release":
            asked.client.ids[asked.message[15], asked.message[16]] = "held"
        return [Qmi.answer(Qmi.with_number(asked.message, asked.theirs), Qmi.tlv(1, bytes([2, 77])) + Qmi.tlv(0xE0, tag(asked.client.name, asked.serial)))]

    def spoil(self, asked):
        """A request that isn't answered in time gets answers that are none."""
        if self.run.hostile:
            self.stray_to(Qmi.with_number(asked.message, asked.theirs))

    def stray_to(self, message):
        """What nearly answers a request: another service, another client id, lengths that don't agree, no response."""
        answer = bytearray(Qmi.answer(message, b""))
        number, name = Qmi.number(message), message[8:10] if message[4] == 0 else message[9:11]
        chance = self.draw.randrange(4)
        if chance == 0:
            answer = Qmi.answer(Qmi.message(self.NOBODYS, 1, number, 0x22), b"")
        elif chance == 1:
            answer[5] = (answer[5] + 100) % 256
        elif chance == 2:
            at = 10 if message[4] == 0 else 11
            answer[at] += 1
        else:
            answer[6] = 0
        self.stray(bytes(answer))

    def harass(self):
        draw, run, modem = self.draw, self.run, self.run.modem
        what = draw.randrange(9)
        if what == 0 and (number := modem.far(0)):
            self.stray(Qmi.answer(Qmi.message(0, 0, number, 0x21), b""))
        elif what == 1 and (number := modem.far(1)):
            self.stray(Qmi.answer(Qmi.message(draw.choice(self.SERVICES), draw.randint(1, 120), number, 0x21), b""))
        elif what == 2 and (asked := self.good_one_in_use()):
            self.stray_to(Qmi.with_number(asked.message, asked.theirs))
        elif what == 3:
            self.stray(Qmi.indication(2, 0, 1, b"nobody"))
        elif what == 4:
            self.stray(*[Qmi.indication(self.NOBODYS, draw.choice((3, 255)), 1, draw.randbytes(draw.randrange(40)))] * draw.randrange(1, 300))
        elif what == 5:
            self.stray(Qmi.message(2, 1, draw.randrange(65536), 0x22, b"", 0x80, 0))
        elif what == 6 and self.holds:
            key = draw.choice(list(self.holds))
            self.tells([self.holds[key]], Qmi.indication(*key, draw.randint(1, 90), draw.randbytes(draw.randrange(200))))
        elif what == 7 and self.holds:
            service = draw.choice(self.SERVICES)
            self.tells({holder for key, holder in self.holds.items() if key[0] == service}, Qmi.indication(service, 255, draw.randint(1, 90), draw.randbytes(draw.randrange(200))))
        elif what == 8 and not run.flux:
            self.tells([client for client in run.good if client.open], Qmi.indication(0, 0, 0x28, draw.randbytes(draw.randrange(60))))

    def tells(self, clients, message):
        """An indication, and who gets it."""
        if any(client.bytes_due() > 50_000 for client in clients):
            return
        self.run.modem.push(message)
        self.run.indications += 1
        for client in clients:
            if client in self.run.good and not client.leaving:
                client.gets([message])

    def tells_something(self):
        self.tells([client for client in self.run.good if client.open], Qmi.indication(0, 0, 0x28, b"something"))

    def half_message(self):
        return b"\x01\xff\x00" + self.draw.randbytes(self.draw.randrange(200))

    # ---- what happens to all ----

    def sync(self):
        run = self.run
        run.calm()
        waiting = [who for who in run.modem.in_use.values() if isinstance(who, run.Asked)]
        run.aborts()
        run.modem.push(Qmi.SYNC)
        for client in run.good:
            client.gets([Qmi.SYNC], client.is_told)
        self.forget()
        for asked in waiting:
            self.stray(Qmi.answer(Qmi.with_number(asked.message, asked.theirs), b""))
        run.until(lambda: all(client.is_quiet() and not client.asked for client in run.good), "a modem that begins anew has each request refused")
        run.goes_on()

    def forget(self):
        self.holds = {}
        for client in self.run.good:
            client.ids = {}

    def lost(self):
        self.forget()
        for client in self.run.good:
            for message in (Qmi.message(0, 0, 5, 0x21), Qmi.message(2, 9, 77, 0x22), Qmi.message(0, 0, 6, 0x22, Qmi.tlv(1, b"\x02"))):
                client.says(message, Qmi.reply(message, Qmi.AWAY))

    def back(self):
        pass

    def ends(self):
        pass

    def asks_much(self):
        return [Qmi.opening(1)] + [Qmi.message(0, 0, number, 0x21, Qmi.tlv(0xE0, tag(0, number, FOE))) for number in range(1, 17)]

    def asks_in_vain(self, client):
        message = Qmi.message(0, 0, 9, 0x21)
        client.says(message, Qmi.reply(message, 23))

    # ---- hostile programs ----

    def answer_foe(self, space, number, messages):
        """Their answers hold anything."""
        draw, message = self.draw, messages[0]
        tlvs = Qmi.tlv(0xE1, draw.randbytes(draw.randrange(300 if draw.random() < 0.95 else 50000)))
        if space == 0 and message[8:10] == b"\x22\x00":
            service = message[15]
            held = [key for key in self.holds if self.holds[key].name <= 2 and self.holds[key].ids.get(key) == "held"]
            tlvs = draw.choice((Qmi.tlv(1, bytes([service, draw.randint(121, 129)])), Qmi.tlv(1, bytes([0, 5])), Qmi.tlv(1, bytes([2, draw.choice((0, 255))])),
                                Qmi.tlv(1, bytes([2, 5, 0])), Qmi.tlv(1, bytes(draw.choice(held))) if held else b"", b"\x01\xff\xff"))
        self.run.modem.push(Qmi.answer(message, tlvs, 0 if draw.random() < 0.9 else 5))

    def request_of_foe(self, foe):
        """One that may go to the modem."""
        draw, number = foe.draw, foe.draw.randint(0, 255)
        mark = Qmi.tlv(0xE0, tag(0, number, FOE))
        return draw.choice((
            Qmi.message(0, 0, number, draw.randint(0x20, 0x21), mark),
            Qmi.message(0, 0, number, 0x22, Qmi.tlv(1, bytes([draw.choice(self.SERVICES)])) + mark),
            Qmi.message(draw.choice(self.SERVICES), draw.randint(130, 250), number, draw.randint(0, 0xFFFF), mark + Qmi.tlv(7, draw.randbytes(draw.randrange(500)))),
        ))

    def arm(self, foe):
        draw = foe.draw
        foe.what = self.kind_of_foe(draw)
        line = foe.line
        opening = Qmi.opening(draw.randint(0, 255))
        if foe.what == "garbage":
            while Qmi.size(garbage := draw.randbytes(draw.randint(3, 3000))) != 0:
                pass
            line.out += garbage
            foe.must_end = time.monotonic() + 20
        elif foe.what == "bad length":
            line.out += opening + Qmi.message(0, 0, 1, 0x27) + draw.choice(Qmi.BAD) + draw.randbytes(draw.randrange(3000))
            foe.must_end = time.monotonic() + 20
        elif foe.what == "deaf":
            line.out += opening
            foe.reads, foe.must_end = False, time.monotonic() + 40
            foe.goes_on = lambda: line.out.extend(Qmi.message(2, 0, 1, 0x22) * 500)
        elif foe.what == "floods":
            line.out += opening
            foe.goes_on = lambda: line.out.extend(b"".join(draw.choice((Qmi.message(0, 0, 1, 0x27), Qmi.message(0, 0, 2, 0x22), Qmi.message(3, 255, 9, 1), Qmi.opening(4, "other"))) for _ in range(20)))
        elif foe.what == "slow":
            line.most = 1
            foe.asks(opening + Qmi.message(0, 0, 3, 0x21, Qmi.tlv(0xE0, tag(0, 3, FOE) + draw.randbytes(200))))
            foe.leaves_at += 10
        elif foe.what == "strangers":
            foe.goes_on = lambda: line.out.extend(Qmi.message(*draw.choice(((0, 0), (2, 5), (1, 200))), draw.randint(0, 255), draw.choice((0x21, 0x27, 0x20)), Qmi.tlv(1, draw.randbytes(draw.randrange(9)))))
        elif foe.what == "half closed":
            line.out += opening + Qmi.message(0, 0, 1, 0x27) * draw.randrange(50)
            foe.must_end = time.monotonic() + 20
            foe.goes_on = lambda: foe.half_close()
        else:
            line.out += opening
            foe.goes_on = lambda: self.goes_on(foe)
            if foe.what == "vanish":
                foe.cut = draw.randint(1, 2000)

    def goes_on(self, foe):
        draw, run = foe.draw, self.run
        if foe.what == "thieves":
            held = [key for key, holder in self.holds.items() if holder in run.good and holder.name <= 2 and holder.ids.get(key) == "held"]
            if held and run.hostile:
                key, number = draw.choice(held), draw.randint(0, 255)
                foe.line.out += draw.choice((Qmi.message(*key, number, 0x22, Qmi.tlv(0xE0, tag(0, number, FOE))), Qmi.message(0, 0, number, 0x23, Qmi.tlv(1, bytes(key)))))
            return
        message = self.request_of_foe(foe)
        if draw.random() < 0.05 and foe.can_ask(Qmi.space(message)):
            foe.asks(message)


class MbimPlay(Play):
    name, COMMAND = "mbim", "--query-radio-state"
    EVENTS = ("few descriptors", "hangs up", "fill", "crowd", "sends no message")
    FOES = ("garbage", "bad length", "vanish", "deaf", "floods", "slow", "strangers", "fragments", "lists", "openers", "half closed")
    SERVICES = [f"soak-service-00{at}".encode() for at in range(6)]
    NOBODYS = b"nobody-wants-it!"
    STARTING = [bytes.fromhex(uuid) for uuid in ("a289cc33bcbb8b4fb6b0133ec2aae6df", "533fbeeb14fe4467" "9f9033a223e56c3f", "e550a0c85e82479e" "82f710abf4c3351f",
                                                 "4bf384761e6a41db" "b1d8bed289c25bdb", "d8f20131fcb54e17" "8602d6ed3816164c")]

    def __init__(self, run):
        super().__init__(run)
        self.is_open, self.last_list, self.pieces = False, None, []

    # ---- well-behaved programs ----

    def fragments(self, draw, kind, number, body, most=60000):
        """A command as its sender cuts it."""
        if len(body) < 4000 and draw.random() < 0.7:
            return Mbim.fragment(kind, number, 1, 0, body)
        places = sorted(draw.sample(range(1, len(body)), min(draw.randint(1, 6), len(body) - 1)))
        parts = [body[start:end] for start, end in zip([0, *places], [*places, len(body)])]
        return b"".join(Mbim.fragment(kind, number, len(parts), at, part) for at, part in enumerate(parts))

    def command(self, client, body, status, buffer=b"", then=None):
        """A command that the proxy answers by itself."""
        number = client.draw.randint(1, 2 ** 32 - 1)
        done = Mbim.done(body[:16], int.from_bytes(body[16:20], "little"), status, buffer)
        client.says(self.fragments(client.draw, Mbim.COMMAND, number, body), *Mbim.split(Mbim.DONE, number, client.longest, done), then=then)

    def open_anew(self, client, then=None):
        number, asked = client.draw.randint(1, 2 ** 32 - 1), client.draw.choice((0, 64, 100, 512, 4096, 60000))

        def opened():
            client.open = True
            if then:
                then()
        client.longest = min(max(asked, 64), 4096)
        client.says(Mbim.plain(Mbim.OPEN, number, asked), Mbim.plain(Mbim.OPEN_DONE, number, 0), then=opened)

    def opens(self, client):
        self.in_flux(client)
        client.list = {(uuid, None) for uuid in self.STARTING}

        def sends():
            self.command(client, Mbim.configuration(), 0, then=lambda: self.open_anew(client, lambda: self.settled(client)))
        self.when_heard(client, sends)

    def act(self, client):
        if self.is_waiting(client):
            return
        draw = client.draw
        what = draw.choices(("plain", "own", "list", "anew"), (80, 16, 1, 1))[0]
        if what == "own":
            return self.says_own(client)
        if what in ("list", "anew"):
            if not self.run.flux and self.run.hostile and not self.run.settling:
                self.in_flux(client)
                client.busy = True
                self.when_heard(client, lambda: self.sets_list(client) if what == "list" else self.reopens(client))
            return
        if client.waiting(0) >= 10:
            return
        serial = client.next_serial()
        number = client.fresh_number(2 ** 32 - 1)
        uuid, cid = draw.choice(self.SERVICES), draw.randint(1, 50)
        body = Mbim.command(uuid, cid, draw.randint(0, 1), self.payload(client, serial, draw))
        asked = self.asks(client, "plain", 0, number, self.fragments(draw, Mbim.COMMAND, number, body), lambda theirs: Mbim.split(Mbim.COMMAND, theirs, 4096, body),
                          Mbim.split(Mbim.DONE, number, client.longest, Mbim.done(uuid, cid, 2))[0], serial)
        asked.kind, asked.uuid, asked.cid = "plain", uuid, cid

    def says_own(self, client):
        draw, number = client.draw, client.draw.randint(1, 2 ** 32 - 1)
        error = lambda code: Mbim.plain(Mbim.ERROR, number, code)
        many = [(draw.randbytes(16), [1]) for _ in range(31)]
        what = draw.randrange(9)
        if what == 0:
            self.command(client, Mbim.configuration(), 0)
        elif what == 1:
            self.command(client, Mbim.configuration("modem2"), 21)
        elif what == 2:
            self.command(client, Mbim.command(Mbim.BASIC_CONNECT, Mbim.LIST, 0, b""), 21)
        elif what == 3:
            self.command(client, Mbim.command(Mbim.BASIC_CONNECT, Mbim.LIST, 1, Mbim.list_buffer(many)), 21)
        elif what == 4:
            client.says(Mbim.fragment(Mbim.COMMAND, number, 2, 1, draw.randbytes(30)), error(2))
        elif what == 5:
            client.says(Mbim.plain(Mbim.OPEN, number), error(3))
        elif what == 6:
            client.says(Mbim.plain(draw.choice((5, 9, 0x80000001)), number, 1), error(6))
        elif what == 7:
            client.says(Mbim.plain(Mbim.HOST_ERROR, number, 1))
        else:
            client.says(Mbim.fragment(Mbim.COMMAND, number, 1, 0, Mbim.command(self.SERVICES[0], 1, 0, b"abcd") + b"e"), error(3))

    def sets_list(self, client):
        draw = client.draw
        events = [(draw.choice(self.SERVICES + self.STARTING[:2]), draw.choices(range(1, 9), k=draw.randrange(4))) for _ in range(draw.randrange(8))]
        pairs = Mbim.normal([(uuid, cid) for uuid, cids in events for cid in cids or [None]])

        def is_set():
            client.list, client.busy = set(pairs), False
            self.settled(client)
        self.command(client, Mbim.command(Mbim.BASIC_CONNECT, Mbim.LIST, 1, Mbim.list_buffer(events)), 0, Mbim.normal_buffer(pairs), is_set)

    def reopens(self, client):
        """It opens the device again, with other fragments, once nothing is due to it; and perhaps closes it before."""
        if client.asked or not client.is_quiet():
            return self.when_heard(client, lambda: self.reopens(client))

        def reopened():
            client.busy = False
            self.settled(client)
        if client.draw.random() < 0.5:
            number = client.draw.randint(1, 2 ** 32 - 1)
            client.open = False
            client.says(Mbim.plain(Mbim.CLOSE, number), Mbim.plain(Mbim.CLOSE_DONE, number, 0))
            client.says(Mbim.fragment(Mbim.COMMAND, number, 1, 0, Mbim.command(self.SERVICES[0], 1, 0, b"")), Mbim.plain(Mbim.ERROR, number, 5))
        self.open_anew(client, reopened)

    # ---- the modem ----

    def hear(self, message):
        run, modem, number = self.run, self.run.modem, Mbim.number(message)
        kind = Mbim.kind(message)
        if kind == Mbim.OPEN:
            if message != Mbim.plain(Mbim.OPEN, number, 4096) or self.is_open:
                raise run.Difference(f"the proxy opens the modem so: {message.hex()}")
            modem.given(0, number)
            modem.use(0, number, [message])

            def opened():
                modem.push(Mbim.plain(Mbim.OPEN_DONE, number, 0))
                modem.frees(0, number)
            self.is_open = True
            return modem.plan(self.draw.uniform(0, 0.3), opened)
        if kind != Mbim.COMMAND or (not self.pieces and message[16:20] != u32(0)):
            raise run.Difference(f"the modem is sent {message[:40].hex()}")
        self.pieces.append(message)
        if len(self.pieces) < int.from_bytes(message[12:16], "little"):
            return
        messages, self.pieces = self.pieces, []
        body = b"".join(each[20:] for each in messages)
        if messages != Mbim.split(Mbim.COMMAND, number, 4096, body):
            raise run.Difference(f"the modem is sent fragments out of order: {messages[0][:40].hex()}")
        modem.given(0, number)
        who = tag_in(body)
        if who:
            self.came(who, 0, number, messages)
        elif body[:20] == Mbim.BASIC_CONNECT + u32(Mbim.LIST):
            self.last_list = Mbim.pairs_in(body[28:])
            modem.use(0, number, messages)

            def taken():
                if modem.in_use.get((0, number)) is messages:
                    modem.push(*Mbim.split(Mbim.DONE, number, 4096, Mbim.done(Mbim.BASIC_CONNECT, Mbim.LIST, 0)))
                    modem.frees(0, number)
            modem.plan(self.draw.uniform(0, 0.3), taken)
        else:
            self.foreign(0, number, messages)

    def cut(self):
        """How long the modem's fragments are."""
        return self.draw.choice((64, 200, 512, 4096, 4096, 16384))

    def answer(self, asked):
        modem, client, draw, number = self.run.modem, asked.client, self.draw, asked.theirs
        if draw.random() < 0.2 and self.run.hostile:
            self.stray_to(number)
        if draw.random() < 0.05:
            modem.push(Mbim.plain(Mbim.ERROR, number, 9))
            return client.gets([Mbim.plain(Mbim.ERROR, asked.number, 9)], lambda: client.settle(asked), asked)
        body = Mbim.done(asked.uuid, asked.cid, draw.choice((0, 0, 0, 5)), self.payload(client, asked.serial, draw))
        pieces = Mbim.split(Mbim.DONE, number, self.cut(), body)
        if len(pieces) > 1 and draw.random() < 0.3:
            # an indication's fragments stand between those of the answer
            place, between = draw.randrange(1, len(pieces)), self.indication(draw)
            modem.push(*pieces[:place])
            self.tells(*between)
            pieces = pieces[place:]
        modem.push(*pieces)
        client.gets(Mbim.split(Mbim.DONE, asked.number, client.longest, body), lambda: client.settle(asked), asked)
        if draw.random() < 0.1 and self.run.hostile and len(body) < 3000:
            self.stray(*Mbim.split(Mbim.DONE, number, 4096, body))

    def late(self, asked):
        return Mbim.split(Mbim.DONE, asked.theirs, 4096, Mbim.done(asked.uuid, asked.cid, 0, tag(asked.client.name, asked.serial)))

    def spoil(self, asked):
        """Its answer comes in fragments that don't follow each other, so none comes."""
        if self.run.hostile:
            body = Mbim.done(asked.uuid, asked.cid, 0, bytes(200))
            first, second, third = Mbim.split(Mbim.DONE, asked.theirs, 120, body)[:3]
            self.stray(*self.draw.choice(((first, first), (second,), (first, third), (first, Mbim.fragment(Mbim.DONE, asked.theirs + 1, 3, 1, b"x")))))

    def stray_to(self, number):
        """What nearly answers a command."""
        body = Mbim.done(self.SERVICES[0], 1, 0, b"abcd")
        self.stray(self.draw.choice((
            Mbim.plain(Mbim.OPEN_DONE, number, 0),
            Mbim.plain(Mbim.ERROR, number, 1) [:4] + u32(17) + u32(number) + u32(1) + b"x",
            Mbim.plain(Mbim.CLOSE_DONE, number, 0),
            Mbim.fragment(Mbim.DONE, number, 1, 0, body + b"x"),
            Mbim.fragment(Mbim.DONE, number, 1, 0, body[:20]),
            Mbim.fragment(Mbim.DONE, number, 2, 1, body),
            Mbim.fragment(Mbim.DONE, number, 0, 0, body),
            Mbim.plain(Mbim.DONE, number, 1),
            Mbim.plain(Mbim.COMMAND, number, 1, 0),
        )))

    def indication(self, draw):
        """One that some may want: its service and CID, and its messages."""
        uuid = draw.choice(self.SERVICES + self.STARTING[:2]) if not self.run.flux else self.NOBODYS
        cid = draw.randint(1, 8)
        return uuid, cid, Mbim.indicated(uuid, cid, draw.randbytes(draw.randrange(1500 if draw.random() < 0.2 else 40)))

    def tells(self, uuid, cid, body):
        run = self.run
        clients = [client for client in run.good if client.open and not client.leaving and client.list & {(uuid, cid), (uuid, None)}]
        if any(client.bytes_due() > 50_000 for client in clients):
            return
        run.modem.push(*Mbim.split(Mbim.INDICATION, self.draw.choice((0, 7)), self.cut(), body))
        run.indications += 1
        for client in clients:
            client.gets(Mbim.split(Mbim.INDICATION, 0, client.longest, body))

    def harass(self):
        draw, modem = self.draw, self.run.modem
        what = draw.randrange(8)
        if what == 0 and (number := modem.far(0)):
            self.stray(*Mbim.split(Mbim.DONE, number, self.cut(), Mbim.done(self.SERVICES[0], 3, 0, draw.randbytes(draw.randrange(900)))))
        elif what == 1 and (asked := self.good_one_in_use()):
            self.stray_to(asked.theirs)
        elif what == 2:
            self.stray(*Mbim.split(Mbim.INDICATION, 0, self.cut(), Mbim.indicated(self.NOBODYS, 1, draw.randbytes(draw.randrange(900)))) * draw.randrange(1, 100))
        elif what == 3:
            self.stray(draw.choice((Mbim.fragment(Mbim.INDICATION, 0, 1, 0, Mbim.indicated(self.SERVICES[0], 1, b"abcd") + b"x"), Mbim.fragment(Mbim.INDICATION, 0, 3, 2, b""),
                                    Mbim.plain(Mbim.INDICATION, 0, 1), Mbim.fragment(Mbim.INDICATION, 0, 1, 0, b"short"))))
        elif what == 4:
            self.stray(Mbim.plain(draw.choice((7, 0x80000009, 0)), draw.randrange(2 ** 32), 1))
        else:
            self.tells(*self.indication(draw))

    def tells_something(self):
        lists = [client.list for client in self.run.good if client.open and client.list]
        if lists:
            uuid, cid = sorted(lists[0], key=str)[0]
            self.tells(uuid, cid or 1, Mbim.indicated(uuid, cid or 1, b"something"))
        else:
            self.run.turns(2)

    def half_message(self):
        return Mbim.fragment(Mbim.DONE, 1, 1, 0, bytes(300))[:self.draw.randrange(1, 300)]

    # ---- what happens to all ----

    def lost(self):
        self.is_open, self.last_list, self.pieces = False, None, []
        for client in self.run.good:
            client.open = False
            number = client.draw.randint(1, 2 ** 32 - 1)
            client.says(Mbim.fragment(Mbim.COMMAND, number, 1, 0, Mbim.command(self.SERVICES[0], 1, 0, b"")), Mbim.plain(Mbim.ERROR, number, 5))
            client.says(Mbim.plain(Mbim.OPEN, number, client.longest), Mbim.plain(Mbim.OPEN_DONE, number, 2))

    def back(self):
        run = self.run
        for client in run.good:
            self.in_flux(client)
            self.open_anew(client, lambda client=client: self.settled(client))
        run.until(lambda: all(client.open for client in run.good), "each program opens the device again")

    def ends(self):
        def is_merged():
            return self.last_list == set(Mbim.normal([pair for client in self.run.good for pair in client.list]))
        self.run.until(is_merged, "the modem was last asked for the list of all programs that are there", 20)

    def asks_much(self):
        configuration = Mbim.fragment(Mbim.COMMAND, 1, 1, 0, Mbim.configuration())
        commands = [Mbim.fragment(Mbim.COMMAND, number, 1, 0, Mbim.command(self.SERVICES[0], 1, 0, tag(0, number, FOE))) for number in range(1, 17)]
        return [configuration, Mbim.plain(Mbim.OPEN, 2, 4096), *commands]

    def asks_in_vain(self, client):
        self.command(client, Mbim.command(self.SERVICES[0], 1, 0, b""), 1)

    # ---- hostile programs ----

    def answer_foe(self, space, number, messages):
        draw = self.draw
        if Mbim.kind(messages[0]) == Mbim.OPEN:
            return
        uuid = messages[0][20:36]
        buffer = draw.randbytes(draw.randrange(300 if draw.random() < 0.95 else 50000))
        self.run.modem.push(*Mbim.split(Mbim.DONE, number, self.cut(), Mbim.done(uuid, draw.randrange(9), draw.randrange(3), buffer)))

    def request_of_foe(self, foe):
        draw, number = foe.draw, foe.draw.randrange(2 ** 32)
        body = Mbim.command(draw.choice(self.SERVICES + [self.NOBODYS]), draw.randrange(60), draw.randint(0, 1), tag(0, number % 1000, FOE) + draw.randbytes(draw.randrange(9000)))
        return self.fragments(draw, Mbim.COMMAND, number, body)

    def arm(self, foe):
        draw = foe.draw
        foe.what = self.kind_of_foe(draw)
        line = foe.line
        opening = Mbim.fragment(Mbim.COMMAND, 1, 1, 0, Mbim.configuration()) + Mbim.plain(Mbim.OPEN, 2, draw.choice((0, 64, 4096)))
        if foe.what == "garbage":
            while Mbim.size(garbage := draw.randbytes(draw.randint(8, 3000))) != 0:
                pass
            line.out += garbage
            foe.must_end = time.monotonic() + 20
        elif foe.what == "bad length":
            line.out += opening + draw.choice(Mbim.BAD) + draw.randbytes(draw.randrange(3000))
            foe.must_end = time.monotonic() + 20
        elif foe.what == "deaf":
            line.out += opening
            foe.reads, foe.must_end = False, time.monotonic() + 40
            foe.goes_on = lambda: line.out.extend(Mbim.plain(Mbim.OPEN, 5) * 500)
        elif foe.what == "floods":
            line.out += opening
            foe.goes_on = lambda: line.out.extend(b"".join(draw.choice((Mbim.plain(Mbim.CLOSE, 1, 1), Mbim.plain(9, 1), Mbim.plain(Mbim.OPEN, 9))) for _ in range(20)))
        elif foe.what == "slow":
            line.most = 1
            foe.asks(opening + Mbim.fragment(Mbim.COMMAND, 3, 1, 0, Mbim.command(self.NOBODYS, 1, 1, tag(0, 3, FOE) + draw.randbytes(200))))
            foe.leaves_at += 10
        elif foe.what == "strangers":
            foe.goes_on = lambda: line.out.extend(draw.choice((Mbim.plain(Mbim.CLOSE, 3), Mbim.plain(Mbim.OPEN, 4, 64), Mbim.fragment(Mbim.COMMAND, 5, 1, 0, Mbim.command(self.NOBODYS, 1, 0, b"")))))
        elif foe.what == "half closed":
            line.out += opening + Mbim.plain(9, 1) * draw.randrange(50)
            foe.must_end = time.monotonic() + 20
            foe.goes_on = lambda: foe.half_close()
        elif foe.what == "fragments":
            line.out += opening
            part = draw.randbytes(draw.randrange(4000))
            foe.goes_on = lambda: line.out.extend(draw.choice((
                Mbim.fragment(Mbim.COMMAND, 7, draw.randrange(9), draw.randrange(9), part),
                b"".join(Mbim.fragment(Mbim.COMMAND, 8, 17, at, bytes(4000)) for at in range(17)),
                Mbim.fragment(Mbim.COMMAND, 9, 2 ** 32 - 1, 0, part))))
        elif foe.what == "lists":
            line.out += opening
            structure = self.SERVICES[0] + u32(8000) + b"".join(u32(at % 40) for at in range(8000))
            references = b"".join(u32(4 + 8 * 4000) + u32(len(structure)) for _ in range(4000))
            shared = (u32(4000) + references + structure)[:65000]
            foe.goes_on = lambda: line.out.extend(self.fragments(draw, Mbim.COMMAND, 6, Mbim.command(Mbim.BASIC_CONNECT, Mbim.LIST, 1, draw.choice((
                shared, Mbim.list_buffer([(draw.choice(self.SERVICES), draw.sample(range(30), draw.randrange(20))) for _ in range(2)]), draw.randbytes(draw.randrange(300)), u32(2 ** 32 - 1))))))
        elif foe.what == "openers":
            foe.goes_on = lambda: line.out.extend(opening + Mbim.plain(Mbim.CLOSE, 3))
        else:
            line.out += opening
            foe.goes_on = lambda: self.goes_on(foe)
            if foe.what == "vanish":
                foe.cut = draw.randint(1, 20000)

    def goes_on(self, foe):
        if foe.draw.random() < 0.05 and foe.can_ask(0):
            foe.asks(self.request_of_foe(foe))


PLAYS = {"qmi": QmiPlay, "mbim": MbimPlay}
