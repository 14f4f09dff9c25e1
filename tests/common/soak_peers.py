"""The peers of tests/soak. Each makes random requests to a service, knows the right answer, and keeps what was answered."""

import contextlib
import json
import random
import socket
import struct
import time

from common.checks import check, trying
from inputs import service_rows as rows
from inputs.service_rows import CONFLICT, UNPROCESSABLE, json_answer, refused
from oracles.soak_model import COUNT, HEADER, OTHER_COUNT, Job, Meter, Register, date_text, day_records, stated_details

METERS, PERIODS, VALUES = 3, 20, [number * 12_500 for number in range(-20, 500)]
FIRST_DAY, FIRST_HOLIDAY, HOLIDAYS = 19_000, 40_000, 3_000
# Updates: those that are later than all before, and two kinds of earlier ones.
LATER, EARLIER, STALE = 1_720_000_000, 1_710_000_000, 1

# A peer that takes so many seconds to send a request may be dropped, as on a busy machine.
LATE = 0.8

# Requests that change nothing, whatever the store has: their bytes and their answers. There is no answer if the input ends too early.
RUBBISH = [(rows.encoded(sent), wanted) for sent, wanted in rows.BODIES + rows.ROUTES + rows.NO_HEADS + rows.PATHS
           if not wanted.startswith("HTTP/1.1 200")]
RUBBISH += [(f"GET {target} HTTP/1.1\r\nHost: x\r\n\r\n".encode(), wanted) for target, wanted in rows.QUERIES if wanted == rows.BAD]
RUBBISH += [(rows.encoded(rows.request(method, target, body)), wanted) for method, target, body, wanted in rows.POSTS
            if not wanted.startswith("HTTP/1.1 200")]
RUBBISH += [(b"GET /" + b"a" * 16_379, refused(rows.HEAD_TOO_LONG)), (bytes(range(256)) * 20, rows.BAD)]


class Wrong(Exception):
    """Something was wrong, and was printed. The soak ends."""


def post(target, body):
    return f"POST {target} HTTP/1.1\r\nHost: x\r\nContent-Length: {len(body)}\r\n\r\n".encode() + body.encode()


def get(target):
    return f"GET {target} HTTP/1.1\r\nHost: x\r\n\r\n".encode()


def is_whole(answer):
    """Whether the bytes are a whole answer."""
    head, end, body = answer.partition(b"\r\n\r\n")
    return bool(end) and len(body) == int(head.partition(b"Content-Length: ")[2].split()[0])


def talk(peer, data, ends, pause, leaves):
    """Sends bytes, and returns the answer and when all bytes were sent. The service may end at any time."""
    peer.setsockopt(socket.IPPROTO_TCP, socket.TCP_NODELAY, 1)
    half, answer = len(data) // 2 if pause else 0, b""
    with contextlib.suppress(ConnectionError):
        peer.sendall(data[:half])
        time.sleep(pause)
        peer.sendall(data[half:])
        if leaves == "reset":
            peer.setsockopt(socket.SOL_SOCKET, socket.SO_LINGER, struct.pack("ii", 1, 0))
        if ends:
            # A connection that was reset meanwhile has no side to end.
            with contextlib.suppress(OSError):
                peer.shutdown(socket.SHUT_WR)
    sent = time.monotonic()
    with contextlib.suppress(ConnectionError):
        while not leaves and (more := peer.recv(65536)):
            answer += more
    return answer, sent


class Change:
    """A request that changes what is kept: its bytes, its first answer, and its answer at each later time. `keep` keeps it in the model. `views`
    has the queries that show it, each with its answers before and after, if there are any."""

    def __init__(self, request, first, again, keep, views):
        self.request, self.first, self.again, self.keep, self.views = request, first.encode(), again.encode(), keep, views


class Peer:
    """A peer. It asks only for its own meters, jobs and holidays."""

    def __init__(self, number, lives, seed):
        self.number, self.lives, self.made = number, lives, random.Random(f"{seed} {number}")
        self.meters = [Meter(f"NEM{number}{place:06}") for place in range(METERS)]
        self.next_days = [FIRST_DAY] * METERS
        self.registers, self.jobs, self.holidays, self.done = [Register(f"NEM{number}900000")], [], [], []
        self.updates, self.job_names = 0, 0
        self.acts, self.weights = zip(*[
            (self.new_days, 22), (self.correction, 10), (self.partly_known, 3), (self.repeat, 10), (self.conflict, 4), (self.faulty, 4),
            (self.job, 10), (self.reused_job, 1), (self.list_days, 3), (self.period, 3), (self.ask_day, 6), (self.ask_versions, 3),
            (self.ask_range, 5), (self.ask_missing, 1), (self.ask_export, 3), (self.ask_streams, 1), (self.ask_periods, 1), (self.rubbish, 5),
            (self.break_off, 4), (self.go_away, 3), (self.hold_up, 0.04)])

    def run(self):
        """Makes requests until all peers together have made enough."""
        for place in range(METERS):
            self.put(self.file_change(place, self.made_days(place, 3)))
        while not self.lives.is_over():
            [act] = self.made.choices(self.acts, self.weights)
            act()

    # Connections.

    def exchange(self, data, ends=False, pause=0, leaves=None):
        """The answer to these bytes, and the life of the service in which it came. It is None if the peer was so late that it may have been
        dropped. The peer may end its side after the bytes, rest within them, or leave without an answer, by a close or by a reset."""
        trying("bytes to the service", data)
        while True:
            life, began = self.lives.wait(), time.monotonic()
            try:
                peer = socket.create_connection(("127.0.0.1", self.lives.port), timeout=60)
            except ConnectionError:
                self.hold(f"peer {self.number} can't connect", self.lives.is_ended(life), True)
                continue
            with peer:
                answer, sent = talk(peer, data, ends, pause, leaves)
            self.lives.count(answer)
            return answer, life if sent - began < LATE else None

    def hold(self, what, got, wanted):
        """Ends the soak if a value isn't the expected one. Once the soak ends nothing more is printed."""
        if got != wanted:
            if not self.lives.is_stopped:
                check(what, got, wanted)
            raise Wrong

    def hold_part(self, request, answer, whole, life):
        """Checks that an answer is a part of the whole one, and that the service was ended meanwhile, or that the peer was late."""
        what = f"{request[:300]} of peer {self.number}, in life {life} of {self.lives.number}"
        self.hold(what, answer if self.lives.is_ended(life) and whole.startswith(answer) else (answer,), answer)

    def ask(self, request, wanted, **how):
        """Checks the answer to a request that changes nothing. If the service is ended meanwhile, the request is made again."""
        while True:
            answer, life = self.exchange(request, **how)
            if answer == wanted.encode():
                return
            self.hold_part(request, answer, wanted.encode(), life)

    def put(self, change, leaves=None, pause=0):
        """Makes a change, and keeps it."""
        answer, life = self.exchange(change.request, leaves=leaves, pause=pause)
        if answer != change.first:
            if not leaves:
                self.hold_part(change.request, answer, change.first, life)
            self.settle(change, answer, leaves == "close", life)
        change.keep()
        self.done.append(change)

    def settle(self, change, answer, came_whole, life):
        """Finds out whether a change was made if its answer isn't known, and else makes it. It was made if a part of its answer came, or if all
        its bytes came to a service that answered later requests."""
        is_made = self.is_made(change)
        must = bool(answer) or came_whole and not self.lives.is_ended(life)
        self.hold(f"{change.request[:300]} of peer {self.number} was made", is_made is False and must, False)
        self.lives.note_unsure(is_made)
        allowed = [change.again] if must else [change.first, change.again] if is_made is None else [change.first]
        while not is_made:
            answer, life = self.exchange(change.request)
            if answer in allowed:
                return
            self.hold_part(change.request, answer, change.first, life)
            allowed = [change.first, change.again]

    def is_made(self, change):
        """Whether a change was made, by its queries: all of them show it, or none. None if the change has no queries."""
        shown = set()
        for request, before, after in change.views():
            answer, life = self.exchange(request)
            while answer not in (before.encode(), after.encode()):
                self.hold_part(request, answer, (before if before.encode().startswith(answer) else after).encode(), life)
                answer, life = self.exchange(request)
            shown.add(answer == after.encode())
        self.hold(f"{change.request[:300]} of peer {self.number} is there in part", len(shown) > 1, False)
        return shown.pop() if shown else None

    # Changes.

    def later(self):
        """An update that is later than all before it."""
        self.updates += 1
        return LATER + self.updates

    def earlier(self):
        """An update that no other day has, before all later ones."""
        self.updates += 1
        return EARLIER + self.updates

    def count(self):
        """How many intervals a day has under an update. One time in ten it is another number."""
        return OTHER_COUNT if self.made.random() < 0.1 else COUNT

    def actual(self, count):
        """Actual readings of so many intervals."""
        return [("A", "", "", value) for value in self.made.choices(VALUES, k=count)]

    def made_readings(self):
        """The readings of a day. Most are actual, and some of them, or all, are null, estimated or substituted."""
        form, readings = self.made.random(), self.actual(self.count())
        if form < 0.65:
            return readings
        null, first, last = [("N", "", "", None)] * len(readings), self.made.randint(1, 24), self.made.randint(25, 47)
        if form < 0.8:
            return null
        if form < 0.9:
            return readings[:first] + null[first:last] + readings[last:]
        mark = self.made.choice(["E52", "S14", "F14"]), "76", ""
        return readings[:first] + [(*mark, value) for *_, value in readings[first:]]

    def made_days(self, place, count):
        """`count` new days of a meter, after those that are known."""
        first = self.next_days[place]
        return {first + number: (self.later(), self.made_readings()) for number in range(count)}

    def file_of(self, meter, days):
        """A file of days, each after the record of its meter."""
        return HEADER + "".join(meter.block(stated_details(number), len(day[1])) + day_records(number, *day)
                                for number, day in days.items()) + "900\n"

    def file_change(self, place, days, known=()):
        """The change that a file of days makes. Some of the days may be known under their updates."""
        meter = self.meters[place]
        after = {number: meter.day(number).with_readings(*day) for number, day in days.items() if number not in known}
        counts = {number: len(readings) for number, (_, readings) in days.items()}
        count, count_known = sum(counts.values()), sum(counts[number] for number in known)

        def keep():
            meter.days.update(after)
            meter.stated.update(days)
            self.next_days[place] = max(self.next_days[place], 1 + max(days))

        def views():
            return [view for number, day in after.items() for view in self.views_of(meter, number, day, [1, counts[number]])]

        return Change(post("/v1/imports", self.file_of(meter, days)), json_answer(added=count - count_known, known=count_known),
                      json_answer(added=0, known=count), keep, views)

    def views_of(self, meter, number, day, intervals):
        """The queries for the versions of some intervals. They show whether a day has become another one."""
        return [(get(meter.target(number, interval)), meter.versions_answer(number, interval), meter.versions_answer(number, interval, day))
                for interval in intervals]

    def any_meter(self):
        """The number of a random meter."""
        return self.made.randrange(METERS)

    def new_days(self):
        place = self.any_meter()
        self.put(self.file_change(place, self.made_days(place, self.made.choice([1, 1, 1, 2, 3]))), pause=self.rest())

    def rest(self):
        """For how long a peer rests within a request. It rarely does."""
        return self.made.choice([0] * 49 + [0.01])

    def known_days(self, place, count):
        """Up to so many known days of a meter."""
        return self.made.sample(sorted(self.meters[place].days), min(count, len(self.meters[place].days)))

    def correction(self):
        """Other readings of days, under a later update or an earlier one."""
        place = self.any_meter()
        days = {number: (self.made.choice([self.later, self.earlier])(), self.made_readings()) for number in self.known_days(place, 2)}
        self.put(self.file_change(place, days))

    def whole_update(self, place):
        """A day, with an update of it that has all its readings."""
        [number] = self.known_days(place, 1)
        updates = [it for it in self.meters[place].day(number).updates.items() if all(it[1])]
        return number, self.made.choice(updates) if updates else None

    def partly_known(self):
        """A file with a known day, and a new one."""
        place = self.any_meter()
        number, update = self.whole_update(place)
        if update:
            self.put(self.file_change(place, {number: update, **self.made_days(place, 1)}, [number]))

    def repeat(self):
        change = self.made.choice(self.done)
        self.ask(change.request, change.again.decode(), pause=self.rest())

    def conflict(self):
        """A file with a new day, and with another value of an interval under a known update, or with another length."""
        place = self.any_meter()
        number, update = self.whole_update(place)
        new_day = {self.next_days[place]: (self.later(), self.actual(COUNT))}
        if not update or any(it[0] != "A" for it in update[1]):
            return
        interval = self.made.randint(1, len(update[1]))
        other, refusal = list(update[1]), {"error": "M3", "interval": interval, "line": 5}
        other[interval - 1] = ("A", "", "", other[interval - 1][3] + 1)
        if self.made.random() < 0.3:
            other, refusal = self.actual(COUNT + OTHER_COUNT - len(other)), {"error": "M1", "line": 5}
        file = self.file_of(self.meters[place], {**new_day, number: (update[0], other)})
        self.ask(post("/v1/imports", file), refused(CONFLICT, **refusal))

    def faulty(self):
        """A faulty file of a new day: without an end, with another first line, with a wrong value, or with a line that is too long."""
        place = self.any_meter()
        day = {self.next_days[place]: (self.later(), self.actual(COUNT))}
        file, field = self.file_of(self.meters[place], day), self.made.randint(3, COUNT + 2)
        lines = file.split("\n")
        parts = lines[2].split(",")
        parts[field - 1] += "x"
        text, fault = self.made.choice([
            (file.removesuffix("900\n"), {"error": "L9", "line": 4}), (file.replace("100,", "101,", 1), {"error": "L2", "line": 1}),
            (HEADER + file, {"error": "L3", "line": 2}), (file.replace(lines[2], ",".join(parts)), {"error": "L5", "field": field, "line": 3}),
            (file + "x" * 16_385, {"error": "L10", "line": 5})])
        self.ask(post("/v1/imports", text), refused(UNPROCESSABLE, **fault))

    def made_job(self):
        """A job of the length that its day has, or rarely of any length."""
        place = self.any_meter()
        number = self.made.randint(FIRST_DAY, self.next_days[place] + 3)
        count = self.count() if self.made.random() < 0.2 else self.meters[place].day(number).count()
        first = self.made.randint(1, count - 3)
        update = STALE if self.made.random() < 0.1 else self.later()
        self.job_names += 1
        return Job(f"J{self.number}-{self.job_names}", self.meters[place], number, count, first, first + self.made.randrange(4),
                   self.made.choice([14, 19]), self.made.choice("SFE"), update)

    def job(self):
        """A random job: it is done, or refused because of what its day has."""
        job = self.made_job()
        request, refusal = post("/v1/substitutions", json.dumps({"id": job.name, **job.members()})), job.refusal()
        if refusal:
            self.ask(request, refusal)
            return
        after = job.meter.day(job.number).with_readings(job.update, job.readings())

        def keep():
            job.meter.days[job.number] = after
            self.jobs.append(job)

        def views():
            return self.views_of(job.meter, job.number, after, {job.first, job.last})

        self.put(Change(request, json_answer(count=job.count(), known=False), json_answer(count=job.count(), known=True), keep, views))

    def reused_job(self):
        """Another job under the id of one that was done."""
        if self.jobs:
            job = self.made.choice(self.jobs)
            text = json.dumps({"id": job.name, **job.members(), "text": "other"})
            self.ask(post("/v1/substitutions", text), refused(CONFLICT, error="M4"))

    def list_days(self):
        """Some new holidays, and some known ones. No query shows them."""
        known = self.made.sample(self.holidays, min(2, len(self.holidays)))
        first = FIRST_HOLIDAY + self.number * HOLIDAYS + len(self.holidays)
        new = list(range(first, first + self.made.randint(1, 3)))
        text = "date\n" + "".join(f"{date_text(number)}\n" for number in known + new + new)
        self.put(Change(post("/v1/holidays", text), json_answer(added=len(new), known=len(known)), json_answer(added=0, known=len(known) + len(new)),
                        lambda: self.holidays.extend(new), list))

    def period(self):
        """An accumulation, now and then of a new meter."""
        if len(self.registers[-1].periods) == PERIODS:
            self.registers.append(Register(f"NEM{self.number}9{len(self.registers):05}"))
        register = self.registers[-1]
        fields = register.new_fields(self.made.choice(VALUES), self.later())

        def views():
            return [(get(f"/v1/periods/{register.nmi}/11"), register.answer(register.periods), register.answer([*register.periods, fields]))]

        self.put(Change(post("/v1/imports?kind=nem13", register.file(fields)), json_answer(added=1, known=0), json_answer(added=0, known=1),
                        lambda: register.periods.append(fields), views))

    # Questions.

    def ask_day(self):
        """A day, rarely one that isn't known."""
        place = self.any_meter()
        number = self.made.randint(FIRST_DAY, self.next_days[place] + 1)
        self.ask(get(self.meters[place].target(number)), self.meters[place].day_answer(number))

    def ask_versions(self):
        """The versions of an interval of a known day, rarely of one that the day has under no update."""
        meter = self.meters[self.any_meter()]
        number = self.made.choice(sorted(meter.days))
        interval = self.made.randint(1, meter.day(number).greatest_count() + 1)
        self.ask(get(meter.target(number, interval)), meter.versions_answer(number, interval))

    def any_range(self, place):
        """A range of days, and the part of a query for it."""
        first = self.made.randint(FIRST_DAY - 2, self.next_days[place] + 2)
        last = first + self.made.randrange(12)
        return first, last, f"nmi={self.meters[place].nmi}&suffix=E1&from={date_text(first)}&to={date_text(last)}"

    def ask_range(self):
        place = self.any_meter()
        first, last, query = self.any_range(place)
        meter = self.meters[place]
        name, wanted = self.made.choice([("gaps", meter.gaps_answer), ("finals", meter.finals_answer), ("readings", meter.readings_answer)])
        self.ask(get(f"/v1/{name}?{query}"), wanted(first, last))

    def ask_missing(self):
        """The gaps of all streams in a few days, now and then since a day. Only those of this peer are looked at."""
        place = self.any_meter()
        first, last = self.next_days[place] - 3, self.next_days[place]
        since = self.made.choice([None, 0, last - 1, last])
        request = get(f"/v1/missing?from={date_text(first)}&to={date_text(last)}" + ("" if since is None else f"&since={date_text(since)}"))
        wanted = "".join(it.gap_rows(first, last) for it in self.meters if since is None or max(it.days) >= since)
        while True:
            answer, life = self.exchange(request)
            if is_whole(answer):
                head, *gaps = answer.partition(b"\r\n\r\n")[2].decode().splitlines(True)
                own = "".join(it for it in gaps if it.startswith(f"NEM{self.number}"))
                self.hold(f"the gaps of peer {self.number}", (head, own), (rows.GAPS_HEAD, wanted))
                days = [it.split(",")[:3] for it in gaps]
                self.hold("the order of all gaps", days, sorted(days))
                return
            self.hold_part(b"missing", answer, answer, life)

    def ask_export(self):
        place = self.any_meter()
        first, last, query = self.any_range(place)
        self.ask(get(f"/v1/exports/nem12?{query}&moment=202401030000&sender=MDP1&receiver=RETAILER"), self.meters[place].export_answer(first, last))

    def streams(self):
        """The streams of this peer, as they are answered, with the details of their last days."""
        known = [rows.stream(meter.nmi, "E1", *meter.details(max(meter.days))) for meter in self.meters]
        return known + [rows.stream(register.nmi, "11") for register in self.registers if register.periods]

    def ask_streams(self):
        """The streams. Only those of this peer are looked at."""
        while True:
            answer, life = self.exchange(get("/v1/streams"))
            if is_whole(answer):
                streams = json.loads(answer.partition(b"\r\n\r\n")[2])["streams"]
                own = [it for it in streams if it["nmi"].startswith(f"NEM{self.number}")]
                self.hold(f"the streams of peer {self.number}", own, self.streams())
                return
            self.hold_part(b"streams", answer, answer, life)

    def ask_periods(self):
        register = self.made.choice(self.registers)
        self.ask(get(f"/v1/periods/{register.nmi}/11"), register.answer(register.periods))

    # Wrong requests.

    def rubbish(self):
        self.ask(*self.made.choice(RUBBISH), ends=True)

    def break_off(self):
        """A file of a new day that ends too early, in its head or its body. Nothing of it is kept."""
        place = self.any_meter()
        request = self.file_change(place, self.made_days(place, 1)).request
        part = request[:self.made.choice([self.made.randrange(80), self.made.randrange(len(request))])]
        leaves = self.made.choice(["close", "reset", None])
        if leaves:
            self.exchange(part, leaves=leaves)
        else:
            self.ask(part, "", ends=True)

    def go_away(self):
        """A file of a new day. The peer doesn't wait for the answer."""
        place = self.any_meter()
        self.put(self.file_change(place, self.made_days(place, 1)), leaves=self.made.choice(["close", "reset"]))

    def hold_up(self):
        """A peer that sends nothing, or a part of a head, and waits until it is dropped."""
        self.ask(self.made.choice([b"", b"GET /v1/streams HTTP/1.1\r\nHost"]), "")

    def ask_again(self, count):
        """Checks that changes which were made are known, `count` of them."""
        for change in self.made.sample(self.done, min(count, len(self.done))):
            self.ask(change.request, change.again.decode())
        self.ask_streams()
