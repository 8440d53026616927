#!/usr/bin/env python3
"""Kills the proved program again and again, and looks into the folders as an administrator would.

A pipe feeds a session of several messages, some of which were sent before, and SIGKILL ends it at a random moment: before
the greeting, in its commands, in a content, or in the turn behind the session. Right after it, nothing is in the folders
twice, and nothing that wasn't sent. Then a session of QUIT alone is run, and each message that was told 250 is in each of
its recipients' folders once. A message whose reply nobody read is in all of them once or in none, and in all once when it
is sent again. A number stays with its message. The system goes on, so this is no power cut: what was written is there.

usage: tests/kill.py [SEED]    the same seed makes the same messages and moments, as far as the machine keeps time
"""
import collections
import concurrent.futures
import contextlib
import itertools
import os
import pathlib
import random
import re
import select
import signal
import subprocess
import sys
import tempfile
import time

ROOT = pathlib.Path(__file__).resolve().parent.parent
PROGRAM = ROOT / "crates/transport_cli/out/transport_cli"
GREETING = b"220 hub.invalid mail hub ready"
CLOSING = b"221 hub.invalid closing"
ACCEPTED = re.compile(rb"250 Accepted (\d+)")
KEYS = [b"bob@example.com", b"cyn@example.com", b"dan@example.com", b"zed@example.net"]
# Kills over one hub, and over each of so many fresh ones one.
ROUNDS, FRESH = 100, 100
# Hubs that are tried at once.
ASIDE = 4
# The messages of a session.
MESSAGES = 5
LIMIT = 60

# What a client says in one go, the one reply that it is told, and the message whose content it is. Its reply has a number.
Piece = collections.namedtuple("Piece", "octets reply message", defaults=(None,))
QUIT = Piece(b"QUIT\r\n", CLOSING)
# When a session is killed: so long after so many of its octets were taken and so many replies were read. It is given so many.
Moment = collections.namedtuple("Moment", "given taken replies delay")


class Message:
    """A message with an id of its own, and its envelope."""

    def __init__(self, number, chance):
        self.id = number
        self.keys = chance.sample(KEYS, chance.randint(1, 3))
        size = chance.choice((0, 1, 3, 3, 10, 10, 1500))
        lines = b"".join(chance.choice((b"Hello\r\n", b".\r\n", b"..two dots\r\n", b"x" * 70 + b"\r\n")) for _ in range(size))
        self.content = b"Message-Id: <%d@example.com>\r\nSubject: %d\r\n\r\n" % (number, number) + lines

    def pieces(self):
        yield Piece(b"MAIL FROM:<ann@example.com>\r\n", b"250 OK")
        # The first recipient is named twice, and has the message once.
        for key in [*self.keys, self.keys[0].upper()]:
            yield Piece(b"RCPT TO:<%s>\r\n" % key, b"250 OK")
        yield Piece(b"DATA\r\n", b"354 End data with a dot line")
        stuffed = b"".join(b"." * line.startswith(b".") + line for line in self.content.splitlines(True))
        yield Piece(stuffed + b".\r\n", None, self)


def spoken(messages):
    return [Piece(b"HELO c\r\n", b"250 hub.invalid"), *(it for message in messages for it in message.pieces()), QUIT]


class Session:
    """A run of the program by a pipe. Its client waits for each reply, or for none."""

    def __init__(self, folder, pieces, waits):
        self.pieces, self.waits = pieces, waits
        self.text = b"".join(piece.octets for piece in pieces)
        self.ends = [0, *itertools.accumulate(len(piece.octets) for piece in pieces)]
        self.taken, self.told = 0, b""
        # when the moment's replies were read
        self.begun = 0
        how = {"stdin": subprocess.PIPE, "stdout": subprocess.PIPE, "cwd": folder, "bufsize": 0}
        self.process = subprocess.Popen([PROGRAM, "session"], **how)
        os.set_blocking(self.process.stdin.fileno(), False)

    def read(self):
        """How many replies were read."""
        return self.told.count(b"\n")

    def given(self):
        """How many octets a client may have given that waits for each reply."""
        return self.ends[min(self.read(), len(self.pieces))] if self.waits else len(self.text)

    def give(self, most):
        with contextlib.suppress(BrokenPipeError, BlockingIOError):
            self.taken += os.write(self.process.stdin.fileno(), self.text[self.taken:most])

    def go_on(self, most, left):
        """Waits so long for the program to read or write, and does the other part. Whether anything was done, and its end."""
        givers = [self.process.stdin] if self.taken < most else []
        can_read, can_give, _ = select.select([self.process.stdout], givers, [], left)
        if can_give:
            self.give(most)
        told = os.read(self.process.stdout.fileno(), 65536) if can_read else None
        self.told += told or b""
        return bool(can_read or can_give), told == b""

    def speak(self, moment):
        """Speaks until the moment has come. Whether it came before the program's end."""
        end = None
        while True:
            if end is None and self.taken >= moment.taken and self.read() >= moment.replies:
                self.begun = time.perf_counter()
                end = self.begun + moment.delay
            left = LIMIT if end is None else end - time.perf_counter()
            if left <= 0:
                return True
            done, ended = self.go_on(min(moment.given, self.given()), left)
            if ended:
                return False
            if end is None and not done:
                raise TimeoutError(f"the program is silent behind {self.told!r:.400}")

    def kill_at(self, moment):
        with self.process:
            if self.speak(moment):
                self.process.kill()
                self.told += self.process.stdout.read()
        return self

    def sent(self):
        """The messages that were taken to their ends."""
        return [piece.message for piece, end in zip(self.pieces, self.ends[1:]) if piece.message and end <= self.taken]

    def where(self):
        """Where the program was, as its client saw it."""
        if self.process.returncode == 0:
            return "too late"
        last = self.told.split(b"\r\n")[-2:][0]
        return {b"": "before the greeting", CLOSING: "in the turn"}.get(last, "in a content" if last.startswith(b"354") else "between")


class Hub:
    """A hub's folder, and what its client knows."""

    def __init__(self, folder, chance, times):
        self.folder, self.chance = folder, chance
        self.messages, self.sent, self.answered = [], set(), set()
        # each message's number, and each number's message
        self.numbers, self.named = {}, {}
        self.where = collections.Counter()
        # seconds that a session of QUIT takes, a whole one, and what follows its last reply
        self.opening, self.life, self.turn = times

    def new(self, count):
        made = [Message(len(self.messages) + more, self.chance) for more in range(count)]
        self.messages += made
        return made

    def number(self, message, number):
        """A message has this number, and no other message has."""
        if self.numbers.setdefault(message, number) != number or self.named.setdefault(number, message) != message:
            yield f"message {message.id} has the number {number}, and had {self.numbers[message]}"

    def replies(self, pieces, told):
        """Whether these are the first of the replies that are wanted."""
        lines = told.split(b"\r\n")[:-1]
        for line, piece in zip(lines, [Piece(b"", GREETING), *pieces]):
            accepted = ACCEPTED.fullmatch(line)
            if piece.message and accepted:
                self.answered.add(piece.message)
                yield from self.number(piece.message, int(accepted[1]))
            elif line != piece.reply:
                yield f"told {line!r} to {piece.octets[-80:]!r}"
        if len(lines) > len(pieces) + 1:
            yield f"told {lines[len(pieces) + 1:]}"

    def look(self, all_there):
        """What is wrong in the folders. When all is there, nothing waits, and a message that was told 250 is in each of its folders."""
        shelf = pathlib.Path(self.folder, "hub/shelf")
        by_content = {message.content: message for message in self.messages}
        found = collections.Counter()
        if all_there:
            yield from (f"{path.relative_to(shelf)} is no item" for path in shelf.glob("*/*") if path.suffix != ".eml")
        for path in sorted(shelf.glob("*/*.eml")):
            message, key = by_content.get(path.read_bytes()), os.fsencode(path.parent.name)
            if message not in self.sent or key not in message.keys:
                yield f"{path.relative_to(shelf)} isn't what was sent there"
                continue
            found[message, key] += 1
            number, release, place = path.stem.split("-")
            yield from self.number(message, int(number))
            if (int(release), int(place)) != (0, message.keys.index(key)):
                yield f"{path.relative_to(shelf)} has another name"
        for message in self.messages:
            counts = [found[message, key] for key in message.keys]
            if max(counts) > 1 or all_there and (min(counts) != max(counts) or min(counts) == 0 and message in self.answered):
                yield f"message {message.id} is in its folders so often: {counts}, answered {message in self.answered}"

    def kills(self):
        return sum(self.where.values()) - self.where["too late"]

    def moment(self, pieces):
        """A random moment of a session."""
        chance = self.chance
        all_octets, all_replies = sum(len(piece.octets) for piece in pieces), len(pieces) + 1
        some_octets, some_replies = chance.randrange(all_octets), chance.randint(1, all_replies)
        return chance.choice((
            Moment(all_octets, 0, 0, chance.uniform(0, self.life)),
            Moment(some_octets, some_octets, 1, chance.uniform(0, self.life / 4)),
            Moment(all_octets, 0, some_replies, chance.expovariate(2000)),
            Moment(all_octets, all_octets, all_replies, chance.uniform(0, self.turn)),
        ))

    def killed(self, pieces, moment):
        """Kills a session, and looks what it left."""
        session = Session(self.folder, pieces, self.chance.random() < 0.5).kill_at(moment)
        if session.process.returncode not in (0, -signal.SIGKILL):
            yield f"a session ended by itself with status {session.process.returncode}"
        self.where[session.where()] += 1
        self.sent.update(session.sent())
        yield from self.replies(pieces, session.told)
        yield from self.look(False)

    def whole(self, pieces):
        """A session that is left alone, after which nothing waits."""
        self.sent.update(piece.message for piece in pieces if piece.message)
        said = b"".join(piece.octets for piece in pieces)
        begin = time.perf_counter()
        run = subprocess.run([PROGRAM, "session"], input=said, capture_output=True, cwd=self.folder, timeout=LIMIT)
        took = time.perf_counter() - begin
        yield from self.replies(pieces, run.stdout)
        if run.returncode != 0 or run.stdout.count(b"\n") != len(pieces) + 1:
            yield f"a whole session: {run}"
        yield from self.look(True)
        return took

    def again(self):
        """A session of messages that weren't answered, one that was, and new ones, in any order. One is sent twice."""
        left = [message for message in self.messages if message not in self.answered]
        answered = [message for message in self.messages if message in self.answered]
        picked = left[:MESSAGES - 2] + self.chance.sample(answered, min(len(answered), 1))
        picked += self.new(MESSAGES - len(picked))
        picked.append(self.chance.choice(picked))
        self.chance.shuffle(picked)
        return spoken(picked)

    def round(self):
        """Kills a session, now and then the one behind it too, and then runs one of QUIT alone."""
        pieces = self.again()
        yield from self.killed(pieces, self.moment(pieces))
        if self.chance.random() < 0.25:
            yield from self.killed([QUIT], Moment(len(QUIT.octets), 0, 0, self.chance.uniform(0, self.opening)))
        self.opening = yield from self.whole([QUIT])

    def last(self):
        """All is sent again, and is there once."""
        yield from self.whole(spoken(self.messages))
        yield from (f"message {message.id} wasn't answered" for message in self.messages if message not in self.answered)


def timed(chance):
    """The seconds of a session of QUIT alone, of one of some messages, and of what follows its last reply."""
    def seconds(pieces, replies):
        octets = sum(len(piece.octets) for piece in pieces)
        with tempfile.TemporaryDirectory() as folder:
            run = Session(folder, pieces, False).kill_at(Moment(octets, 0, replies, LIMIT))
            return time.perf_counter() - run.begun
    # of the messages of a session, some were delivered before
    pieces = spoken([Message(number, chance) for number in range(MESSAGES - 2)])
    return seconds([QUIT], 0), seconds(pieces, 0), seconds(pieces, len(pieces) + 1)


def held(seed, rounds, times):
    """What is wrong of a hub that is killed so often, and where the kills were."""
    with tempfile.TemporaryDirectory() as folder:
        hub = Hub(folder, random.Random(seed), times)
        while hub.kills() < rounds:
            faults = list(hub.round())
            if faults:
                return faults, hub.where
        return list(hub.last()), hub.where


def main():
    if not PROGRAM.exists():
        sys.exit(f"kill: {PROGRAM.relative_to(ROOT)} isn't built")
    seed = int(sys.argv[1]) if sys.argv[1:] else random.SystemRandom().randrange(1000000)
    print(f"kill: seed {seed}", flush=True)
    times, where, failures = timed(random.Random(seed)), collections.Counter(), []
    with concurrent.futures.ThreadPoolExecutor(ASIDE) as pool:
        hubs = [pool.submit(held, f"{seed} {number}", rounds, times) for number, rounds in enumerate([ROUNDS] + [1] * FRESH)]
        for hub in hubs:
            faults, places = hub.result()
            failures += faults
            where += places
    for failure in failures:
        print(f"kill: {failure}")
    places = ", ".join(f"{count} {place}" for place, count in sorted(where.items()))
    print(f"kill: {'all as wanted' if not failures else f'{len(failures)} failed'} ({places})")
    sys.exit(1 if failures else 0)


main()
