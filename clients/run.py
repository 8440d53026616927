#!/usr/bin/env python3
"""Sends through the proved program with real mail clients, and compares its folders to what they sent.

    clients/run.py               drives each client that is there, over a hub in a folder of its own
    clients/run.py --serve PORT  serves the hub of the folder where it is called, until it is interrupted

Each connection to a port of this machine alone gets its own run of "transport_cli session", one connection at a time,
with the socket as the program's standard input and output. Where the first form is run as root on Debian, it installs
the clients that are missing. Those that can't be had are skipped, and the last line names them.
"""
import contextlib
import email.message
import fcntl
import os
import pathlib
import re
import select
import shutil
import signal
import smtplib
import socket
import struct
import subprocess
import sys
import tempfile
import threading

ROOT = pathlib.Path(__file__).resolve().parent.parent
PROGRAM = ROOT / "crates/transport_cli/out/transport_cli"
LIMIT = 30  # seconds for a client, and twice that for a session
SILENCE = 300  # seconds that a client may be silent (RFC 5321 section 4.5.3.2.7)
INSTALLING = 120  # seconds for one call of apt-get
PACKAGES = {"curl": "curl", "swaks": "swaks", "msmtp": "msmtp", "smtp-source": "postfix"}
PATH = os.environ.get("PATH", "") + ":/usr/sbin:/sbin"
SENDER, BOB, CYN = "ann@example.com", "bob@example.com", "cyn@example.com"
DOTS = b".one dot\r\n..two\r\n.\r\n"


# The program on a port


def session(connection, folder, limit=None):
    """One run of the program over a connection, and its exit status. A client that is silent for too long is left."""
    with connection:
        for way in (socket.SO_RCVTIMEO, socket.SO_SNDTIMEO):
            connection.setsockopt(socket.SOL_SOCKET, way, struct.pack("ll", SILENCE, 0))
        words = {"stdin": connection, "stdout": connection, "cwd": folder, "start_new_session": True}
        run = subprocess.Popen([PROGRAM, "session"], **words)
        try:
            return run.wait(limit)
        except subprocess.TimeoutExpired:
            return "none, it was stopped"
        except KeyboardInterrupt:
            # The program reads the end of its input, and delivers what it accepted.
            with contextlib.suppress(OSError, subprocess.TimeoutExpired):
                connection.shutdown(socket.SHUT_RD)
                run.wait(LIMIT)
            raise
        finally:
            run.kill()
            run.wait()


def serve(port):
    """Serves the hub of this folder. The lock of the folder keeps two programs from one log."""
    for number in (signal.SIGINT, signal.SIGTERM):
        signal.signal(number, signal.default_int_handler)
    try:
        fcntl.flock(os.open(".", os.O_RDONLY), fcntl.LOCK_EX | fcntl.LOCK_NB)
        listener = socket.create_server(("127.0.0.1", port))
    except BlockingIOError:
        sys.exit("clients: another program has the lock of this folder")
    except (OSError, OverflowError) as fault:
        sys.exit(f"clients: port {port}: {fault}")
    with listener, contextlib.suppress(KeyboardInterrupt):
        print(f"clients: serving 127.0.0.1:{port}", flush=True)
        while True:
            status = session(listener.accept()[0], ".")
            if status:
                print(f"clients: a session ended with status {status}", flush=True)


class Port:
    """A port that the system picks, on which a thread takes one connection after the other."""

    def __init__(self):
        self.leaving = threading.Event()

    def __enter__(self):
        self.listener = socket.create_server(("127.0.0.1", 0))
        self.listener.settimeout(0.05)
        self.port = self.listener.getsockname()[1]
        self.thread = threading.Thread(target=self.listen, daemon=True)
        self.thread.start()
        return self

    def __exit__(self, *fault):
        """Waits for the last connection's end."""
        self.leaving.set()
        self.thread.join(3 * LIMIT)
        self.listener.close()

    def listen(self):
        while not self.leaving.is_set():
            with contextlib.suppress(socket.timeout):
                self.take(self.listener.accept()[0])


class Attached(Port):
    """The program on a port, and the statuses that its runs ended with."""

    def __init__(self, folder):
        super().__init__()
        self.folder, self.statuses = folder, []

    def take(self, connection):
        self.statuses.append(session(connection, self.folder, 2 * LIMIT))


class Recorder(Port):
    """A port that carries each connection on to another port, and keeps what the clients said."""

    def __init__(self, onward):
        super().__init__()
        self.onward, self.said = onward, b""

    def take(self, connection):
        with connection, contextlib.suppress(ConnectionError):
            with socket.create_connection(("127.0.0.1", self.onward), LIMIT) as hub:
                self.carry(connection, hub)

    def carry(self, client, hub):
        """Ends where the hub closes, or where both are silent for too long."""
        sides = [client, hub]
        while hub in sides:
            ready = select.select(sides, [], [], LIMIT)[0]
            for side in ready or list(sides):
                octets = side.recv(65536) if ready else b""
                if side is client:
                    self.said += octets
                if octets:
                    (hub if side is client else client).sendall(octets)
                else:
                    sides.remove(side)
                    with contextlib.suppress(OSError):
                        (hub if side is client else client).shutdown(socket.SHUT_WR)


def contents(said):
    """The messages in what clients said: what stands behind each DATA, with doubled dots undone."""
    lines = iter(said.split(b"\r\n"))
    found = []
    for line in lines:
        if line.upper() == b"DATA":
            content = b""
            for line in lines:
                if line == b".":
                    found.append(content)
                    break
                content += line[line.startswith(b"."):] + b"\r\n"
    return found


# The clients. Each sends a message on a port, and gives what it was told or printed.


class Telling(smtplib.SMTP):
    """Python's client, which keeps the reply to its last content."""

    def data(self, msg):
        reply = super().data(msg)
        self.told = b"%d %s" % reply
        return reply


def python(port):
    return Telling("127.0.0.1", port, local_hostname="localhost", timeout=LIMIT)


def send_smtplib(port, message, to):
    with python(port) as client:
        client.sendmail(SENDER, to, message, ["BODY=8BITMIME"])
    return client.told


def send_email_message(port, to):
    """A message that Python's own classes write, with octets above 127."""
    message = email.message.EmailMessage()
    message["From"], message["To"], message["Subject"] = SENDER, ", ".join(to), "Written by Python"
    message["Message-Id"] = "<written@example.com>"
    message.set_content("Grüße\n.dot\n", cte="8bit")
    with python(port) as client:
        client.send_message(message)
    return client.told


def run(*words, **more):
    """Runs a client, and gives what it printed."""
    streams = {"stdout": subprocess.PIPE, "stderr": subprocess.STDOUT, "env": {**os.environ, "PATH": PATH}}
    done = subprocess.run([shutil.which(words[0], path=PATH), *words[1:]], timeout=LIMIT, **streams, **more)
    if done.returncode:
        raise subprocess.SubprocessError(f"status {done.returncode}, {done.stdout[-200:]!r}")
    return done.stdout


@contextlib.contextmanager
def stored(octets):
    """The name of a file with these octets."""
    with tempfile.NamedTemporaryFile() as file:
        file.write(octets)
        file.flush()
        yield file.name


def send_curl(port, message, to):
    recipients = [word for one in to for word in ("--mail-rcpt", one)]
    with stored(message) as name:
        return run("curl", "-sv", "--mail-from", SENDER, *recipients, "-T", name, f"smtp://127.0.0.1:{port}/localhost")


def swaks(port, to, *more):
    server = ("--server", "127.0.0.1", "--port", str(port), "--ehlo", "localhost", "--timeout", str(LIMIT))
    return run("swaks", *server, "--from", SENDER, "--to", ",".join(to), *more)


def send_swaks(port, message, to):
    """It writes a CR LF behind the file, and sends its commands without waiting for replies."""
    with stored(message[:-2]) as name:
        return swaks(port, to, "--pipeline", "--data", "@" + name)


def send_swaks_own(port, to):
    return swaks(port, to, "--header", "Subject: Written by swaks", "--body", ".dot\nGrüße")


def send_msmtp(port, message, to):
    """It reads lines that end with LF, and needs no file of settings."""
    server = ("--host=127.0.0.1", f"--port={port}", "--tls=off", "--auth=off", f"--timeout={LIMIT}")
    return run("msmtp", *server, f"--from={SENDER}", "--debug", *to, input=message.replace(b"\r\n", b"\n"))


def send_msmtp_own(port, to):
    """It adds From, Date and Message-ID."""
    return send_msmtp(port, "Subject: Written by msmtp\r\n\r\n.dot\r\nGrüße\r\n".encode(), to)


def smtp_source(port, to, *more):
    return run("smtp-source", "-v", "-f", SENDER, "-t", to[0], *more, f"127.0.0.1:{port}")


def send_smtp_source(port, message, to):
    """It writes a CR LF behind each line of the file, and one more at the end. It has one recipient."""
    with stored(message[:-2].replace(b"\r\n", b"\n")) as name:
        return smtp_source(port, to, "-F", name)


def send_several(port, to):
    """Five messages, each in a connection of its own."""
    return smtp_source(port, to, "-m", "5", "-S", "Written by smtp-source")


def send_several_at_once(port, to):
    """Five messages in one connection."""
    return smtp_source(port, to, "-d", "-m", "5", "-S", "Written by smtp-source")


GIVEN = (
    ("smtplib", send_smtplib),
    ("curl", send_curl),
    ("swaks", send_swaks),
    ("msmtp", send_msmtp),
    ("smtp-source", send_smtp_source),
)
OWN = (
    ("smtplib", send_email_message, 1, [b"Subject: Written by Python\r\n", "Grüße\r\n.dot\r\n".encode()]),
    ("swaks", send_swaks_own, 1, [b"Subject: Written by swaks\r\n", ".dot\r\nGrüße\r\n".encode()]),
    ("msmtp", send_msmtp_own, 1, [b"Subject: Written by msmtp\r\n", "\r\n\r\n.dot\r\nGrüße\r\n".encode()]),
    ("smtp-source", send_several, 5, [b"Subject: Written by smtp-source\r\n"]),
    ("smtp-source", send_several_at_once, 5, [b"Subject: Written by smtp-source\r\n"]),
)


# The comparisons


def hard(name):
    """A message with lines that begin with dots, a line of 998 octets, octets above 127, and an empty last line."""
    header = f"From: {SENDER}\r\nTo: {BOB}\r\nDate: Mon, 5 Jan 2026 09:30:00 +0000\r\nSubject: By {name}\r\n"
    header += f"Message-Id: <{name}@example.com>\r\n"
    return header.encode() + b"\r\n" + DOTS + b"x" * 998 + "\r\n\r\nGrüße\r\n\r\n".encode()


def different(found, wanted):
    """The words for two texts that differ, or of which one isn't there: what stands around the first other octet."""
    if found is None or wanted is None:
        return "nothing, wanted an item" if found is None else "an item, wanted nothing"
    at = next((i for i, (a, b) in enumerate(zip(found, wanted)) if a != b), min(len(found), len(wanted)))
    return f"{found[at:at + 40]!r} at octet {at}, wanted {wanted[at:at + 40]!r}"


def as_kept(message, number):
    """A message without a Message-Id gets the hub's, as the last field of its header."""
    header, end, body = message.partition(b"\r\n\r\n")
    if re.search(rb"(?im)^message-id:", header):
        return message
    return header + b"\r\nMessage-Id: <%d@hub.invalid>" % number + end + body


def failures(printed, numbers, hub):
    """A line for numbers that the client wasn't told, and for each run of the program that ended badly."""
    told = [int(number) for number in re.findall(rb"250 Accepted ([0-9]+)", printed)]
    if told != numbers:
        yield f"told the numbers {told}, wanted {numbers}"
    yield from (f"the program's status was {status}" for status in hub.statuses if status != 0)


class Folder:
    """One folder for all the runs, what its shelf has to hold, and the last number that was told."""

    def __init__(self, path):
        self.path, self.wanted, self.last = path, {}, 0

    def shelf(self):
        shelf = pathlib.Path(self.path) / "hub/shelf"
        return {str(item.relative_to(shelf)): item.read_bytes() for item in shelf.glob("*/*")}

    def send(self, send, count):
        """Lets a client send new messages through a recorder. Gives the messages, and a line for each failure."""
        with Attached(self.path) as hub, Recorder(hub.port) as recorder:
            printed = send(recorder.port)
        numbers = [self.last + 1 + at for at in range(count)]
        self.last = numbers[-1]
        return contents(recorder.said), failures(printed, numbers, hub)

    def send_again(self, send):
        """Lets a client send the last message again, on the program's own port."""
        with Attached(self.path) as hub:
            printed = send(hub.port)
        return failures(printed, [self.last], hub)

    def compare(self, messages, to):
        """Puts the last messages into what the shelf has to hold, and gives a line for each item that differs.

        An item has the octets of its message as the client sent it, but for the hub's own Message-Id; a key is in lower
        case, and has one item of a message.
        """
        for at, message in enumerate(messages):
            number = self.last - len(messages) + 1 + at
            for place, key in enumerate(dict.fromkeys(one.lower() for one in to)):
                self.wanted[f"{key}/{number}-0-{place}.eml"] = as_kept(message, number)
        found, wanted = self.shelf(), self.wanted
        # What differs is told once.
        self.wanted = found
        for name in sorted({**found, **wanted}):
            if found.get(name) != wanted.get(name):
                yield f"{name} has {different(found.get(name), wanted.get(name))}"


def given(folder, name, send):
    """A message that the client has to send as it is, and the same again in a later connection.

    Compared are the octets given to the client, those that it sent, and the items; and the two numbers. After the
    second time the shelf is as it was.
    """
    to = [BOB] if name == "smtp-source" else [CYN, BOB]
    message = hard(name)
    sent, differ = folder.send(lambda port: send(port, message, to), 1)
    yield from differ
    if sent != [message]:
        yield f"the client sent {different(b''.join(sent), message)}"
    yield from folder.compare(sent, to)
    yield from folder.send_again(lambda port: send(port, message, to))
    yield from folder.compare([], to)


def own(folder, send, count, wanted):
    """Messages to which the client writes headers.

    Compared are the octets that it sent and the items, and each has the header and the body that were asked for.
    """
    to = [BOB, CYN] if count == 1 else [BOB]
    sent, differ = folder.send(lambda port: send(port, to), count)
    yield from differ
    if len(sent) != count:
        yield f"the client sent {len(sent)} messages, wanted {count}"
    yield from (f"{part!r} isn't in {message!r:.400}" for message in sent for part in wanted if part not in message)
    yield from folder.compare(sent, to)


def without_id(folder):
    """A message without a Message-Id is another each time, and a recipient who is named twice has it once."""
    to = ["Bob@Example.COM", CYN, BOB]
    for _ in range(2):
        sent, differ = folder.send(lambda port: send_smtplib(port, b"Subject: No name\r\n\r\nHello\r\n", to), 1)
        yield from differ
        yield from folder.compare(sent, to)


def checks(folder):
    """Each check's client and name, and its failures when they are asked for."""
    for name, send in GIVEN:
        yield name, f"{name}, a message as it is", given(folder, name, send)
    for name, send, count, wanted in OWN:
        yield name, f"{name}, {count} of its own", own(folder, send, count, wanted)
    yield "smtplib", "smtplib, no Message-Id", without_id(folder)


def missing():
    return [name for name in PACKAGES if not shutil.which(name, path=PATH)]


def apt_get(*words):
    """Nothing is removed or started, and a fault leaves the client missing."""
    env = {**os.environ, "DEBIAN_FRONTEND": "noninteractive", "RUNLEVEL": "1"}
    settings = ("-o", "Acquire::Retries=0", "-o", "Acquire::http::Timeout=10", "-o", "Acquire::https::Timeout=10")
    quiet = {"stdin": subprocess.DEVNULL, "stdout": subprocess.DEVNULL, "stderr": subprocess.DEVNULL}
    with contextlib.suppress(OSError, subprocess.SubprocessError):
        subprocess.run(["apt-get", *settings, *words], env=env, timeout=INSTALLING, **quiet)


def install():
    """Installs the clients that are missing, where that is possible. Postfix stays without a configuration."""
    if not missing() or os.geteuid() != 0 or not shutil.which("apt-get"):
        return
    with contextlib.suppress(OSError, subprocess.SubprocessError):
        choice = b"postfix postfix/main_mailer_type select No configuration\n"
        subprocess.run(["debconf-set-selections"], input=choice, timeout=LIMIT, stderr=subprocess.DEVNULL)
    apt_get("update")
    for name in missing():
        apt_get("install", "-y", "--no-install-recommends", "--no-remove", PACKAGES[name])


def drive():
    """Runs every check whose client is there, and gives the exit status."""
    install()
    skipped, failed = missing(), 0
    with tempfile.TemporaryDirectory() as path:
        for client, name, check in checks(Folder(path)):
            if client in skipped:
                continue
            try:
                found = list(check)
            except (OSError, smtplib.SMTPException, subprocess.SubprocessError) as fault:
                found = [str(fault)]
            for failure in found:
                print(f"clients: {name}: {failure}")
            failed += len(found)
    without = f", skipped: {', '.join(skipped)}" if skipped else ""
    print(f"clients: {'all as wanted' if not failed else f'{failed} failed'}{without}")
    return 1 if failed else 0


def main():
    if not PROGRAM.exists():
        sys.exit(f"clients: {PROGRAM.relative_to(ROOT)} isn't built")
    words = sys.argv[1:]
    if not words:
        sys.exit(drive())
    if len(words) != 2 or words[0] != "--serve" or not words[1].isdigit():
        sys.exit(f"usage: {sys.argv[0]} [--serve PORT]")
    serve(int(words[1]))


main()
