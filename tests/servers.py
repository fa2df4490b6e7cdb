"""Servers, sockets, queries and a large zone, for tests and benches."""
import contextlib
import json
import os
import re
import resource
import socket
import subprocess
import sys
import time
from pathlib import Path

import dns.message

TOP = Path(__file__).resolve().parent.parent
LIBEXEC, DATA = TOP / "libexec", TOP / "tests" / "data"


def mixed_zone(count=100_000):
    """A valid zone at example. with this number of records, of seven types: 100,000 have 4.6 MB."""
    def record(at):
        host = f"host{at:06}"
        return [f"{host} A 192.0.{at % 250}.{at * 7 % 250}",
                f"{host} 7200 IN AAAA 2001:db8::{at % 65535:x}:{at * 3 % 65535:x}",
                f"{host} MX 10 mail{at % 100}.other.example.net.",
                f'{host} TXT "v=spf1 include:_spf.example.net ~all" ; a comment',
                f"{host}.example. CNAME host{at - 4:06}",
                f"_sip._tcp.{host} SRV 10 20 5060 sip{at % 9}.other.example.net.",
                f"sub{at:06} NS ns1.sub{at:06}.other.example.net."][at % 7]
    first = ["$TTL 3600", "@ SOA ns h 1 2 3 4 5", "@ NS ns", "ns A 192.0.2.1"]
    return "\n".join([*first, *map(record, range(count - 3)), ""]).encode()


def query(name, rtype="A", number=0x1234):
    """The octets of a query without EDNS and without RD."""
    asked = dns.message.make_query(name, rtype, flags=0)
    asked.id = number
    return asked.to_wire()


def run(*words, **how):
    """Runs a program, and returns its status and what it prints."""
    return subprocess.run([str(word) for word in words],
                          **{"capture_output": True, "text": True, "timeout": 900, **how})


def limit_of(kind, most):
    """What a new process does so that it has this limit. Without `restore_signals` a file that is too large gives no
    signal."""
    return lambda: resource.setrlimit(kind, (most, most))


def script(path, *lines):
    """Writes a program of these lines for bash, in a folder that need not exist."""
    Path(path).parent.mkdir(exist_ok=True)
    Path(path).write_text("\n".join(["#!/usr/bin/env bash", *lines, ""]))
    Path(path).chmod(0o755)


def serial_in(reply):
    """The serial of the SOA record in a reply, or None if there is none."""
    answer = dns.message.from_wire(reply).answer
    return answer[0][0].serial if answer else None


def framed(message):
    """A message after its length, as it is sent over TCP."""
    return len(message).to_bytes(2, "big") + message


def frame_of(client):
    """The next message of a stream socket, or None at its end."""
    octets, size = b"", 2
    while len(octets) < size:
        if not (piece := client.recv(size - len(octets))):
            return None
        octets += piece
        size = 2 + int.from_bytes(octets[:2], "big") if len(octets) > 1 else 2
    return octets[2:]


def bound(kind, address, shared=False):
    """A socket bound to the address, which listens if it is a TCP socket, with the settings of the socket unit."""
    one = socket.socket(socket.AF_INET6 if ":" in address[0] else socket.AF_INET, kind)
    one.setsockopt(socket.SOL_SOCKET, socket.SO_REUSEADDR, 1)
    one.setsockopt(socket.SOL_SOCKET, socket.SO_REUSEPORT, int(shared))
    one.setsockopt(socket.SOL_SOCKET, socket.SO_RCVBUF, 1 << 20)
    one.bind(address)
    if kind == socket.SOCK_STREAM:
        one.listen(1024)
    return one


def until(what, seconds=5):
    """Waits until `what` returns a true value, for at most `seconds` seconds, and returns its last value."""
    end = time.monotonic() + seconds
    while not (holds := what()) and time.monotonic() < end:
        time.sleep(0.02)
    return holds


def is_there(process):
    return Path(f"/proc/{process}").exists()


def fields_of(process):
    """The fields of a process in /proc, from its state on, a letter: T if it is stopped."""
    return Path(f"/proc/{process}/stat").read_text().rsplit(")", 1)[1].split()


def spent():
    """The processor time of all children that have ended, in seconds."""
    return sum(resource.getrusage(resource.RUSAGE_CHILDREN)[:2])


class Workers:
    """Runs libexec/workers for a zone file, with a runtime folder of its own, at two UDP sockets and a TCP socket of
    one address, as the service has them. `by` is a command that starts it."""

    def __init__(self, programs, folder, address, origin, file, by=(), kinds="uut", **settings):
        self.room = Path(folder, "run")
        self.room.mkdir(exist_ok=True)
        self.address, self.origin, self.file, self.by, self.kinds = address, origin, Path(file), list(by), kinds
        self.environment = {**os.environ, "RUNTIME_DIRECTORY": str(self.room), **settings}
        self.environment["PATH"] = f"{programs}:{os.environ['PATH']}"
        self.said = Path(folder, "said")

    def begin(self, given):
        """Starts it with these sockets as its descriptors 3, 4, .. They are first duplicated to high descriptors, so
        that the shell, which moves them, overwrites none."""
        far = [os.dup2(one.fileno(), one.fileno() + 100) for one in given]
        places = " ".join(f"{3 + place}<&{number} {number}<&-" for place, number in enumerate(far))
        shell = ["bash", "-c", f'exec "$@" {places}', "-", *self.by, LIBEXEC / "workers", self.origin, self.file]
        settings = {**self.environment, "LISTEN_FDS": str(len(given))}
        with open(self.said, "ab") as said:
            how = {"stdin": subprocess.DEVNULL, "stderr": said, "pass_fds": far, "start_new_session": True}
            run = subprocess.Popen(shell, env=settings, **how)
        for number in far:
            os.close(number)
        return run

    def __enter__(self):
        self.said.write_text("")
        kinds = {"u": socket.SOCK_DGRAM, "t": socket.SOCK_STREAM}
        self.given = [bound(kinds[kind], self.address, shared=True) for kind in self.kinds]
        self.run = self.begin(self.given)
        self.pid = self.run.pid
        until(lambda: ": serving serial " in self.log() or self.run.poll() is not None, 60)
        return self

    def __exit__(self, *_):
        left = self.processes()
        self.run.terminate()
        self.run.wait(timeout=20)
        assert until(lambda: not any(map(is_there, left)))
        for one in self.given:
            one.close()

    def log(self):
        return self.said.read_text()

    def reload(self):
        """Requests a reload, and returns its status."""
        words = [LIBEXEC / "workers", "reload", self.origin, self.file]
        with open(self.said, "ab") as said:
            return subprocess.run(words, env=self.environment, stderr=said, timeout=90).returncode

    def processes(self, transport=""):
        """The ids of the workers of a transport, or of all workers."""
        listed = run("ps", "-o", "pid=,args=", "--ppid", self.run.pid).stdout
        return sorted(int(line.split()[0]) for line in listed.splitlines() if f"zonesocket {transport}" in line)


class Serving:
    """Runs zoneserve at an address, or zonesocket at a socket bound to it, during the body. `by` is a command that
    starts it."""

    def __init__(self, program, transport, zone, origin, address, turns=1_000_000, by=(), given=None, **how):
        kind = {"udp": socket.SOCK_DGRAM, "tcp": socket.SOCK_STREAM}[transport]
        self.transport, self.address = transport, address
        self.given = given or (bound(kind, address) if program.name == "zonesocket" else None)
        words = [*by, program, transport, *([] if self.given else [f"{address[0]}:{address[1]}"]), turns, origin, zone]
        how = {"stdin": self.given or subprocess.DEVNULL, "stdout": subprocess.PIPE, "stderr": subprocess.PIPE, **how}
        self.run = subprocess.Popen(list(map(str, words)), **how)

    def __enter__(self):
        """zonesocket prints a line when it serves."""
        if self.given:
            self.serves = bool(self.run.stdout.readline())
        else:
            self.serves = until(lambda: self.is_bound() or self.run.poll() is not None, 10) and self.run.poll() is None
        return self

    def __exit__(self, *_):
        self.end(6 if self.given else 0)
        if self.given:
            self.given.close()

    def is_bound(self):
        state, sockets = {"udp": "07", "tcp": "0A"}[self.transport], Path(f"/proc/net/{self.transport}").read_text()
        return re.search(rf"^ *\d+: \w+:{self.address[1]:04X} \S+ {state} ", sockets, re.M)

    def reply(self, message, seconds=2):
        """The reply to a message over a new socket, or None."""
        is_udp = self.transport == "udp"
        with contextlib.suppress(OSError), (asking if is_udp else connected)(self.address, seconds) as client:
            client.send(message if is_udp else framed(message))
            return client.recv(65_535) if is_udp else frame_of(client)

    def end(self, seconds=6):
        """Closes the reading end of its output, which ends zonesocket, and kills it if it does not end. Returns its
        status and the words on standard error."""
        if not self.run.stdout.closed:
            self.run.stdout.close()
        with contextlib.suppress(subprocess.TimeoutExpired):
            self.run.wait(seconds)
        self.run.kill()
        self.status = self.run.wait()
        if not self.run.stderr.closed:
            with self.run.stderr as errors:
                self.said = errors.read().decode().split()
        return self.status, self.said


# Other servers and resolvers, by their programs: the settings in tests/data, the command, and the one that reloads the
# zone, if any. The words in capitals stand for what `prepared` gets.
OTHERS = json.loads((DATA / "peers.json").read_text())["servers"]
RIVALS = ["nsd", "knotd", "named"]


def filled(text, **values):
    """The text with each of these words, in capitals there, replaced by its value."""
    return re.sub("|".join(values).upper(), lambda word: str(values[word[0].lower()]), text)


def prepared(name, folder, address=("", ""), workers=1, origin="example", **more):
    """Writes the settings of another server into a folder. Returns its command, and the one that reloads its zone."""
    file, words, reload = OTHERS[name]
    conf = Path(folder, file)
    values = {"here": address[0], "port": address[1], "folder": folder, "workers": workers, "origin": origin, **more}
    conf.write_text(filled((DATA / file).read_text(), **values))
    return [filled(command, conf=conf, **values).split() for command in (words, reload)]


@contextlib.contextmanager
def other(name, folder, **values):
    """Runs another server during the body, without query logs. Its `reload` is None if there is no command for that."""
    words, reload = prepared(name, folder, **values)
    quiet = dict.fromkeys(("stdin", "stdout", "stderr"), subprocess.DEVNULL)
    server = subprocess.Popen(words, start_new_session=True, cwd=folder, **quiet)
    server.reload = (lambda: subprocess.run(reload, **quiet)) if reload else None
    try:
        yield server
    finally:
        server.terminate()
        with contextlib.suppress(subprocess.TimeoutExpired):
            server.wait(10)
        with contextlib.suppress(ProcessLookupError):
            os.killpg(server.pid, 9)
        time.sleep(0.5)


class Steady:
    """Runs bench/steadily during the body, and for `least` seconds: it asks over UDP at a steady rate, and over TCP
    with a new connection for each question. Then it has the numbers that bench/steadily prints."""

    def __init__(self, address, origin, rate=5_000, connections=500, least=0, **settings):
        self.words = [sys.executable, TOP / "bench" / "steadily", *map(str, address), origin, str(rate),
                      str(connections)]
        self.least, self.environment = least, {**os.environ, **settings}

    def __enter__(self):
        self.end = time.monotonic() + self.least
        self.client = subprocess.Popen(self.words, stdin=subprocess.PIPE, stdout=subprocess.PIPE, text=True,
                                       env=self.environment)
        assert self.client.stdout.readline() == "begun\n"
        time.sleep(0.5)
        return self

    def __exit__(self, *_):
        time.sleep(max(0, self.end - time.monotonic()))
        fields = self.client.communicate("\n", timeout=60)[0].split()
        self.lost, self.asked, self.lost_tcp, self.asked_tcp, *self.longest = map(int, fields[:6])
        self.serials = [int(field) for field in fields[6:]]


@contextlib.contextmanager
def asking(address, seconds=2):
    """A UDP socket that is connected to a server."""
    with socket.socket(socket.AF_INET6 if ":" in address[0] else socket.AF_INET, socket.SOCK_DGRAM) as client:
        client.settimeout(seconds)
        client.connect(address)
        yield client


def connected(address, seconds=5):
    """A connection to a server."""
    return socket.create_connection(address, timeout=seconds)


def asks(client, message):
    """Whether a question on a connection gets a reply."""
    client.sendall(framed(message))
    reply = frame_of(client)
    return reply is not None and reply[:2] == message[:2]


def serial_at(address, origin):
    """The serial of the zone that a server replies with over UDP, or None."""
    with contextlib.suppress(OSError), asking(address, 0.5) as client:
        client.send(query(origin, "SOA"))
        return serial_in(client.recv(512))


def is_answered(address, message):
    """Whether a question over each transport gets a reply."""
    with contextlib.suppress(OSError), asking(address) as other, connected(address) as client:
        other.send(message)
        return other.recv(512)[:2] == message[:2] and asks(client, message)
    return False
