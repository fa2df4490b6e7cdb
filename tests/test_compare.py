"""bin/zonecompare with a small server here, which answers by RFC 1034 4.3.2 from a zone that dnspython reads, without
zoneserve or zonecompare, and whose replies each row of WRONG or ALLOWED changes; with zoneserve; and with other
servers, if they are installed."""
import concurrent.futures
import contextlib
import json
import os
import pty
import re
import signal
import socket
import subprocess
import threading
import time
import types

import dns.flags
import dns.message
import dns.rcode
import dns.rdatatype
import dns.rrset
import pytest
import servers
from servers import DATA, RIVALS, TOP, Serving, bound, frame_of, framed, until
from test_hostile import Server

COMPARE = TOP / "bin" / "zonecompare"
AA = dns.flags.AA
ZONE = (DATA / "compare.zone").read_text()
# A chain of 18 aliases, of which the proved reply follows 16; and a name of 251 octets, below which no name fits.
LONG = ZONE + "".join(f"c{at} CNAME c{at + 1}\n" for at in range(18)) + "c18 A 192.0.2.18\n" + "a." * 120 + "b TXT a\n"


class Raw(bytes):
    """Octets that are sent as they are: over TCP without their length, and then the connection ends."""


class Elsewhere(bytes):
    """A reply that is sent from another port."""


class Small:
    """A server on loopback, over UDP and TCP. `wrong` gets each right reply, the name and type of its question, and
    whether it came over TCP. It changes the reply and returns a true value; or returns what to send instead; or b""
    for nothing. `asked` are the questions that came, and `changed` those whose replies were changed. `most` is the
    most that waited at once."""

    def __init__(self, text, wrong=None, host="127.0.0.1", origin="example.", edns=True, pause=0):
        self.right, self.wrong, self.edns, self.pause = Server(text, origin, all_types=True), wrong, edns, pause
        self.asked, self.changed, self.now, self.most = [], set(), 0, 0
        self.other, self.udp = bound(socket.SOCK_DGRAM, (host, 0)), None
        while not self.udp:
            self.tcp = bound(socket.SOCK_STREAM, (host, 0))
            self.port = self.tcp.getsockname()[1]
            with contextlib.suppress(OSError):  # The port may be free for TCP, but not for UDP.
                self.udp = bound(socket.SOCK_DGRAM, (host, self.port))
        self.address = f"[{host}]:{self.port}" if ":" in host else f"{host}:{self.port}"
        for target in (self.over_udp, self.over_tcp):
            threading.Thread(target=target, daemon=True).start()

    def reply(self, wire, tcp):
        query = dns.message.from_wire(wire)
        reply = dns.message.make_response(query)
        question = query.question[0].name.to_text(), dns.rdatatype.to_text(query.question[0].rdtype)
        self.asked.append(question)
        if query.edns >= 0 and not self.edns:
            reply.use_edns(False)
            reply.set_rcode(dns.rcode.FORMERR)
            return [reply.to_wire()]
        self.fill(reply)
        out = self.wrong(reply, *question, tcp) if self.wrong else None
        if out or out == b"":
            self.changed.add(question)
        return out if isinstance(out, list) else [out if isinstance(out, bytes) else reply.to_wire(max_size=65535)]

    def fill(self, reply):
        """Makes this the right reply."""
        name, rtype = reply.question[0].name, reply.question[0].rdtype
        if not name.is_subdomain(self.right.origin):
            reply.set_rcode(dns.rcode.REFUSED)
            return
        sets, _, rcode, is_ours = self.right.sets(name, rtype)
        reply.flags |= AA if is_ours else 0
        reply.set_rcode(rcode)
        for section, one in sets:
            reply.sections[section].append(one)

    def over_udp(self):
        while True:
            wire, source = self.udp.recvfrom(65535)
            threading.Thread(target=self.send, args=(wire, source), daemon=True).start()

    def send(self, wire, source):
        self.now += 1
        self.most = max(self.most, self.now)
        time.sleep(self.pause)
        self.now -= 1
        for out in self.reply(wire, False):
            if out:
                (self.other if isinstance(out, Elsewhere) else self.udp).sendto(out, source)

    def over_tcp(self):
        while True:
            client, _ = self.tcp.accept()
            with client, contextlib.suppress(OSError):
                for out in self.reply(frame_of(client), True):
                    client.sendall(out if isinstance(out, Raw) else framed(out) if out else b"")
                if out == b"":
                    time.sleep(2.5)


def rrset(text):
    owner, ttl, rtype, data = text.split(" ", 3)
    return dns.rrset.from_text(owner, int(ttl), "IN", rtype, data)


KINDS = {
    "NXDOMAIN": lambda reply: reply.rcode() == 3, "REFUSED": lambda reply: reply.rcode() == 5,
    "negative": lambda reply: any(one.rdtype == dns.rdatatype.SOA for one in reply.authority),
    "referral": lambda reply: not reply.flags & AA and reply.rcode() == 0,
    "answer": lambda reply: reply.answer and not reply.authority,
}


def changing(of="", at=".*", rcode="", only="", flip="", udp=False, **sections):
    """A change of the replies of a kind, to the questions `NAME TYPE` that match `at`, perhaps only over UDP: to an
    RCODE, or to one and no records; flags that are flipped; and the records of a section, or `more` records there."""
    def wrong(reply, name, rtype, tcp):
        if of and not KINDS[of](reply) or not re.fullmatch(at, f"{name} {rtype}") or udp and tcp:
            return False
        if only:
            reply.sections[1:] = [], [], []
        if only or rcode:
            reply.set_rcode(dns.rcode.from_text(only or rcode))
        reply.flags ^= dns.flags.from_text(flip)
        for key, texts in sections.items():
            more, _, section = key.rpartition(" ")
            setattr(reply, section, [*(getattr(reply, section) if more else []), *map(rrset, texts)])
        return True
    return wrong


def capped(reply, *_):
    """Lowers all TTLs to 30."""
    sets = [one for section in reply.sections[1:] for one in section]
    for one in sets:
        one.ttl = 30
    return bool(sets)


def capitals(reply, *_):
    """Writes the names of all records in capitals, each record as its own set, in the other order."""
    for section in reply.sections[1:]:
        section[:] = [rrset(line.replace("example.", "EXAMPLE.").replace(" IN ", " ")) for one in section[::-1]
                      for line in one.to_text().split("\n")[::-1]]
    return bool(reply.answer)


def over_udp(then):
    """A change of the reply to www.example. A over UDP."""
    return lambda reply, name, rtype, tcp: then(reply) if (name, rtype, tcp) == ("www.example.", "A", False) else None


def over_tcp(out):
    """Truncates the reply to www.example. A over UDP, and sends `out` over TCP."""
    truncated = changing(at="www.example. A", only="NOERROR", flip="TC", udp=True)
    return lambda reply, name, rtype, tcp: (
        out if tcp and (name, rtype) == ("www.example.", "A") else truncated(reply, name, rtype, tcp))


def other_id(reply):
    wire = reply.to_wire()
    return bytes([wire[0] ^ 1]) + wire[1:]


def other_question(reply):
    return dns.message.make_response(dns.message.make_query("other.example.", "A", id=reply.id)).to_wire()


def odd_first(reply, *_):
    """First garbage, a reply with another ID, one to another question, and one from another port; then the right
    reply."""
    right = reply.to_wire()
    return [b"garbage", other_id(reply), other_question(reply), Elsewhere(right), right]


def other_soa(reply, *_):
    """Gives each SOA record another serial and TTL."""
    soa = rrset("example. 9 SOA ns.example. host.example. 7 7200 900 1209600 60")
    for section in (reply.answer, reply.authority):
        section[:] = [soa if one.rdtype == dns.rdatatype.SOA else one for one in section]
    return True


def once():
    """Leaves the first try of each question without a reply."""
    seen = set()

    def wrong(reply, name, rtype, tcp):
        again = (name, rtype) in seen
        seen.add((name, rtype))
        return None if again else b""
    return wrong


# Changes of one reply after which there is none, each with the reason that is reported.
NO_REPLY = [
    ("garbage", over_udp(lambda reply: reply.to_wire()[:-3]), "UDP: a reply that can't be read"),
    ("five octets", over_udp(lambda reply: reply.to_wire()[:5]), "UDP: a reply that can't be read"),
    ("octets after the reply", over_udp(lambda reply: reply.to_wire() + b"x"), "UDP: a reply that can't be read"),
    ("another ID", over_udp(other_id), "UDP: a reply with another ID or question"),
    ("another question", over_udp(other_question), "UDP: a reply with another ID or question"),
    ("another port", over_udp(lambda reply: Elsewhere(reply.to_wire())), "UDP: a reply from another address or port"),
    ("silence for one question", over_udp(lambda reply: b""), "UDP: silence"),
    ("half a reply over TCP", over_tcp(Raw(b"\0\100abc")), "TCP: the connection ended"),
    ("no reply over TCP", over_tcp(Raw(b"\0")), "TCP: the connection ended"),
    ("garbage over TCP", over_tcp(b"garbage"), "TCP: a reply that can't be read"),
    ("silence over TCP", over_tcp(b""), "TCP: silence")]
# Rows with a title; the change, in words of `changing` if it is in the file; the kinds of difference, each with the
# section of the RFC that says so, or none if the RFCs allow the change; and options.
REPLIES = json.loads((DATA / "replies.json").read_text())
CHANGES = [(title, changing(**how), *row) for title, how, *row in REPLIES["changes"]] + [
    ("lower TTLs", capped, {"lower TTLs: the server caps them, or has a cache": "RFC 1035 3.2.1"}),
    *((title, wrong, {f"no reply over {reason}": "RFC 8906 3.1"}) for title, wrong, reason in NO_REPLY),
    ("names in capitals, in another order", capitals, {}),
    ("odd replies before the right one", odd_first, {}),
    ("no reply at the first try", once(), {}, "--questions", "12"),
    ("another SOA and --any-soa", other_soa, {}, "--any-soa")]


def compare(server, *words, text=ZONE, rate="0", **how):
    """Runs zonecompare for a zone in standard input."""
    return servers.run(COMPARE, "--rate", rate, *words, "example", "-", server.address, input=text, **how)


def found_by(done):
    return {one["kind"]: one for one in json.loads(done.stdout or "{}").get("differences", ())}


@pytest.fixture(scope="module")
def ran(programs):
    """For each row, its server and the run of zonecompare. Three rows are run at once."""
    def begin(title, wrong, wanted, *options):
        server = Small(ZONE, wrong)
        return server, compare(server, "--format", "json", *options)
    with concurrent.futures.ThreadPoolExecutor(3) as pool:
        yield {row[0]: pool.submit(begin, *row) for row in CHANGES}
        pool.shutdown(cancel_futures=True)


@pytest.mark.parametrize("title, wanted", [(row[0], row[2]) for row in CHANGES])
def test_a_changed_reply(ran, title, wanted):
    """The named kinds of difference are reported, for as many replies as were changed."""
    server, done = ran[title].result()
    found = found_by(done)
    assert (done.returncode, done.stderr, set(found)) == (int(wanted != {}), "", set(wanted))
    assert server.changed or not wanted
    for kind, one in found.items():
        assert one["replies"] == len(server.changed) and wanted[kind] in (None, one["rfc"]), (one, server.changed)


@pytest.mark.parametrize("words, wanted", REPLIES["calls"])
def test_bad_calls_and_files(programs, tmp_path, monkeypatch, words, wanted):
    """Status 2, a message, no traceback, and no question. The faults of a file are those that zonelint prints."""
    monkeypatch.chdir(tmp_path)
    server = Small(ZONE)
    (tmp_path / "good").write_text(ZONE)
    (tmp_path / "faulty").write_text(ZONE + "x A 192.0.2.256\n@ MX 10 nothere\nalias A 192.0.2.1\n")
    words = [word.replace("SERVER", server.address).replace("EMPTY", "") for word in words.split(" ")]
    done = servers.run(COMPARE, *words)
    assert (done.returncode, done.stdout) == (2, "") and wanted in done.stderr
    assert "Traceback" not in done.stderr and not server.asked
    if "faulty" in words:
        assert re.split(r"faulty:\d+: W", servers.run("zonelint", "example", "faulty").stdout)[0] in done.stderr


ABOVE = "$TTL 9\n@ SOA ns h 5 1 1 1 1\n@ NS ns\nns A 192.0.2.1\nexample NS ns.example\nns.example A 192.0.2.1\n"
LAME = ": lame: it does not serve the zone: 1 reply "


# Arguments of `Small`, the status, a part of what is printed, and how many questions are asked.
WITHOUT_THE_ZONE = {
    "silent": ({"wrong": lambda *_: b""}, 2, ": no reply over UDP: silence\n", 2),
    "garbage": ({"wrong": lambda *_: b"garbage"}, 2, ": no reply over UDP: a reply that can't be read\n", 2),
    "another port": ({"wrong": lambda reply, *_: Elsewhere(reply.to_wire())}, 2, "from another address or port\n", 2),
    "refuses": ({"wrong": changing(only="REFUSED")}, 1, LAME, 1),
    "another zone": ({"origin": "example.net."}, 1, LAME, 1),
    "the zone above": ({"text": ABOVE, "origin": "."}, 1, LAME, 1),
    "older": ({"text": ZONE.replace(" 5 ", " 4 ").replace("A 192", "A 198")}, 1, ": an older zone: 1 reply ", 1),
    "newer": ({"text": ZONE.replace(" 5 ", " 6 ")}, 1, ": a newer zone: 1 reply ", 1),
    "older, around 0": ({"text": ZONE.replace(" 5 ", " 4294967295 ")}, 1, ": an older zone: 1 reply ", 1)}


@pytest.mark.parametrize("how, status, wanted, questions", WITHOUT_THE_ZONE.values(), ids=WITHOUT_THE_ZONE)
def test_servers_without_the_zone(programs, how, status, wanted, questions):
    server = Small(**{"text": ZONE, **how})
    done = compare(server)
    assert (done.returncode, done.stderr, len(server.asked)) == (status, "", questions) and wanted in done.stdout


def test_servers_that_do_not_reply(programs):
    """If the server ends after its first reply, it is asked until 20 questions in a row have no reply."""
    with socket.socket() as closed:
        closed.bind(("127.0.0.1", 0))
        done = compare(types.SimpleNamespace(address=f"127.0.0.1:{closed.getsockname()[1]}"), "--tcp")
    assert (done.returncode, done.stderr) == (2, "") and ": no reply over TCP: no connection\n" in done.stdout
    server = Small(ZONE, lambda reply, name, rtype, tcp: None if (name, rtype) == ("example.", "SOA") else b"")
    done = compare(server)
    assert done.returncode == 1 and " not asked\n" in done.stdout and len(set(server.asked)) <= 54


def test_what_is_printed(programs):
    """Each server, a block for each kind of difference with a dig command, and the last line."""
    bad = Small(ZONE, changing(at="www.example. A", answer=["www.example. 300 A 192.0.2.10"]))
    good = Small(ZONE)
    old = Small(ZONE.replace(" 5 ", " 4 "))
    done = compare(good, "--server", bad.address, "--server", old.address, "--server", good.address)
    lines, asked = done.stdout.split("\n"), len(good.asked) - 1
    assert (done.returncode, done.stderr) == (1, "")
    assert sorted(lines[:3]) == sorted([f"{good.address}: serial 5", f"{bad.address}: serial 5",
                                        f"{old.address}: serial 4"])
    assert sorted(lines[3:11]) == sorted([
        f"{bad.address}: the answer section lacks records: 1 reply (RFC 1034 4.3.2)",
        f"    dig @127.0.0.1 -p {bad.port} +norec -q www.example. -t A",
        "    expected: www.example. 300 IN A 192.0.2.11", "    got: nothing",
        f"{old.address}: an older zone: 1 reply (RFC 1034 4.3.5)",
        f"    dig @127.0.0.1 -p {old.port} +norec -q example. -t SOA",
        "    expected: serial 5", "    got: serial 4"])
    assert lines[11:] == [f"{asked} questions to 3 servers: 2 differ, {asked - 1} not asked", ""]


def test_names_and_data_that_are_not_printable_are_escaped(programs):
    said = compare(Small(ZONE, changing(at="(?!.*zz).*odd.* TXT", answer=[]))).stdout
    assert said.replace("\n", "").isprintable()
    assert r'    expected: odd\007\032name.example. 300 IN TXT "\027[2J"' + "\n" in said


@pytest.mark.parametrize("is_closed", [False, True])
def test_an_output_that_is_full_or_closed(programs, is_closed):
    reader, writer = os.pipe()
    os.close(reader)
    with os.fdopen(writer) if is_closed else open("/dev/full", "w") as output:
        done = compare(Small(ZONE), capture_output=False, stdout=output, stderr=subprocess.PIPE)
    assert done.returncode == 2 and "Traceback" not in done.stderr and not (is_closed and done.stderr)


def test_addresses_and_names_of_servers(programs):
    for host in ("::1", "127.0.0.1"):
        server = Small(ZONE, host=host)
        done = compare(server)
        assert done.returncode == 0 and f"{server.address}: serial 5" in done.stdout
    server.address = f"localhost:{server.port}"
    assert f"localhost:{server.port} (127.0.0.1): serial 5" in compare(server).stdout


def test_forms_of_zones(programs):
    """A server without EDNS, a long chain of aliases and a long name, and a zone in BIND's form. dnspython does not
    read a TTL after the class."""
    done = compare(Small(ZONE, edns=False))
    assert done.returncode == 0 and ": serial 5, without EDNS" in done.stdout
    server = Small(LONG)
    done = compare(server, text=LONG)
    assert done.returncode == 0 and f"\n{len(server.asked) - 1} questions to 1 server: 0 differ\n" in done.stdout
    bind = TOP / "examples" / "bind.zone"
    server = Small(bind.read_text().replace("IN 5m", "5m IN"), origin="example.com.")
    done = servers.run(COMPARE, "--rate", "0", "--bind", "example.com", bind, server.address)
    assert (done.returncode, done.stderr) == (0, "")


def test_samples(programs):
    samples = []
    for seed in ("1", "1", "2"):
        server = Small(ZONE)
        said = compare(server, "--questions", "18", "--seed", seed).stdout
        samples.append(sorted(server.asked[1:]))
        assert len(set(samples[-1])) == 18 and "18 questions of " in said and f"--seed {seed}," in said
    assert samples[0] == samples[1] != samples[2] and ("EXAMPLE.", "SOA") in samples[0]


def test_how_fast_and_how_many_at_once(programs):
    server, begun = Small(ZONE), time.monotonic()
    compare(server, "--questions", "41", rate="20")
    assert time.monotonic() - begun >= 2 and len(server.asked) == 42
    server = Small(ZONE, pause=0.3)
    compare(server)
    assert 16 <= server.most <= 32


def test_an_interrupt(programs):
    """What was found so far is printed."""
    # A shell ignores interrupts in what it runs in the background.
    signal.signal(signal.SIGINT, signal.default_int_handler)
    server = Small(ZONE, capped)
    words = [COMPARE, "--rate", "20", "example", "-", server.address]
    with subprocess.Popen(words, stdin=subprocess.PIPE, stdout=subprocess.PIPE, stderr=subprocess.PIPE) as run:
        run.stdin.write(ZONE.encode())
        run.stdin.close()
        assert until(lambda: len(server.asked) >= 12, 30)
        run.send_signal(signal.SIGINT)
        said, bad = run.stdout.read(), run.stderr.read()
    assert (run.returncode, bad) == (130, b"") and b"lower TTLs" in said and b" not asked\n" in said


def test_progress_is_printed_on_a_terminal(programs):
    ours, theirs = pty.openpty()
    compare(Small(ZONE), capture_output=False, stdout=theirs, stderr=theirs)
    os.close(theirs)
    said = os.read(ours, 65536).decode()
    assert "50 replies\r" in said and " questions to 1 server: 0 differ" in said


def test_zoneserve(programs, tmp_path):
    """--exact can't tell zoneserve from the proved reply; and 2,000 questions take at most 10 seconds of the
    processor."""
    zone, (host, port) = tmp_path / "zone", ("127.0.0.2", Small(ZONE).port)
    zone.write_text(ZONE + "".join(f"h{at} A 192.0.2.{at}\nh{at} MX 5 h{at}\n*.d{at} TXT a\ne.f{at} CNAME h{at}\n"
                                   for at in range(200)))
    how = programs / "zoneserve", zone, "example", (host, int(port))
    with Serving(how[0], "udp", *how[1:]), Serving(how[0], "tcp", *how[1:]):
        for options, least in (((), 2000), (("--tcp",), 200), (("--exact",), 200)):
            before = servers.spent()
            done = servers.run(COMPARE, "--rate", "0", "--questions", str(least), *options, "example", zone,
                               f"{host}:{port}")
            assert (done.returncode, done.stderr) == (0, "") and f"{least} questions of " in done.stdout
            assert servers.spent() - before < 10


# ---- other servers

OTHER = ("127.0.0.1", 5389)
# `zones`: the sample zones, each with its origin, its file, and whether it is in BIND's form; BIND loads such a file
# itself. `listed`: the differences that may be found: the server, the file, the kind, in how many replies at most, and
# why. Of the 19 aliases in a row of hard.zone, those from c4 on lead to the address by 16 aliases or fewer, which
# zoneserve follows. Each is asked for 9 types at most.
PEERS = json.loads((DATA / "peers.json").read_text())
LISTED = {tuple(row[:3]): row[3] for row in PEERS["listed"]}


@pytest.mark.parametrize("options", ["--all-types", "--no-edns"])
@pytest.mark.parametrize("origin, name, bind", PEERS["zones"], ids=[name for _, name, _ in PEERS["zones"]])
@pytest.mark.slow
@pytest.mark.parametrize("server", [pytest.param(name, marks=pytest.mark.peers(name))
                                    for name in [*RIVALS, "pdns_server"]])
def test_others_differ_only_as_listed(programs, tmp_path, server, origin, name, bind, options):
    file = served = TOP / name
    if not (bind and server == "named"):
        served, how = tmp_path / "served", {"check": True, "text": False}
        text = servers.run("zoneimport", origin, file, **how).stdout
        served.write_bytes(servers.run("zonecheck", "--print", origin, "/dev/stdin", input=text, **how).stdout)
    words = [options, *["--bind"] * bind, origin, file, f"{OTHER[0]}:{OTHER[1]}"]
    with servers.other(server, tmp_path, address=OTHER, zone=served, origin=origin):
        until(lambda: servers.serial_at(OTHER, origin) is not None, 20)
        done = servers.run(COMPARE, "--rate", "0", "--format", "json", *words)
    assert done.returncode in (0, 1), done.stderr
    for kind, one in found_by(done).items():
        assert one["replies"] <= LISTED.get((server, file.name, kind), 0), kind
