"""Common clients, resolvers and many questions to zoneserve and zonesocket, over real sockets; and many connections to
zonesocket, whose replies must be those of `zoneserve once --tcp`: streams cut in every way, slow readers, half-closes,
limits, and ends."""
import contextlib
import json
import os
import random
import re
import resource
import signal
import socket
import struct
import subprocess
import threading
import time
from concurrent.futures import ThreadPoolExecutor
from pathlib import Path

import pytest
from servers import (DATA, LIBEXEC, TOP, Serving, asking, asks, bound, connected, frame_of, framed, limit_of, other,
                     query, run, until)

HERE, PORT, SOCKET_PORT, RESOLVER, BELOW = "127.0.0.1", 5399, 5398, 5397, "127.0.0.53"
ADDRESS = (HERE, PORT)
ZONE = DATA / "served.zone"
# What is asked of that zone, and what has to come: the name and the type; the status and the flags; the records, each
# after its section. They are compared in lower case, because kdig prints names so.
QUESTIONS = [(asked, first, sorted(map(str.lower, records)))
             for asked, first, records in json.loads((DATA / "questions.json").read_text())]
QUESTION = query("www.example")


def zoneserve(programs, transport, zone=ZONE, origin="example", address=ADDRESS, **how):
    return Serving(programs / "zoneserve", transport, zone, origin, address, **how)


def zonesocket(programs, zone=ZONE, address=(HERE, SOCKET_PORT), transport="tcp", **how):
    return Serving(programs / "zonesocket", transport, zone, "example", address, **how)


def resident(server):
    return int(re.search(r"VmRSS:\s+(\d+)", Path(f"/proc/{server.run.pid}/status").read_text())[1])


def test_octet_for_octet(programs):
    """The queries of zoneserve's stored run get the replies there. Some lines of its input are no queries."""
    zone, (asked, said) = TOP / "examples" / "example.zone", (
        (TOP / "crates" / "zoneserve" / name).read_text().split("\n") for name in ("stdin", "stdout"))
    rows = [(bytes.fromhex(line), None if reply == "none" else bytes.fromhex(reply))
            for line, reply in zip(asked, said) if re.fullmatch("([0-9a-f]{2})+", line)]
    with zoneserve(programs, "udp", zone) as server:
        for line, reply in rows:
            assert server.reply(line, 2 if reply else 0.2) == reply
    with zoneserve(programs, "tcp", zone), connected(ADDRESS) as client:
        client.sendall(b"".join(framed(line) for line, _ in rows))
        assert all(frame_of(client) == reply for _, reply in rows if reply)


def said_by(text):
    """The output of dig or kdig in the form of that table."""
    status, flags = re.search(r"status: (\w+)", text), re.search(r"[Ff]lags: ([\w ]*);", text)
    records, section = [], None
    for line in text.split("\n"):
        if title := re.match(r";; (ANSWER|AUTHORITY|ADDITIONAL) SECTION:", line):
            section = title[1].lower()
        elif line and not line.startswith(";") and section:
            owner, ttl, _, rest = line.split(None, 3)
            records.append(f"{section} {owner} {ttl} {' '.join(rest.split())}".lower())
    return f"{status[1].replace('NOTIMPL', 'NOTIMP')} {flags[1].strip().lower()}", sorted(records)


def ask_by(client, *words, port=PORT):
    return run(client, f"@{HERE}", "-p", port, *words, timeout=60).stdout


WITHOUT_EDNS = ["+norec", "+noedns", "+tcp"]


@pytest.mark.parametrize("client, words", [
    pytest.param("dig", ["+norec", "+noedns", "+nocookie", "+ignore"], marks=pytest.mark.peers("dig")),
    pytest.param("kdig", ["+norec", "+noedns", "+ignore"], marks=pytest.mark.peers("kdig"))])
@pytest.mark.parametrize("transport, over", [("udp", "+notcp"), ("tcp", "+tcp")])
def test_a_client(programs, client, words, transport, over):
    with zoneserve(programs, transport):
        for question, first, records in QUESTIONS:
            assert said_by(ask_by(client, *words, over, *question.split())) == (first, records), question


@pytest.mark.peers("dig")
def test_questions_of_dig(programs):
    """Several questions on one connection are one turn; a query with EDNS gets FORMERR, and dig says how to ask
    without."""
    names = ["www.example.", "mail.example.", "host.wild.example."]
    words = [word for name in names for word in [*WITHOUT_EDNS, "+keepopen", "+short", name, "A"]]
    with zoneserve(programs, "tcp", turns=1) as server:
        assert ask_by("dig", *words).split() == ["192.0.2.80", "192.0.2.25", "192.0.2.7"]
        assert server.run.wait(timeout=5) == 0
    with zoneserve(programs, "udp"):
        said = ask_by("dig", "www.example.", "A")
        assert "status: FORMERR" in said and "+noedns" in said


@pytest.mark.parametrize("transport, flag, answers", [("udp", 2, 0), ("tcp", 0, 40)])
def test_truncation(programs, transport, flag, answers):
    with zoneserve(programs, transport) as server:
        reply = server.reply(query("many.example"))
        assert (reply[2] & 2, reply[6:8]) == (flag, bytes([0, answers]))


@pytest.mark.parametrize("datagrams", [10_000, pytest.param(999_900, marks=pytest.mark.slow)])
def test_memory_does_not_grow(programs, datagrams):
    with zoneserve(programs, "udp") as server, asking(ADDRESS) as client:
        server.reply(QUESTION)
        before = resident(server)
        for _ in range(datagrams // 100):
            for _ in range(100):
                client.send(QUESTION)
            assert all(client.recv(512)[:2] == QUESTION[:2] for _ in range(100))
        assert resident(server) <= before
    with zoneserve(programs, "tcp") as server:
        for number in range(datagrams // 100):
            assert server.reply(QUESTION)
            if number == 10:
                before = resident(server)
        assert resident(server) <= before


@contextlib.contextmanager
def traced(process):
    tracer = subprocess.Popen(["strace", "-qq", "-o", "/dev/null", "-p", str(process.pid)], stderr=subprocess.DEVNULL)
    time.sleep(0.5)
    yield
    tracer.send_signal(signal.SIGINT)
    tracer.wait(timeout=5)


@contextlib.contextmanager
def stopped(process):
    process.send_signal(signal.SIGSTOP)
    time.sleep(0.2)
    yield
    process.send_signal(signal.SIGCONT)
    time.sleep(0.2)


@pytest.mark.parametrize("interrupts", [stopped, pytest.param(traced, marks=pytest.mark.peers("strace"))])
def test_interrupted_calls(programs, interrupts):
    """The server goes on after a call in which it waits is interrupted: for a datagram, for octets, for room to
    send. SIGTERM ends zoneserve by its default action."""
    for transport in ("udp", "tcp"):
        with zoneserve(programs, transport) as server:
            with connected(ADDRESS) if transport == "tcp" else contextlib.nullcontext(), interrupts(server.run):
                pass
            assert server.reply(QUESTION)
            server.run.send_signal(signal.SIGTERM)
            assert server.run.wait(timeout=5) == -signal.SIGTERM
        assert server.said == []
    with zonesocket(programs) as server, connected((HERE, SOCKET_PORT), 15) as client:
        with interrupts(server.run):
            pass
        assert asks(client, QUESTION)
        for _ in range(5):
            with interrupts(server.run):
                client.sendall(framed(QUESTION))
            assert frame_of(client)[:2] == QUESTION[:2]
        client.setblocking(False)
        sent, stream = 0, framed(QUESTION) * 1_000
        with contextlib.suppress(BlockingIOError):
            while True:
                sent += client.send(stream[sent % len(framed(QUESTION)):])
        with interrupts(server.run):
            pass
        client.setblocking(True)
        client.shutdown(socket.SHUT_WR)
        got = client.makefile("rb").read()
        assert len(got) == sent // len(framed(QUESTION)) * (2 + int.from_bytes(got[:2], "big"))
        assert server.end() in ((0, []), (0, ["S3"]))


@pytest.mark.peers("dnsperf")
def test_dnsperf_loses_nothing(programs, tmp_path):
    asked = tmp_path / "asked"
    asked.write_text("".join(f"{question}\n" for question, _, _ in QUESTIONS))
    with zoneserve(programs, "udp"), zonesocket(programs):
        for words in [["-p", str(PORT)],
                      *(["-p", str(SOCKET_PORT), "-m", "tcp", "-c", str(count)] for count in (1, 100, 250))]:
            said = run("dnsperf", "-s", HERE, "-d", asked, "-l", "2", *words).stdout
            assert re.search(r"Queries lost:\s+0 ", said), said


def resolved(name, *words, port=RESOLVER):
    """The addresses of a name by a resolver, which asks a server about the zone; or by a server at another port."""
    return ask_by("dig", "+short", "+tries=3", *words, name, "A", port=port).split()


@pytest.mark.slow
@pytest.mark.parametrize("name", [pytest.param(name, marks=pytest.mark.peers(name, "dig"))
                                  for name in ("unbound", "pdns_recursor", "kresd")])
def test_a_resolver(programs, tmp_path, name):
    """A resolver asks again over TCP, and keeps its connection open: others are served at once meanwhile."""
    zone = tmp_path / "zone"
    zone.write_text(ZONE.read_text() + "".join(f"*.large A 192.0.2.{number}\n" for number in range(1, 41)))
    with zoneserve(programs, "udp", zone, address=(HERE, 5390)), zonesocket(programs, zone, (HERE, 5390)), \
            other(name, tmp_path, address=(HERE, 5390), own=RESOLVER) as resolver:
        assert until(lambda: resolved("www.example.") == ["192.0.2.80"], 20) and resolver.poll() is None
        for turn in range(3):
            assert len(resolved(f"{turn}.large.example.")) == 40
            begun = time.monotonic()
            assert resolved("www.example.", *WITHOUT_EDNS, port=5390) == ["192.0.2.80"]
            assert time.monotonic() - begun < 0.5


@pytest.mark.slow
@pytest.mark.root
@pytest.mark.peers("unbound", "dig")
def test_a_delegation(programs, tmp_path):
    below = DATA / "below.zone"
    with zoneserve(programs, "udp"), zoneserve(programs, "udp", below, "sub.example", (BELOW, 53)), \
            other("unbound", tmp_path, address=ADDRESS, own=RESOLVER):
        assert until(lambda: resolved("www.example.") == ["192.0.2.80"], 20)
        assert "192.0.2.99" in resolved("www.sub.example.") and "192.0.2.99" in resolved("deep.example.")


def test_zoneserve_serves_connections_one_after_another(programs):
    with zoneserve(programs, "tcp") as server:
        with connected(ADDRESS) as first, connected(ADDRESS) as second:
            assert asks(first, QUESTION)
            second.sendall(framed(QUESTION))
            first.close()
            assert frame_of(second)[:2] == QUESTION[:2]
        silent = [connected(ADDRESS) for _ in range(3)]
        begun = time.monotonic()
        with connected(ADDRESS, 30) as client:
            assert asks(client, QUESTION) and time.monotonic() - begun < 3 * 2.5
        for one in silent:
            one.close()
    assert set(server.said) <= {"S1"}


@pytest.mark.peers("systemd-analyze")
def test_units(tmp_path):
    """systemd-analyze finds no fault in the units, and gives the service a low exposure."""
    for unit in (TOP / "systemd").iterdir():
        more = (TOP / "contrib" / "address.conf").read_text() if unit.suffix == ".socket" else ""
        text = unit.read_text().replace("@PREFIX@/libexec/mitrehyssop", str(LIBEXEC))
        (tmp_path / unit.name.replace("@", "@example")).write_text(text + more)
    done = run("systemd-analyze", "verify", "--man=no", *tmp_path.iterdir())
    assert done.returncode == 0, done.stderr
    service = next(tmp_path.glob("*.service"))
    said = run("systemd-analyze", "security", "--offline=true", "--no-pager", service).stdout
    assert float(re.search(r"exposure level for .*: ([\d.]+)", said)[1]) < 1.6, said[-300:]


# ---- many connections to zonesocket

MANY = HERE, 5391
LARGE = query("large.example", "TXT")
MESSAGES = [
    QUESTION, query("WWW.example"), query("nope.example"), query("alias.example"), query("x.wild.example", "TXT"),
    LARGE, query("example", "NS"), query("example.org"), query("www.example", "ANY"), QUESTION[:11], b"", QUESTION[:20],
    QUESTION + bytes(3), QUESTION + bytes(60_000), b"\x00\x01\x80" + bytes(20), bytes(12)]


@pytest.fixture(scope="module")
def zone(tmp_path_factory):
    """The zone with a reply of 64 KB."""
    file = tmp_path_factory.mktemp("zone") / "zone"
    more = (f'large TXT "{number:02}{"x" * 250}" "{"y" * 255}" "{"z" * 255}" "{"z" * 200}"\n' for number in range(62))
    file.write_text(ZONE.read_text() + "".join(more))
    return file


@pytest.fixture(scope="module")
def replies(programs, zone):
    """The octets that each message gets, by the program that is proved to give them."""
    lines = "".join(message.hex() + "\n" for message in MESSAGES)
    said = run(programs / "zoneserve", "once", "--tcp", "example", zone, input=lines, check=True).stdout.split()
    return [b"" if line == "none" else framed(bytes.fromhex(line)) for line in said]


@pytest.fixture
def server(programs, zone):
    """zonesocket with that zone, which must end well."""
    with zonesocket(programs, zone, MANY) as server:
        yield server
        assert server.end()[0] == 0


@pytest.fixture
def connect():
    """Makes this number of connections, which stay open until the end of the test."""
    with contextlib.ExitStack() as stack:
        yield lambda count: [stack.enter_context(connected(MANY, 15)) for _ in range(count)]


def send_in_pieces(client, stream, chance, is_half_closed):
    most = chance.choice([1, 3, 100, 1_460, 70_000] if len(stream) < 2_000 else [1_460, 20_000, 70_000])
    with contextlib.suppress(OSError):
        while stream:
            size = chance.randrange(1, most + 1)
            client.sendall(stream[:size])
            stream = stream[size:]
            if chance.random() < 0.02:
                time.sleep(chance.random() / 50)
        if is_half_closed:
            client.shutdown(socket.SHUT_WR)


def read_from(client, size, chance, is_half_closed):
    """The octets up to the end of a half-closed connection, or this number of them."""
    got, is_slow = bytearray(), chance.random() < 0.2
    while is_half_closed or len(got) < size:
        piece = client.recv(chance.choice([1_000, 70_000]) if is_slow else 1 << 16)
        if not piece:
            break
        got += piece
        time.sleep(0.001 if is_slow else 0)
    return bytes(got)


def one_connection(number, replies):
    """Sends some messages cut into pieces, and returns what is wrong with the replies, or None. Then the connection is
    closed, or half closed, perhaps amid a message."""
    chance = random.Random(number)
    chosen = [chance.randrange(len(MESSAGES)) for _ in range(chance.choice([1, 2, 5, 40]))]
    stream, wanted = b"".join(framed(MESSAGES[one]) for one in chosen), b"".join(replies[one] for one in chosen)
    ends = chance.choice(["close", "half", "cut"])
    if ends == "cut":
        stream += framed(QUESTION)[:chance.randrange(1, 20)]
    with connected(MANY, 30) as client:
        client.setsockopt(socket.SOL_SOCKET, socket.SO_RCVBUF, chance.choice([1 << 12, 1 << 20]))
        sending = client, stream, random.Random(-number - 1), ends != "close"
        sender = threading.Thread(target=send_in_pieces, args=sending)
        sender.start()
        try:
            got = read_from(client, len(wanted), chance, ends != "close")
        except OSError as error:
            return f"{number}: {ends}: {error!r}"
        finally:
            sender.join()
    return None if got == wanted else f"{number}: {ends}: {len(got)} octets, not {len(wanted)}"


@pytest.mark.parametrize("count", [600, pytest.param(10_000, marks=pytest.mark.slow)])
def test_streams_cut_in_every_way(server, replies, count):
    with ThreadPoolExecutor(60) as pool:
        assert not [*filter(None, pool.map(lambda number: one_connection(number, replies), range(count)))]
    assert set(server.end()[1]) <= {"S1", "S2", "S3"}


def test_silent_and_slow_peers_end_after_ten_seconds(server, connect):
    silent, half, drip, slow = connect(4)
    half.sendall(framed(QUESTION)[:9])
    slow.setsockopt(socket.SOL_SOCKET, socket.SO_RCVBUF, 1 << 12)
    slow.sendall(framed(LARGE) * 200)
    begun = time.monotonic()
    for octet in framed(QUESTION)[:9]:
        drip.send(bytes([octet]))
        time.sleep(0.9)
        assert asks_at_once()
    assert frame_of(silent) is None and frame_of(half) is None and frame_of(drip) is None
    assert 9 < time.monotonic() - begun < 12.5
    assert sorted(server.end()[1]) == ["S1", "S1", "S2"]


def asks_at_once():
    """Whether another client is served at once."""
    begun = time.monotonic()
    with connected(MANY, 2) as client:
        return asks(client, QUESTION) and time.monotonic() - begun < 0.5


def test_more_peers_than_places(server, connect):
    """The one whose progress is oldest ends; one that asks now is served now."""
    peers = connect(256)
    assert until(asks_at_once)
    assert frame_of(peers[0]) is None
    assert all(asks(peer, QUESTION) for peer in peers[-50:])
    more = connect(100)
    assert asks_at_once() and asks(more[-1], QUESTION)


def test_a_peer_that_resets(server, connect):
    other, = connect(1)
    for _ in range(50):
        client, = connect(1)
        client.sendall(framed(LARGE) * 5)
        client.setsockopt(socket.SOL_SOCKET, socket.SO_LINGER, struct.pack("ii", 1, 0))
        client.close()
    assert asks(other, QUESTION) and asks_at_once()


def test_few_descriptors(programs, zone, connect):
    """A connection that can't be accepted does not stop the others."""
    with zonesocket(programs, zone, MANY, preexec_fn=limit_of(resource.RLIMIT_NOFILE, 20)) as server:
        peers = connect(30)
        assert asks(peers[0], QUESTION)
        for peer in peers[1:20]:
            peer.close()
        assert until(asks_at_once, 10)
        assert server.end()[0] == 0 and "accept" in server.said


def test_end_on_request(programs, server, zone, connect):
    client, silent = connect(2)
    assert asks(client, QUESTION)
    client.sendall(framed(QUESTION) * 100)
    begun = time.monotonic()
    server.run.stdout.close()
    assert all(frame_of(client)[:2] == QUESTION[:2] for _ in range(100)) and frame_of(client) is None
    assert frame_of(silent) is None
    assert server.end() == (0, []) and time.monotonic() - begun < 4.5
    with zonesocket(programs, zone, MANY, "udp") as server:
        assert server.reply(QUESTION)[:2] == QUESTION[:2]
        begun = time.monotonic()
        assert server.end() == (0, []) and time.monotonic() - begun < 1


def test_a_file_or_a_terminal_never_ends_it(programs, zone, tmp_path):
    for out in [open(tmp_path / "said", "wb"), open(os.openpty()[1], "wb")]:
        with out, bound(socket.SOCK_STREAM, MANY) as given:
            server = subprocess.Popen([programs / "zonesocket", "tcp", "2", "example", zone], stdin=given, stdout=out)
            assert until(asks_at_once)
            time.sleep(0.5)
            assert server.poll() is None and asks_at_once()
            assert server.wait(5) == 0


def test_sockets_that_are_not_served(programs, zone):
    with contextlib.ExitStack() as stack:
        enter = stack.enter_context
        udp, tcp = (enter(bound(kind, MANY)) for kind in (socket.SOCK_DGRAM, socket.SOCK_STREAM))
        idle = enter(bound(socket.SOCK_STREAM, ("127.0.0.1", 5390)))
        idle.shutdown(socket.SHUT_RDWR)
        rows = [(udp, "tcp"), (tcp, "udp"), (enter(connected(MANY)), "tcp"), (enter(asking(MANY)), "udp"),
                (enter(socket.socket()), "tcp"), (idle, "tcp"), (enter(socket.socketpair()[0]), "tcp")]
        if os.getuid() == 0:
            raw = enter(socket.socket(socket.AF_INET, socket.SOCK_RAW, 200))
            rows += [(raw, "udp"), (raw, "tcp")]
        for given, transport in rows:
            done = run(programs / "zonesocket", transport, "1", "example", zone, stdin=given)
            assert (done.returncode, done.stderr) == (2, "bind\n"), (given, transport)
