"""Faults at run time: allocations and system calls that fail, little memory, a small stack, bad standard streams,
signals. Each run must either be normal, where the fault allows that, or end with the message and the status of
docs/CODES.md, after writing at most a prefix of its normal output."""
import contextlib
import fcntl
import itertools
import json
import os
import re
import resource
import socket
import subprocess
import threading
import time

import dns.message
import pytest
from servers import DATA, TOP, Serving, asking, bound, connected, filled, framed, limit_of, mixed_zone, query, until

ADDRESS = ("127.0.0.1", 5396)
QUERY = query("www.example")
EXAMPLE, REFUSED = TOP / "examples" / "example.zone", TOP / "crates" / "refused"
LARGE = REFUSED / "data" / "large.zone"
pytestmark = pytest.mark.slow
compiled, traced = pytest.mark.peers("cc"), pytest.mark.peers("strace")


class Case:
    """A program with its arguments and its input, and its normal status and output, for which it is run once."""

    def __init__(self, words, given=b""):
        self.words, self.given = [str(word) for word in words], given
        self.status, self.output, self.errors = self.well = self.run()

    def run(self, before=(), **how):
        ran = subprocess.run([*before, *self.words], input=self.given, timeout=60, **{"capture_output": True, **how})
        return ran.returncode, ran.stdout, ran.stderr

    def stopped(self, result, message, nothing=True):
        """Whether a run ended with status 2 and this message, and wrote no output, or, if `nothing` is false, a prefix
        of the normal output."""
        status, output, errors = result
        begins = not output if nothing else self.output.startswith(output)
        return status == 2 and begins and errors == message + b"\n"


# `programs`: the words of each case, and the file that is its input, if it has one. In the message of a name error, the
# owner of the SOA record is a pointer, and the two names in the record's data end in pointers. `calls`: system calls,
# each with its error and the message of a program if it fails. `sockets`: the same for each server and transport.
# `refused`: calls that may get no memory, each with the beginnings of its output and of what follows, and the line that
# is printed instead if it gets none.
FAILING = json.loads((DATA / "failing.json").read_text())


@pytest.fixture(scope="module")
def folder(tmp_path_factory):
    folder = tmp_path_factory.mktemp("faults")
    (folder / "some.zone").write_bytes(mixed_zone(1_999))
    return folder


@pytest.fixture(params=FAILING["programs"])
def case(request, programs, folder):
    words, given = FAILING["programs"][request.param]
    name, *words = filled(words, examples=TOP / "examples", data=DATA, folder=folder).split()
    given = (TOP / given).read_bytes() if given else b""
    return Case([programs / name, *words], given)


@pytest.fixture(scope="module")
def refusing(folder):
    """Gives the environment that makes an allocation fail, and a file that is created when that happens
    (tests/data/refuse.c)."""
    device, mark = folder / "refuse.so", folder / "refused"
    subprocess.run(["cc", "-shared", "-fPIC", "-O1", "-o", device, DATA / "refuse.c"], check=True)

    def refusing(number):
        mark.unlink(missing_ok=True)
        return {**os.environ, "LD_PRELOAD": str(device), "REFUSE": str(number), "REFUSED": str(mark)}, mark
    return refusing


# ---- memory

def without_one(case, refusing):
    """The results of runs in which the first allocation fails, the second, and so on. After all, a run is normal."""
    for number in itertools.count(1):
        how, mark = refusing(number)
        result = case.run(env=how)
        if not mark.exists():
            assert result == case.well and number > 1
            return
        yield result


@compiled
def test_each_allocation_fails(case, refusing):
    """Alone: the program must report `no memory` and write no output, but for at most one, which only makes room ahead
    and is asked for again."""
    others = [result for result in without_one(case, refusing) if not case.stopped(result, b"no memory")]
    assert others in ([], [case.well])


@pytest.fixture
def refused(programs):
    """The program of crates/refused, which calls functions of the libraries one after another."""
    if not (programs / "refused").exists():
        pytest.skip("crates/refused is not built: rt run there builds it")
    return Case([programs / "refused", LARGE])


@compiled
def test_each_allocation_of_a_call_fails(refused, refusing):
    """Alone: one call must report it, or else the program itself, but for at most one in each of three calls, which
    only makes room ahead. The last allocation must be one of load_zone: the replies and sessions that follow it
    allocate nothing."""
    assert refused.well == (0, (REFUSED / "stdout").read_bytes(), b"")
    wanted, said = {}, []
    for name, row in FAILING["refused"].items():
        begin, end, line = map(str.encode, row)
        after = refused.output[refused.output.index(end):] if end else b""
        wanted[name] = refused.output[:refused.output.index(begin)] + line + b"\n" + after
    results = list(without_one(refused, refusing))
    reported = [result for result in results if result != refused.well]
    for result in reported:
        names = [name for name, output in wanted.items() if result == (0, output, b"")]
        assert names or refused.stopped(result, b"no memory"), result
        said += names or ["the program"]
    assert set(said) == {*wanted, "the program"} and len(results) - len(reported) <= 3, said
    assert said[-1] == "load_zone"


def test_little_memory(case):
    """The limit is raised in steps of 64 KB, from the least with which the program starts, until three runs in a row
    are normal. Each other run must report `no memory`."""
    def run(program, kb):
        return program.run(preexec_fn=limit_of(resource.RLIMIT_AS, kb * 1024))
    usage, wells = Case([case.words[0], "--no-such-word"]), 0
    limit = next(kb for kb in range(1000, 100_000, 64) if run(usage, kb)[0] == 2)
    while wells < 3:
        result = run(case, limit)
        wells = wells + 1 if result == case.well else 0
        assert wells or case.stopped(result, b"no memory"), limit
        limit += 64


def test_a_small_stack(case):
    assert case.run(preexec_fn=limit_of(resource.RLIMIT_STACK, 128 * 1024)) == case.well


def test_a_small_stack_for_all_calls(refused):
    assert refused.run(preexec_fn=limit_of(resource.RLIMIT_STACK, 1024 * 1024)) == refused.well


# ---- system calls, and standard streams

def injecting(name, error, number):
    return ["strace", "-qq", "-o", "/dev/null", "-e", f"inject={name}:error={error}:when={number}"]


@traced
@pytest.mark.parametrize("name, error, message", [(name, *row) for name, row in FAILING["calls"].items()])
def test_each_system_call_fails(case, folder, name, error, message):
    """The program must print the message for what failed. If a call for memory or `close` fails, the run may also be
    normal. The call that sets the action of SIGPIPE is the last one of the loader."""
    case.run(["strace", "-qq", "-o", str(folder / "trace")])
    loader, sigpipe, own = (folder / "trace").read_text(errors="replace").partition("SIGPIPE")
    before, after = (len(re.findall(rf"^{name}\(", calls, re.M)) for calls in (loader, own))
    assert sigpipe
    for number in range(before + 1, before + after + 1):
        result = case.run(injecting(name, error, number))
        is_well = result == case.well and message == "no memory"
        assert is_well or case.stopped(result, message.encode(), nothing=name not in ("read", "write")), number


def test_bad_streams(case, folder):
    """Standard output is full, closed, a pipe without a reader, or a file of limited size with SIGXFSZ ignored. Then
    standard error is closed."""
    limited = {"preexec_fn": limit_of(resource.RLIMIT_FSIZE, 512), "restore_signals": False}
    wanted = (2, None, b"P1\n") if case.output else (case.status, None, case.errors)
    reader, writer = os.pipe()
    os.close(reader)
    how = {"capture_output": False, "stderr": subprocess.PIPE}
    with open("/dev/full", "wb") as full, os.fdopen(writer, "wb") as pipe, open(folder / "limited", "wb") as file:
        assert case.run(stdout=full, **how) == wanted
        assert case.run(preexec_fn=lambda: os.close(1), **how) == wanted
        assert case.run(stdout=pipe, **how) == wanted
        assert len(case.output) <= 512 or case.run(stdout=file, **limited, **how) == wanted
    how = {"capture_output": False, "stdout": subprocess.PIPE}
    assert case.run(preexec_fn=lambda: os.close(2), **how) == (case.status, case.output, None)


def test_streams_that_do_not_block(case):
    """Standard input and output are pipes in non-blocking mode, and the peer is slow to write and to read: the run is
    normal."""
    def unblock():
        fcntl.fcntl(1, fcntl.F_SETPIPE_SZ, 4_096)
        os.set_blocking(0, False)
        os.set_blocking(1, False)

    def give():
        half = len(case.given) // 2
        with contextlib.suppress(OSError), run.stdin:
            for piece in (case.given[:half], case.given[half:]):
                time.sleep(0.1)
                run.stdin.write(piece)

    pipes = dict.fromkeys(("stdin", "stdout", "stderr"), subprocess.PIPE)
    with subprocess.Popen(case.words, bufsize=0, preexec_fn=unblock, **pipes) as run:
        giver = threading.Thread(target=give)
        giver.start()
        time.sleep(0.3)
        written, errors = run.stdout.read(), run.stderr.read()
        giver.join()
    assert (run.returncode, written, errors) == case.well


# ---- servers

TURNS = 3
each_transport = pytest.mark.parametrize("transport", ["udp", "tcp"])


def serving(programs, name, transport, turns=TURNS, zone=EXAMPLE, **how):
    return Serving(programs / name, transport, zone, "example", ADDRESS, turns, **how)


def ended(server):
    """The status and the words on standard error of a server that ends by itself in five seconds, and is killed
    otherwise."""
    with contextlib.suppress(subprocess.TimeoutExpired):
        server.run.wait(5)
    return server.end(0)


def ask(server, times):
    """The number of replies to so many queries, each over a new socket."""
    return sum(len(server.reply(QUERY, 1) or b"") > 12 for _ in range(times if server.serves else 0))


each_server = pytest.mark.parametrize("name", ["zoneserve", "zonesocket"])


@traced
@each_server
@each_transport
def test_each_call_on_a_socket_fails(programs, name, transport):
    """If the server can't begin to serve, it must end with `bind`. Otherwise it must report the call, count the turn,
    and serve the other turns."""
    for call, (error, message) in FAILING["sockets"][f"{name} {transport}"].items():
        # The first send over UDP at a given socket only examines this socket, and is repeated.
        examines = (name, transport, call) == ("zonesocket", "udp", "sendto")
        for number in [1] if message == "bind" else range(1, TURNS + 1 + examines):
            with serving(programs, name, transport, by=injecting(call, error, number)) as server:
                answered, said = ask(server, TURNS), ended(server)
            if examines and number == 1:
                assert (said, answered) == ((0, []), TURNS)
                continue
            status, most = (2, 0) if message == "bind" else (0, TURNS - 1)
            # Over TCP the server also reads the end of each connection. If that read fails, no reply is missing.
            least = most if call != "recvfrom" or transport == "udp" else TURNS - 2
            assert said == (status, [message]) and least <= answered <= TURNS, (call, number, answered)


@traced
@each_server
@each_transport
@pytest.mark.parametrize("number", range(1, TURNS + 2))
@pytest.mark.parametrize("call", ["recvfrom", "sendto"])
def test_a_call_is_interrupted(programs, name, transport, call, number):
    """The server repeats it, and reports nothing."""
    with serving(programs, name, transport, by=injecting(call, "EINTR", number)) as server:
        assert (ask(server, TURNS), ended(server)) == (TURNS, (0, []))


@each_transport
def test_a_given_socket_that_does_not_block(programs, transport):
    """The server waits for questions all the same, and leaves the socket non-blocking."""
    with bound({"udp": socket.SOCK_DGRAM, "tcp": socket.SOCK_STREAM}[transport], ADDRESS) as given:
        given.setblocking(False)
        with serving(programs, "zonesocket", transport, given=given) as server:
            time.sleep(0.1)
            assert (ask(server, TURNS), ended(server), given.getblocking()) == (TURNS, (0, []), False)


def recorded(transport):
    """The replies of `refused` over a transport, the queries to which they are replies, and the octets of its
    session."""
    lines = (REFUSED / "stdout").read_text().split("\n")
    first = lines.index("load_zone: a zone") + 1
    replies = [bytes.fromhex(line) for line in lines[first:first + 16]][1 if transport == "tcp" else 0::2]
    asked = [dns.message.from_wire(reply, question_only=True) for reply in replies]
    queries = [query(one.question[0].name, one.question[0].rdtype, one.id) for one in asked]
    return queries, replies, bytes.fromhex(lines[lines.index("serve_stream: Ok(3)") + 1])


@contextlib.contextmanager
def starved(programs, name, transport, turns, refusing):
    """A server that gets no more memory after it has loaded its zone: with less it must end."""
    for number in range(1, 1000):
        with serving(programs, name, transport, turns, LARGE, env=refusing(f"{number}+")[0]) as server:
            if server.serves and not until(lambda: server.run.poll() is not None, 0.3):
                yield server
                return
            assert ended(server) == (2, ["no", "memory"]), number


@compiled
@each_server
def test_a_starved_server_over_udp(programs, refusing, name):
    """Its replies are as usual."""
    queries, replies, _ = recorded("udp")
    with starved(programs, name, "udp", len(queries), refusing) as server:
        with asking(ADDRESS, 5) as client:
            for asked, reply in zip(queries, replies):
                client.send(asked)
                assert client.recv(512) == reply
        assert ended(server) == (0, [])


@compiled
@each_server
def test_a_starved_server_over_tcp(programs, refusing, name):
    """A connection that there is no memory for is closed at once, with `accept`; one that is served gets its
    replies."""
    queries, replies, session = recorded("tcp")
    stream = framed(QUERY) + framed(QUERY[:11]) + framed(QUERY)
    with starved(programs, name, "tcp", 3, refusing) as server:
        for sent, reply in [(b"".join(map(framed, queries)), b"".join(map(framed, replies))), (stream, session),
                            (b"\0", b"")]:
            with connected(ADDRESS) as client:
                client.sendall(sent)
                client.shutdown(socket.SHUT_WR)
                got = b""
                with contextlib.suppress(ConnectionResetError):
                    got = b"".join(iter(lambda: client.recv(65_536), b""))
                assert got in (reply, b"")
        status, said = ended(server)
        assert status == 0 and set(said) <= {"accept", "S3"}
