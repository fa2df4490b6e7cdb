"""libexec/workers: starts, reloads under load, faulty and missing files, workers that end, clients that stay, and
ends."""
import os
import signal
import socket
import threading
import time

import pytest
import servers
from servers import Steady, Workers, asks, bound, connected, frame_of, is_answered, is_there, until

HERE = ("127.0.0.1", 5392)
ORIGIN = "example.com"
QUESTION = servers.query("www.example.com")
ZONE = "$TTL 60\n@ SOA ns h {} 2 3 4 5\n@ NS ns\nns A 192.0.2.1\nwww A 192.0.2.2\n"
MANY = "".join(f"host{i:06} A 192.0.2.3\n" for i in range(99_996))
SERVES = "zone example.com/IN: serving serial {}, 4 records, by a process at each of 3 sockets"


def write(file, serial, more=""):
    new = file.with_name("new")
    new.write_text(ZONE.format(serial) + more)
    new.rename(file)


@pytest.fixture
def run(programs, tmp_path):
    """Starts `workers` for a file with a blank in its name."""
    file = tmp_path / "a zone"
    write(file, 1)
    return lambda **how: Workers(programs, tmp_path, HERE, ORIGIN, file, **how)


def test_start_and_end(run):
    with run() as workers:
        assert workers.log() == SERVES.format(1) + "\n"
        assert is_answered(HERE, QUESTION)
        assert [len(workers.processes(kind)) for kind in ["udp", "tcp"]] == [2, 1]
        before = workers.processes()
        workers.run.terminate()
        assert workers.run.wait(timeout=5) == 0
        assert not any(map(is_there, before))
        assert workers.reload() == 2


@pytest.mark.parametrize("records", [4, pytest.param(100_000, marks=pytest.mark.slow)])
def test_reloads_lose_nothing(run, records):
    more = MANY if records > 4 else ""
    with run() as workers:
        write(workers.file, 1, more)
        assert workers.reload() == 0
        with Steady(HERE, ORIGIN) as client:
            for serial in range(2, 22):
                write(workers.file, serial, more)
                assert workers.reload() == 0, workers.log()
        assert (client.lost, client.lost_tcp) == (0, 0), f"of {client.asked} and {client.asked_tcp}: {workers.log()}"
        assert client.serials == list(range(1, 22))
        assert until(lambda: len(workers.processes()) == 3), "the old workers have ended"


def test_faulty_files(run):
    with run() as workers:
        before = workers.processes()
        write(workers.file, 2, "www A 192.0.2.256\n" * 300)
        assert workers.reload() == 1 and is_answered(HERE, QUESTION)
        assert f"{workers.file} is at fault:\n{workers.file}:6:7: R13" in workers.log()
        assert len(workers.log().splitlines()) < 110
        for make, status, said in [
                (lambda: None, 2, "can't be read: No such file or directory; zonedeploy puts it there\n"),
                (lambda: workers.file.symlink_to("/dev/zero"), 2, "a zone is not a plain file\n"),
                (lambda: os.mkfifo(workers.file), 2, "a zone is not a plain file\n"),
                (workers.file.touch, 1, "zonecheck ended with status 1\n")]:
            workers.file.unlink(missing_ok=True)
            make()
            assert workers.reload() == status and workers.log().endswith(said)
        assert workers.processes() == before and is_answered(HERE, QUESTION)
        # The processor time of the supervisor, and of its children that have ended.
        assert sum(map(int, servers.fields_of(workers.pid)[11:15])) < 3 * os.sysconf("SC_CLK_TCK")
        write(workers.file, 3)
        assert workers.reload() == 0 and SERVES.format(3) in workers.log()


def test_a_reload_is_whole_or_not_at_all(run, programs, tmp_path):
    """If one new worker of three fails, no socket gets the new zone."""
    servers.script(tmp_path / "shim" / "zonesocket", f'[ "$1" = udp ] || [ ! -e {tmp_path}/fails ] || exit 3',
                   f'exec {programs}/zonesocket "$@"')
    workers = run()
    workers.environment["PATH"] = f"{tmp_path / 'shim'}:{workers.environment['PATH']}"
    with workers:
        (tmp_path / "fails").touch()
        write(workers.file, 2)
        before = workers.processes()
        assert workers.reload() == 1
        assert "zonesocket tcp ended with status 3 before it served" in workers.log()
        assert until(lambda: workers.processes() == before)
        assert all(servers.serial_at(HERE, ORIGIN) == 1 for _ in range(20))


def test_a_file_that_changes_at_the_start(run):
    """It is soon loaded again without a request: systemd takes a request during the start as done."""
    with run() as workers:
        write(workers.file, 2)
        assert until(lambda: SERVES.format(2) in workers.log())


def test_signals_that_reload(run):
    """HUP reloads, also 200 of them beside requests; no worker of an old zone remains."""
    with run() as workers:
        for serial in range(2, 42):
            write(workers.file, serial)
            for _ in range(5):
                workers.run.send_signal(signal.SIGHUP)
            if serial % 8 == 0:
                assert workers.reload() == 0
        assert until(lambda: workers.log().rstrip().endswith(SERVES.format(41)), 20)
        time.sleep(1)
        assert until(lambda: len(workers.processes()) == 3, 10)
        assert is_answered(HERE, QUESTION)


def test_a_faulty_start(run):
    for text, sockets, status, said in [
        ("www A 192.0.2.256\n", [bound(socket.SOCK_DGRAM, HERE)], 1, ":6:7: R13"),
        ("", [socket.socketpair()[0]], 2, "descriptor 3 is no socket of UDP or TCP"),
    ]:
        workers = run()
        write(workers.file, 1, text)
        workers.said.write_text("")
        begun = time.monotonic()
        assert workers.begin(sockets).wait(timeout=10) == status
        assert said in workers.log() and time.monotonic() - begun > 1
        for one in sockets:
            one.close()
    for settings, words in [({}, ["a", "b"]), ({"LISTEN_FDS": "1"}, ["a"]), ({"LISTEN_FDS": "0"}, ["a", "b"])]:
        ended = servers.run(servers.LIBEXEC / "workers", *words, env={**os.environ, **settings})
        assert (ended.returncode, ended.stderr[:6]) == (2, "usage:")


def test_workers_that_end(run):
    with run() as workers:
        time.sleep(1)
        udp, tcp = workers.processes("udp"), workers.processes("tcp")
        os.kill(udp[0], signal.SIGKILL)
        os.kill(tcp[0], signal.SIGKILL)
        assert until(lambda: len(workers.processes()) == 3 and is_answered(HERE, QUESTION))
        assert "zonesocket udp ended with status -9, and is started again" in workers.log()
        # A worker that has ended is replaced even if the file is faulty now: all workers of a zone load one copy.
        write(workers.file, 2, "faulty\n")
        time.sleep(1)
        os.kill(workers.processes("udp")[0], signal.SIGKILL)
        assert until(lambda: len(workers.processes()) == 3) and is_answered(HERE, QUESTION)
        write(workers.file, 3)
        stopped = workers.processes()
        for one in stopped:
            os.kill(one, signal.SIGSTOP)
            assert until(lambda one=one: servers.fields_of(one)[0] == "T")
        assert workers.reload() == 0 and is_answered(HERE, QUESTION)
        assert until(lambda: not set(stopped) & set(workers.processes()), 12)


def test_turns(run):
    """A worker that has handled its turns is followed by another."""
    with run(TURNS="100"), Steady(HERE, ORIGIN, 300, 20, least=3) as client:
        pass
    assert client.lost_tcp == 0 and client.lost == 0, f"{client.lost} of {client.asked}"


def test_clients_that_stay(run):
    """A connection that is open during a reload is answered until it is closed; a silent one delays nobody."""
    with run() as workers:
        silent = [connected(HERE) for _ in range(100)]
        begun = time.monotonic()
        assert is_answered(HERE, QUESTION) and time.monotonic() - begun < 0.5
        with connected(HERE) as client:
            assert asks(client, QUESTION)
            asked = servers.framed(QUESTION) * 50
            client.sendall(asked)
            reload = threading.Thread(target=workers.reload)
            reload.start()
            assert all(frame_of(client)[:2] == QUESTION[:2] for _ in range(50))
            reload.join()
            client.settimeout(6)
            assert frame_of(client) is None, "it is closed in the end"
        for one in silent:
            one.close()
        assert until(lambda: len(workers.processes()) == 3, 10)
