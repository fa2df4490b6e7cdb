"""bin/zonedeploy and bin/zonedeploy-to: serials (RFC 1982 3.2), restarts that fail, faulty and other zones, files that
can't be read or written, dry runs, two runs at once, runs that are killed, and connections that break."""
import hashlib
import json
import os
import re
import resource
import subprocess
from pathlib import Path

import pytest
from servers import DATA, limit_of, run, script, until

WORKS = ["bash", "-c", "echo >>restarts"]


def write(serial, address="192.0.2.4", count=0):
    """Writes the zone file `new`, which is to be deployed, with some hosts more."""
    more = "".join(f"h{number} A 192.0.2.9\n" for number in range(count))
    Path("new").write_text(f"$TTL 60\n@ SOA ns h {serial} 2 3 4 5\n@ NS ns\nns A {address} ; a comment\n{more}")


def serial_in(file):
    return Path(file).read_text().split(None, 7)[6] if os.path.isfile(file) else ""


@pytest.fixture
def deploys(programs, tmp_path, monkeypatch):
    """Runs zonedeploy in an empty folder, and compares its status, the serial of served.zone, and the number of
    restarts so far with these, and looks for `said` in what it prints."""
    monkeypatch.chdir(tmp_path)
    Path("restarts").touch()

    def deploys(status, serial, restarts, said="", options=(), origin="example", restart=WORKS, **how):
        done = run("zonedeploy", *options, origin, "new", "served.zone", *restart, **how)
        got = done.returncode, serial_in("served.zone"), Path("restarts").read_text().count("\n")
        assert got == (status, str(serial), restarts) and said in done.stdout + done.stderr, done
    return deploys


# Steps, one after another: the serial and the address of the file that is written before, if one is; the status, the
# serial that is served and the restarts so far; a part of what is printed; and how zonedeploy is run. Or a file that is
# written, and its text. A restart that failed is made up for by the next run, and not twice. A zone of another name is
# refused: with a mistyped ORIGIN, and as a file of another zone.
STEPS = json.loads((DATA / "deploys.json").read_text())


@pytest.mark.parametrize("steps", STEPS.values(), ids=STEPS)
def test_steps(deploys, steps):
    for written, status, *wanted in steps:
        if not wanted:
            Path(written).write_text(status)
            continue
        serial, restarts, said, *how = wanted
        if written:
            write(*written)
        before = serial_in("served.zone")
        deploys(status, serial, restarts, said, **dict(*how))
        assert before in ("", str(serial)) or serial_in("served.zone.old") == before


def test_files_that_are_not_plain(deploys):
    write(3)
    deploys(0, 3, 1)
    Path("new").rename("old")
    deploys(2, 3, 1, "'new': No such file")
    write(4)
    Path("served.zone").chmod(0o600)
    deploys(0, 4, 2)
    text = Path("new").read_text()
    Path("new").unlink()
    os.mkfifo("new")
    for status, given, said in [(1, text.replace("192.0.2.4", "192.0.2.256"), "new:4:6: R13: "),
                                (0, text, "nothing changes")]:
        with subprocess.Popen(["tee", "new"], stdin=subprocess.PIPE, stdout=subprocess.DEVNULL) as writer:
            writer.stdin.write(given.encode())
            writer.stdin.close()
            deploys(status, 4, 2, said)
    Path("new").unlink()
    Path("new").mkdir()
    deploys(2, 4, 2, "Is a directory")
    Path("new").rmdir()
    assert Path("served.zone").stat().st_mode & 0o777 == 0o600


def test_what_cannot_be_written_as_a_whole_is_not_deployed(deploys):
    """The file and the reason are named."""
    limited = limit_of(resource.RLIMIT_FSIZE, 100 * 1024)
    write(6, count=5000)
    deploys(0, 6, 1)
    write(2)
    deploys(2, 6, 1, "served.zone can't be copied", preexec_fn=limited)
    write(7, count=4000)
    deploys(2, 6, 1, "served.zone.deploy/new': File too large", preexec_fn=limited, restore_signals=False)
    cut = hashlib.sha256(Path("new").read_bytes()[:-30]).hexdigest()
    deploys(2, 6, 1, "new was cut off or changed", options=[f"--sha256={cut}"])
    Path("served.zone").unlink()
    Path("served.zone").mkdir()
    deploys(2, "", 1, "served.zone is not a plain file")
    Path("served.zone").rmdir()
    deploys(0, 7, 2)
    assert run("zonedeploy", "example", "new", "/proc/served.zone", *WORKS).returncode == 2
    deploys(0, 7, 2, "nothing changes")


def test_two_runs_at_once_and_runs_that_are_killed(deploys, monkeypatch):
    """While `diff` takes its time."""
    script("slow/diff", ": >begun", "sleep ${LAG-0}", 'exec /usr/bin/diff "$@"')
    monkeypatch.setenv("PATH", f"{Path.cwd()}/slow", ":")

    def slowly(seconds):
        Path("begun").unlink(missing_ok=True)
        words, settings = ["zonedeploy", "example", "new", "served.zone", *WORKS], {**os.environ, "LAG": str(seconds)}
        child = subprocess.Popen(words, env=settings, stderr=subprocess.DEVNULL)
        until(lambda: os.path.exists("begun") or child.poll() is not None, 30)
        return child
    write(7)
    deploys(0, 7, 1)
    write(8)
    first = slowly(2)
    write(9)
    deploys(0, 9, 3, "waits for another zonedeploy")
    first.wait()
    assert serial_in("served.zone") == "9"
    write(10)
    for _ in range(3):
        child = slowly(1)
        child.kill()
        child.wait()
    assert until(lambda: len([one for one in Path().rglob("served.zone*") if one.is_file()]) <= 5)
    until(lambda: False, 1)
    deploys(0, 10, 4)
    names = {"new", "restarts", "served.zone", "served.zone.old", "served.zone.deploy", "slow", "begun"}
    assert {one.name for one in Path().iterdir()} <= names and not list(Path("served.zone.deploy").iterdir())


@pytest.mark.peers("strace")
def test_the_text_and_the_move_are_on_the_disk_in_order(deploys):
    write(10)
    deploys(0, 10, 1)
    write(11)
    words = ["strace", "-qq", "-fy", "-e", "trace=fsync,rename,renameat,renameat2", "-o", "calls"]
    assert run(*words, "zonedeploy", "example", "new", "served.zone", *WORKS).returncode == 0
    calls = Path("calls").read_text().replace("\n", " ")
    assert re.search(r'fsync\([0-9]*<[^>]*/new>.*rename[^)]*served\.zone".*fsync\(', calls), calls


def test_a_service_that_is_enabled_and_not_active_is_reported(deploys, monkeypatch):
    script("bin/systemctl", '[ "$*" = "is-enabled --quiet zonesocket@example.service" ]')
    write(12)
    monkeypatch.setenv("PATH", f"{Path.cwd()}/bin", ":")
    deploys(1, 12, 1, "zonesocket@example.service is enabled and not active")


@pytest.fixture
def sends(deploys, monkeypatch):
    """Deploys to hosts, and compares the status and the serial that is served on them. `ssh` runs the command with the
    folder host/ as the host's, and loses all octets after the first CUT. `dig` gets the reply only from ns1 and
    ns3."""
    script("bin/ssh", 'echo "$1" >>hosts',
           'head -c "$CUT" | sh -c "$(echo "$2" | sed "s|/var/lib/mitrehyssop|$PWD/host|g")"')
    script("bin/dig", 'case "$*" in *@ns[13]\\ *) echo "ns.example. h.example. 4 2 3 4 5" ;; *) exit 9 ;; esac')
    script("bin/sleep")
    script("bin/systemctl")
    Path("host").mkdir()
    write(3)
    assert run("zonedeploy", "example", "new", "host/example.zone", "true").returncode == 0
    write(4, count=200)
    monkeypatch.setenv("PATH", f"{Path.cwd()}/bin", ":")

    def sends(status, cut, serial, said, *hosts):
        done = run("zonedeploy-to", "example", "new", *hosts, env={**os.environ, "CUT": str(cut)})
        got = done.returncode, serial_in("host/example.zone")
        assert got == (status, str(serial)) and said in done.stdout + done.stderr, done
    return sends


def test_a_connection_that_breaks_changes_nothing(sends):
    """The text up to an end of a line, and other beginnings of it, would pass the checks."""
    def files():
        return {str(one): one.read_bytes() for one in Path("host").rglob("*") if one.is_file()}
    before, text = files(), Path("new").read_text()
    lines = [len("".join(text.splitlines(True)[:count])) for count in (100, 200)]
    for cut in (0, 1, 60, *lines, len(text) - 20, len(text) - 1):
        sends(2, cut, 3, "cut off or changed", "ns1")
    assert files() == before


def test_it_stops_at_the_first_host_without_the_new_serial(sends):
    sends(1, 9999, 4, "zonedeploy-to: ns2 does not reply with serial 4", "root@ns1", "ns2", "ns3")
    assert Path("hosts").read_text().split() == ["root@ns1", "ns2"]
