"""Measures runs of programs: processor time, memory, instructions. Prints the tables of a bench."""
import contextlib
import glob
import os
import shutil
import subprocess
import sys
import tempfile
from pathlib import Path

TOP = Path(__file__).resolve().parent.parent
sys.path.append(str(TOP / "tests"))
import servers  # noqa: E402

# The seconds after which a run is ended.
SECONDS = 600
# callgrind counts each octet of `rep movsb` as an instruction, so the C library is set to avoid it.
NO_REP = {"GLIBC_TUNABLES": "glibc.cpu.x86_rep_movsb_threshold=1000000000:glibc.cpu.x86_rep_stosb_threshold=1000000000"}
CALLGRIND = ["valgrind", "--tool=callgrind", "--callgrind-out-file=/dev/null", "--main-stacksize=16777216"]


def program(name):
    """A built program: that of the folder $PROGRAMS, or of this checkout."""
    folder = os.environ.get("PROGRAMS")
    return str(Path(folder, name).resolve() if folder else TOP / "crates" / name / "out" / name)


def print_tables(tables, *programs):
    """Prints the tables named by the arguments, or all of them: each is a function of an empty folder. `programs` are
    needed. The status is 1 if a table returns a true value."""
    if unknown := set(sys.argv[1:]) - set(tables):
        sys.exit(f"{sys.argv[0]}: there is no table {unknown.pop()}, but {', '.join(tables)}")
    for name in ("valgrind", "/usr/bin/time", *programs):
        if not shutil.which(name):
            sys.exit(f"{name} is missing")
    with tempfile.TemporaryDirectory() as folder:
        sys.exit(any([tables[name](folder) for name in sys.argv[1:] or tables]))


def taken(words, given):
    """The number of octets that a run writes, its status, its processor time in seconds, and its peak memory in KB."""
    with tempfile.TemporaryFile() as sink, tempfile.NamedTemporaryFile() as told:
        measuring = ["/usr/bin/time", "-q", "-o", told.name, "-f", "%U %S %M", *words]
        run = subprocess.run(measuring, input=given, stdout=sink, stderr=subprocess.STDOUT, timeout=SECONDS)
        user, system, memory = told.read().split()
        return sink.seek(0, os.SEEK_END), run.returncode, float(user) + float(system), int(memory)


def instructions(words, given, patience=SECONDS, folder=None):
    """The instructions of a run, or None if it takes longer than `patience` seconds."""
    how = {"env": {**os.environ, **NO_REP}, "timeout": patience, "cwd": folder}
    try:
        run = subprocess.run([*CALLGRIND, *words], input=given, stdout=subprocess.DEVNULL, stderr=subprocess.PIPE, **how)
    except subprocess.TimeoutExpired:
        return None
    return next(int(line.split()[-1]) for line in run.stderr.decode(errors="replace").splitlines() if "Collected" in line)


def time_of(server):
    """The processor time so far of the processes in a server's session, in microseconds, with a fraction."""
    nanoseconds = 0
    for task in glob.iglob("[0-9]*/task/*", root_dir="/proc"):
        with contextlib.suppress(OSError):
            if int(servers.fields_of(task)[3]) == server.pid:
                nanoseconds += int(Path("/proc", task, "schedstat").read_text().split()[0])
    return nanoseconds / 1_000
