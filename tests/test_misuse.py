"""Wrong calls, files and outputs of the built programs; and what a caller of the libraries must not do, or no test
would notice."""
import itertools
import json
import os
import re
import shutil
import subprocess

import pytest
from servers import DATA, TOP, mixed_zone, run

EXAMPLES = TOP / "examples"


def needs_rt(test):
    return pytest.mark.slow(pytest.mark.peers("rt")(test))


# For each program, its calls in examples/, in which FOLDER is a folder with faulty zones: the words, the status, and
# what is written to each stream. zonesocket gets no socket.
CALLS = json.loads((DATA / "calls.json").read_text())
# Lines with six faults of entries.
ROW = ('$TTL 60\n@ SOA ns h 1 2 3 4 5\n@ NS ns\nns A 192.0.2.300\nwww 1h A 192.0.2.1\nmx MXX 10 ns\n'
       't TXT ( "a"\n  "b\n)\nb..c A 192.0.2.1\n')
LOADED = "zone example/IN: loaded serial 1\nOK\n"


@pytest.mark.parametrize("program, words, status, output, errors",
                         [(name, *row) for name, rows in CALLS.items() for row in rows])
def test_a_call(programs, tmp_path, program, words, status, output, errors):
    (tmp_path / "mapped.zone").write_text("$TTL 5\n@ AAAA ::192.0.2.1\n")
    (tmp_path / "open.zone").write_text('@ NS "')
    (tmp_path / "row.zone").write_text(ROW)
    words = words.replace("FOLDER", str(tmp_path)).split(" ") if words else []
    done = run(programs / program, *words, cwd=EXAMPLES, stdin=subprocess.DEVNULL)
    assert (done.returncode, done.stdout, done.stderr) == (status, output, errors)


SOUND = b"$TTL 60\n@ SOA ns h 1 2 3 4 5\n@ NS ns\nns A 192.0.2.1\n"
MANY = b"w A 192.0.2.300\n" * 2_000
FULL = SOUND + b"".join(b"w%d A 192.0.2.2\n" % number for number in range(99_997))
LONGEST = SOUND + b"w A x\n" + b"\n" * (2**24 - 58)
LIMITS = {
    "empty": (b"", "example. Z01\nexample. Z04\n"),
    "2,000 faults": (SOUND + b"w CNAME ns\nw A 192.0.2.1\n" + MANY, "".join(
        f"{line}:5-{line}:16 R13.3\n" for line in range(7, 1_007)) + "more\nw.example. Z06\n"),
    "1,000 faults": (SOUND + MANY[:16_000], "".join(f"{line}:5-{line}:16 R13.3\n" for line in range(5, 1_005))),
    "100,000 records": (FULL, ""),
    "more records": (FULL + b"x A 192.0.2.3\ny A 192.0.2.300\n", "100002:1-100002:1 R14\n"),
    "16 MiB": (LONGEST, "5:5-5:6 R13.3\n"),
    "more octets": (LONGEST + b"y A x\n", "5:5-5:6 R13.3\n16777164:1-16777164:2 R15\n"),
    "a long comment": (SOUND + b"w A x\n" + b";" * 2**24, "5:5-5:6 R13.3\n6:16777159-6:16777160 R15\n")}


@pytest.mark.parametrize("text, wanted", LIMITS.values(), ids=LIMITS)
def test_the_limits_of_zonefaults(programs, tmp_path, text, wanted):
    """Also from a pipe, in which it can't look at the size of the file."""
    file = tmp_path / "zone"
    file.write_bytes(text)
    for words in ([file], ["/dev/stdin"]):
        done = run(programs / "zonefaults", "example", *words, input=text, text=False)
        assert (done.returncode, done.stdout.decode(), done.stderr) == (int(wanted != ""), wanted, b"")


@pytest.mark.parametrize("program, words, output", [
    ("zonecheck", [], LOADED), ("zonefaults", [], ""), ("zoneserve", ["once"], "")])
def test_the_name_of_a_program_need_not_be_utf_8(programs, tmp_path, program, words, output):
    named = os.fsencode(tmp_path / program) + b"\xff"
    shutil.copy(programs / program, named)
    done = subprocess.run([named, *words, "example", EXAMPLES / "example.zone"], capture_output=True, input=b"")
    assert (done.returncode, done.stdout, done.stderr) == (0, output.encode(), b"")


@pytest.mark.parametrize("words, device", [
    *itertools.product(["zonecheck", "zonecheck --print", "zonefaults"], [">/dev/full", ">&-"]),
    *((words, "| head -c 100 >/dev/null; exit ${PIPESTATUS[0]}") for words in ("zonecheck --print", "zonefaults"))])
def test_an_output_that_fails(programs, tmp_path, words, device):
    zone = tmp_path / "zone"
    if words == "zonefaults":
        zone.write_bytes(SOUND + b"".join(b"w%d CNAME ns\nw%d A 192.0.2.2\n" % (at, at) for at in range(10_000)))
    else:
        zone.write_bytes(mixed_zone() if "|" in device else (EXAMPLES / "example.zone").read_bytes())
    done = run("bash", "-c", f"{words} example {zone} {device}")
    assert (done.returncode, done.stderr) == (2, "P1\n")


@pytest.mark.peers("strace")
@pytest.mark.parametrize("option", ["", "--print"])
def test_a_device_is_not_used_again_after_it_has_failed(programs, tmp_path, option):
    zone, calls = EXAMPLES / "example.zone", tmp_path / "calls"
    done = run("bash", "-c",
               f"strace -qq -e trace=write,writev -o {calls} zonecheck {option} example {zone} >/dev/full")
    assert (done.returncode, done.stderr) == (2, "P1\n")
    assert len(re.findall(r"^writev?\(1,", calls.read_text(), re.M)) == 1


# ---- what the compiler must refuse

# `caller`: the error, and no other, for a caller of a walk (`Steps` of dns_zone, which counts the nodes that it
# reaches) that ends with an expression. A walk is not cloned or copied; neither a walk nor a node gives a zone, which
# would allow a second walk; neither can be constructed; and no count can be reset. `within`: expressions that are
# refused as `private-field` even in dns_zone, each with its file and the line before which it is put. Neither a walk
# nor a node reaches an allocator; the search for a child reaches no row, record or key of the tree, neither from the
# node nor from the walk, and makes or resets no count. `bodies`: see below.
MISUSE = json.loads((DATA / "misuse.json").read_text())


@pytest.fixture(scope="module")
def zone_library(tmp_path_factory):
    """A folder outside the repository with a copy of dns_zone, of the crates that it uses, and of what is built of
    them."""
    assert run("rt", "lib", cwd=TOP / "crates" / "dns_zone", timeout=7200).returncode == 0
    folder, lines = tmp_path_factory.mktemp("library"), (TOP / "crates.txt").read_text().splitlines()
    uses = {line.split(":")[0]: line.split(":")[1].split() for line in lines if ":" in line}
    names = [name for name in ["dns_zone", *uses["dns_zone"]] if (TOP / "crates" / name).is_dir()]
    for name in names:
        for part in ("src", "specs", "proofs", "out/rlib"):
            if (TOP / "crates" / name / part).is_dir():
                shutil.copytree(TOP / "crates" / name / part, folder / "crates" / name / part)
    kept = [line for line in lines if line.split(":")[0] in names]
    (folder / "crates.txt").write_text("\n".join([*kept, "caller: dns_zone", ""]))
    (folder / "crates" / "caller" / "src").mkdir(parents=True)
    return folder / "crates"


def errors_of(crate):
    """The errors that the check prints before it proves anything: none if it ends well, None if it fails otherwise."""
    done = run("rt", "check", cwd=crate, timeout=7200)
    errors = set(re.findall(r"^src/[a-z/]*\.rt:[0-9:]* error\[([a-z0-9-]*)\]", done.stdout + done.stderr, re.M))
    begins = re.search("^logic=", done.stdout + done.stderr, re.M)
    return set() if done.returncode == 0 else None if begins or not errors else errors


@needs_rt
@pytest.mark.parametrize("error, expression",
                         [("", "if named { own.visits() } else { steps.visits() }"), *MISUSE["caller"]])
def test_misuse_of_a_walk(zone_library, error, expression):
    text = (DATA / "caller").read_text().replace("LAST", expression)
    (zone_library / "caller" / "src" / "lib.rt").write_text(text)
    assert errors_of(zone_library / "caller") == ({error} if error else set())


@needs_rt
@pytest.mark.parametrize("file, expression, line", MISUSE["within"])
def test_misuse_of_a_tree(zone_library, file, expression, line):
    source = zone_library / "dns_zone" / "src" / "tree" / file
    text = source.read_text()
    try:
        changed = text.replace(f"\n{line}", f"\n    let _ = {expression};\n{line}", 1)
        source.write_text(changed)
        assert changed != text and errors_of(zone_library / "dns_zone") == {"private-field"}
    finally:
        source.write_text(text)


# ---- edits and bodies that must be refused

def copied(folder, *left_out):
    """A copy of the crates in a folder, without files of these names."""
    for other in ("crates.txt", "HANDLES"):
        shutil.copy(TOP / other, folder)
    return shutil.copytree(TOP / "crates", folder / "crates", ignore=shutil.ignore_patterns(*left_out))


@pytest.fixture(scope="module")
def unedited(tmp_path_factory):
    return copied(tmp_path_factory.mktemp("edits"), "out", "must-fail")


@needs_rt
@pytest.mark.parametrize("crate", sorted(folder.parent.name for folder in TOP.glob("crates/*/edits")))
def test_edits(unedited, crate):
    """The check refuses each edit of crates/CRATE/edits, which the gate leaves out, like those of
    must-fail. Results that rt has kept on this machine are reused."""
    edits = (unedited / crate / "edits").rename(unedited / crate / "must-fail")
    done = run("rt", "must-fail", crate, cwd=unedited.parent, timeout=36_000)
    said = done.stdout + done.stderr
    refused = re.findall(r"^(?:rt: )?must-fail [^:]*: refused, as it must be", said, re.M)
    assert len(refused) == len(list(edits.iterdir())), said


# No contract rejects a body that wrongly reports that memory is missing, because a contract can't
# state when memory is available. So such bodies can't be must-fail edits. For each: the file, a text
# that occurs there once, the text that replaces it, the crate of tests, the modules of tests that are
# run (without proofs), and the test that must fail.
@needs_rt
@pytest.mark.parametrize("file, old, new, tests, modules, test", MISUSE["bodies"],
                         ids=[body[-1] for body in MISUSE["bodies"]])
def test_a_wrong_body_is_noticed(tmp_path, file, old, new, tests, modules, test):
    crates = copied(tmp_path, "out")
    text = (crates / file).read_text()
    assert text.count(old) == 1
    (crates / file).write_text(text.replace(old, new))
    sources = crates / tests / "src"
    (sources / "tests.rt").write_text("".join(f"mod {module};\n" for module in modules))
    for other in (sources / "tests").iterdir():
        if other.stem not in modules:
            other.unlink()
    done = run("rt", "try", "--test", cwd=crates / tests, timeout=7200)
    said = done.stdout + done.stderr
    assert "test result: " in said and f"test tests::{test} ... FAILED" in said
