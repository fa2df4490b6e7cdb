"""bin/zonelint: the message and the remedy for each kind of fault, pairs of mistakes, inputs, formats, files in BIND's
form, rules, baselines, serials, and costs. zonecheck must report the same faults, and pass the zone that is corrected
as the message says."""
import itertools
import json
import os
import pty
import re
import select
import shlex
import shutil
import subprocess
import tempfile
import urllib.parse
import xml.etree.ElementTree
from pathlib import Path

import pytest
from servers import DATA, TOP, run, spent

LINT = TOP / "bin" / "zonelint"
GOOD = "$TTL 1h\n@ SOA ns h 2026112301 2h 15m 2w 1h\n@ NS ns\n@ NS ns.example.net.\nns A 192.0.2.1\n"
# A good zone as zoneserve serves it.
SERVED = "$TTL 60\n@ SOA ns h 1 60 5 600 60\n@ NS ns\n@ NS ns.example.net.\nns A 192.0.2.1\n"
FAULTY = (TOP / "examples" / "faulty.zone").read_text()
# `lines`: for each fault its code, a part of zonelint's message, the faulty lines that are added to a good zone, and
# the lines corrected as the message or docs/CODES.md says. `files`: a code, a faulty file, and the corrected one.
# `reports`: a file, and all faults that zonelint reports, each with its line. `bind`: lines in BIND's form, the code
# of what is wrong with the first one, and a part of the message. `together`: mistakes that are not made in one
# zone, since in one RRset or on one line they make other faults. `calls`: bad ones. `results`: lines of which one is
# faulty, and the others only because of it. `places`: lines in BIND's form, and the place of the fault. `serials`: a
# serial after 4294967295, lines that are added, and the faults. `settings`: of servers of a zone in FOLDER. `steps`:
# runs, each with its arguments, the lines that are added to a good zone, the file z, or null if z stays as it is, the
# status, all faults, or null, and a part of the messages; or a file that is written, and its text.
CASES = json.loads((DATA / "faults.json").read_text())
# A sound zone, and mistakes: the title, the kind, the lines that are taken out of the zone, and those that are added.
# The kind is `fault` if the zone must not be served as it is, `warning` if it may be meant.
SOUND, MISTAKES = json.loads((DATA / "mistakes.json").read_text()).values()


def found_in(said, kinds="."):
    """The codes that were printed, each with its line."""
    return [(code, int(line)) for line, code in re.findall(rf"^\S.*?:(\d+):(?:\d+:)? ({kinds}\d\d): ", said, re.M)]


def listed(found):
    return ", ".join(f"{line} {code}" for code, line in found)


@pytest.fixture
def lint(programs, tmp_path, monkeypatch):
    """Runs zonelint in an empty folder, with `text` as the file z, or as its input if it is `given`. Returns the
    status, the codes with their lines, and all that it prints."""
    monkeypatch.chdir(tmp_path)

    def lint(*words, text=None, given=None):
        if text is not None:
            (tmp_path / "z").write_bytes(text if isinstance(text, bytes) else text.encode())
        done = run(LINT, *words, input=given or b"", text=False)
        said = (done.stdout + done.stderr).decode()
        return done.returncode, found_in(said), said
    return lint


def zonecheck(text):
    """The status of zonecheck for a zone, and the codes that it prints."""
    Path("checked").write_bytes(text)
    done = run("zonecheck", "example", "checked")
    return done.returncode, set(re.findall(r"\b[RZ]\d\d$", done.stdout + done.stderr, re.M))


@pytest.mark.parametrize("code, says, broken, mended", CASES["lines"])
def test_a_faulty_line(lint, code, says, broken, mended):
    broken, mended = (f"{SERVED}{lines}\n".encode("latin-1") for lines in (broken, mended))
    status, found, said = lint("--served", "example", "-", given=broken)
    also = {"Z09": {"Z10"}}.get(code, set())
    assert status == 1 and {one for one, _ in found if one[0] in "RZ"} == {code, *also} and says in said
    assert zonecheck(broken)[0] == 1 and (code in zonecheck(broken)[1] or not says.endswith("of line 6"))
    assert zonecheck(mended) == (0, set())


@pytest.mark.parametrize("code, broken, mended", CASES["files"])
def test_a_faulty_file(lint, code, broken, mended):
    status, codes = zonecheck(broken.encode("latin-1"))
    assert status == 1 and code in codes and zonecheck(mended.encode("latin-1")) == (0, set())


def test_another_origin_and_too_much(lint):
    assert zonecheck(b"$ORIGIN other.\n" + SERVED.encode()) == (1, {"Z01", "Z03", "Z04", "Z05"})
    many = SERVED + "".join(f"w{number} A 192.0.2.2\n" for number in range(99_997))
    assert zonecheck(many.encode()) == (1, {"R14"}) and zonecheck(many[:many.rindex("w")].encode()) == (0, set())
    assert zonecheck(SERVED.encode() + b"\n" * 16_777_217) == (1, {"R15"})
    assert zonecheck(SERVED.encode() + b"\n" * 996) == (0, set())


@pytest.mark.parametrize("text, wanted", CASES["reports"])
def test_all_faults_of_a_file(lint, text, wanted):
    status, _, said = lint("--served", "example", "-", given=text.encode("latin-1"))
    assert (status, listed(found_in(said, "[RZ]"))) == (1, wanted), said


# ---- mistakes

def mistaken(*cases):
    """The sound zone with these mistakes."""
    out = {line for case in cases for line in case[2]}
    return "\n".join([*(line for line in SOUND if line not in out), *(line for case in cases for line in case[3]), ""])


@pytest.mark.parametrize("step", [10, pytest.param(1, marks=pytest.mark.slow)])
def test_mistakes_alone_and_in_pairs(lint, step):
    """In a zone with two mistakes, all messages for either one alone are given too, but beside a faulty entry only the
    faults of a zone that no further record removes."""
    def found(zones):
        zones = list(zones)
        for number, text in enumerate(zones):
            Path(f"z{number}").write_text(text)
        Path("list").write_text("".join(f"example.com z{number}\n" for number in range(len(zones))))
        sets = [set() for _ in zones]
        for fault in json.loads(lint("--served", "--zones", "list", "--format", "json")[2]):
            sets[int(fault["file"][1:])].add((fault["code"], fault["text"].strip()))
        return sets

    def belong(one, other):
        named = [f"{case[1]} {case[0]}" for case in (one, other)]
        return any(x in named[0] and y in named[1] or y in named[0] and x in named[1]
                   for x, y in CASES["together"]) or one[2] and other[2]

    assert found([mistaken()]) == [set()]
    alone = list(zip(MISTAKES, found(map(mistaken, MISTAKES))))
    for case, some in alone:
        assert some and any(code[0] in "RZ" for code, _ in some) == (case[1] == "fault"), case
    pairs = [pair for pair in itertools.combinations(alone, 2) if not belong(pair[0][0], pair[1][0])][::step]
    for ((a, for_a), (b, for_b)), some in zip(pairs, found([mistaken(a, b) for (a, _), (b, _) in pairs])):
        is_removable = any(code[0] == "R" for code, _ in some)
        wanted = {one for one in for_a | for_b if not (is_removable and one[0] in ("Z01", "Z04", "Z10"))}
        assert wanted <= some, (a[0], b[0])


NAMED = ["named-checkzone", "-i", "local", *(word for check in "kmMnrSTW" for word in (f"-{check}", "warn"))]
CHECKERS = [["zonecheck", "--quiet"], [str(LINT)], NAMED, ["nsd-checkzone"], ["kzonecheck", "-o"],
            ["validns", "-p", "all", "-z"]]


def said_of(checker, text, origin="example.com"):
    """The status of a checker and the set of lines that it writes about a zone, or None if the checker is not
    installed."""
    if not shutil.which(checker[0], path=f"{os.environ['PATH']}:/usr/sbin"):
        return None
    Path("example.com.zone").write_text(text, encoding="utf-8")
    done = run(*checker, origin, "example.com.zone", encoding="latin-1")
    lines = (done.stdout + done.stderr).splitlines()
    return done.returncode, {line for line in lines if "loaded serial" not in line and not line.endswith("in 1 zone")}


def table(checkers):
    """The rows of docs/plots/mistakes.txt. `rejects`: the status is not 0. `warns`: it is 0, and there is a message
    that the zone without mistakes does not get. `silent`: neither. `-`: the checker is not installed. The fresh
    mistakes were made by others, before zonelint was changed for them."""
    fresh = json.loads((DATA / "mistakes-fresh.json").read_text(encoding="utf-8"))
    rows = [(case[0], "example.com", mistaken(case), mistaken()) for case in MISTAKES]
    rows += [(f"fresh: {title}", origin, text, text.rstrip("\n").rpartition("\n")[0] + "\n")
             for title, origin, text, _ in fresh]
    usual = {}
    for title, origin, text, before in rows:
        cells = []
        for at, checker in enumerate(checkers):
            if (at, before) not in usual:
                usual[at, before] = said_of(checker, before, origin)
            found, without = said_of(checker, text, origin), usual[at, before]
            cells.append("-" if found is None else "rejects" if found[0] else "warns" if found[1] - without[1]
                         else "silent")
        yield title, cells


@pytest.mark.slow
def test_the_table_of_mistakes(lint):
    """docs/plots/mistakes.txt says what the checkers that are installed say."""
    lines = (TOP / "docs" / "plots" / "mistakes.txt").read_text().splitlines()[2:]
    for line, (title, cells) in zip(lines, table(CHECKERS), strict=True):
        wanted = line.strip("|\n ").split(" | ")
        is_same = all(got in ("-", one) for got, one in zip(cells, wanted[1:], strict=True))
        assert wanted[0] == title and is_same, (line, cells)


# ---- inputs

def test_standard_input_and_pipes(lint):
    Path("a zone").write_text(FAULTY)
    wanted = [5, 6, 9, 10]
    for words in (["a zone"], ["-"], ["/dev/stdin"]):
        status, _, said = lint("--served", "example", *words, given=FAULTY.encode())
        assert status == 1 and [line for _, line in found_in(said, "[RZ]")] == wanted
    piped = run("bash", "-c", f'"{LINT}" --served example <(cat "a zone")')
    assert piped.returncode == 1 and [line for _, line in found_in(piped.stdout, "[RZ]")] == wanted
    endless = run("bash", "-c", f"yes 'www IN A 192.0.2.1' | '{LINT}' --served example -")
    assert endless.returncode == 1 and " R14: " in endless.stdout


@pytest.mark.parametrize("words", CASES["calls"])
def test_bad_calls(lint, words):
    (Path.cwd() / "z").write_text(SERVED)
    done = run(LINT, "--served", *(words.split(" ") if words else []), input="")
    assert (done.returncode, done.stdout) == (2, "") and done.stderr


def test_octets_that_control_a_terminal(lint):
    Path("e\x1b[31m\n").write_bytes(b"\x1b]0;x\x07 A 192.0.2.1\nb\xff\x9b A \x1b[2J\n" + FAULTY.encode())
    status, found, said = lint("--served", "example", "e\x1b[31m\n")
    assert status == 1 and re.fullmatch(r"[\n -~]+", said) and len(found_in(said, "[RZ]")) > 4


@pytest.mark.parametrize("words", ["zonelint example z", "zonelint --format json example z", "zoneimport example z"])
def test_an_output_that_is_closed_or_full(lint, words):
    Path("z").write_text(SERVED)
    closed = run("bash", "-c", 'exec "$@" >&-', "-", *words.split())
    assert (closed.returncode, closed.stderr) == (2, f"{words.split()[0]}: standard output is closed\n")
    Path("z").write_text(FAULTY)
    with open("/dev/full", "w") as full:
        done = subprocess.run(words.split(), stdout=full, stderr=subprocess.DEVNULL)
    assert done.returncode == (1 if "import" in words else 2)


def test_many_faults(lint):
    status, _, said = lint("--served", "example", "z", text=SERVED
                           + "".join(f"w{i} A 192.0.2.256\n" for i in range(150)))
    assert status == 1 and found_in(said, "[RZ]") == [("R13", i) for i in range(6, 106)]
    assert said.endswith("\nz: 100 faults are reported, and there may be more\n100 errors, 0 warnings in 1 zone\n")


def test_the_status_is_that_of_zonecheck(lint):
    for zone in [*(TOP / "examples").glob("*.zone"), *DATA.glob("*.zone")]:
        wanted = run("zonecheck", "--quiet", "example.com", zone).returncode
        assert lint("--served", "--select", "Z", "example.com", str(zone))[0] == wanted, zone


def test_a_pipe_without_a_writer(lint):
    """On a terminal, zonelint says that it waits for what is written to a pipe."""
    os.mkfifo("pipe")
    ours, theirs = pty.openpty()
    with subprocess.Popen([LINT, "example", "pipe"], stdout=subprocess.DEVNULL, stderr=theirs) as waiting:
        assert select.select([ours], [], [], 30)[0] and b"pipe is a pipe: waiting" in os.read(ours, 1000)
        Path("pipe").write_text(SERVED)
    assert waiting.returncode == 0


# ---- formats

def read_forms(name):
    """For each format, the file, the code and the place of each fault of a file, read by a parser of that format. A
    place is a line and, if they are known, a column, an end line and an end column."""
    def read(form):
        return run(LINT, "--served", "--format", form, "example", name).stdout

    def place(*numbers):
        return tuple(int(number) for number in numbers if number)

    github = re.findall(r"^::(?:error|warning) file=(.*),line=(\d+),(?:col=(\d+),endLine=(\d+),endColumn=(\d+),)?"
                        r"title=([RZW]\d\d)::[^\n]+$", read("github"), re.M)
    gitlab, sarif = json.loads(read("gitlab")), json.loads(read("sarif"))["runs"][0]["results"]
    places = [result["locations"][0]["physicalLocation"] for result in sarif]
    files = xml.etree.ElementTree.fromstring(read("checkstyle"))
    keys = ("startLine", "startColumn", "endLine", "endColumn")
    assert len({fault["fingerprint"] for fault in gitlab}) == len(gitlab)
    assert all(fault["severity"] == ("minor" if fault["check_name"][0] == "W" else "major") for fault in gitlab)
    return {
        "json": [(fault["file"], fault["code"], *place(*map(fault.get, ("line", "column", "end_line", "end_column"))))
                 for fault in json.loads(read("json"))],
        "github": [(file, code, *place(*numbers)) for file, *numbers, code in github],
        "gitlab": [(fault["location"]["path"], fault["check_name"], *place(*re.findall(
            r"\d+", str(fault["location"].get("positions") or fault["location"]["lines"])))) for fault in gitlab],
        "sarif": [(os.fsdecode(urllib.parse.unquote_to_bytes(one["artifactLocation"]["uri"])), result["ruleId"],
                   *place(*map(one["region"].get, keys))) for one, result in zip(places, sarif)],
        "checkstyle": [(file.get("name"), error.get("source")[-3:], *place(error.get("line"), error.get("column")))
                       for file in files for error in file]}


def fingerprints(lint, text, *options):
    """The fingerprints of the faults of a zone."""
    faults = json.loads(lint(*options, "--format", "gitlab", "example", "z", text=text)[2])
    return {fault["fingerprint"] for fault in faults}


@pytest.mark.parametrize("name, spelled", [
    ('a "<&%\n,:zone', {"github": 'a "<&%25%0A%2C%3Azone'}),
    (os.fsdecode(b"\xff\x1b[31m\xc3\xbc.zone"),
     {"json": "\\255\x1b[31m\u00fc.zone", "gitlab": "\\255\x1b[31m\u00fc.zone"})])
def test_formats_and_names_of_files(lint, name, spelled):
    Path(name).write_text(FAULTY)
    for form, found in read_forms(name).items():
        assert [one[1:] for one in found] == [("Z10", 5), ("Z11", 6), ("Z06", 9), ("Z06", 10), ("W45", 8)], form
        files = {one[0] for one in found}
        assert form in ("github", "checkstyle") and form not in spelled or files == {spelled.get(form, name)}
    for form in ("text", "github", "checkstyle"):
        assert re.fullmatch(r"[\n -~]+", lint("--served", "--format", form, "example", name)[2])


PLACED = SERVED + 'ns A 192.0.2.300\nb..c A 192.0.2.1\nt TXT ( "a"\n  "b\n'


def test_places_in_each_format(lint):
    """The lines and columns of zonefaults are those of each format. A column after the last one is exclusive."""
    before = fingerprints(lint, ";\n" + PLACED, "--served")
    assert fingerprints(lint, PLACED, "--served") == before and len(before) == 3
    assert run("zonefaults", "example", "z").stdout == "6:6-6:17 R13.3\n7:1-7:5 R07.1\n9:5-9:5 R03\n"
    places = [("R13", 6, 6, 6, 17), ("R07", 7, 1, 7, 5), ("R03", 9, 5, 9, 5)]
    for form, found in read_forms("z").items():
        assert [one[1:] for one in found] == [one[:3] if form == "checkstyle" else one for one in places], form
    text = lint("--served", "--select", "R", "example", "z")[2]
    assert re.findall(r"^z:(\d+:\d+): ", text, re.M) == ["6:6", "7:1", "9:5"]
    assert "\n    ns A 192.0.2.300\n         ^^^^^^^^^^^\n" in text and '\n      "b\n        ^\n' in text


@pytest.mark.parametrize("lines", CASES["results"])
def test_a_fault_is_reported_without_what_results_from_it(lint, lines):
    _, found, said = lint("--served", "--select", "R", "example", "z", text=SERVED + lines + "\nx A y\n")
    assert len(found) == 2 and ("R13", 6 + len(lines.split("\n"))) in found, said


@pytest.mark.parametrize("lines, line, column", CASES["places"])
def test_places_in_the_form_of_bind(lint, lines, line, column):
    """A line that is checked as it stands has a column. Else the line is known."""
    (one,) = json.loads(lint("--select", "R", "--format", "json", "example", "z", text=GOOD + lines + "\n")[2])
    assert (one["line"], one["column"]) == (line, column)


def test_a_zone_without_faults_in_each_format(lint):
    for form in ("json", "gitlab", "sarif", "checkstyle", "github"):
        status, _, said = lint("--served", "--format", form, "example", "z", text=SERVED)
        assert status == 0 and (form != "json" or json.loads(said) == [])


# ---- serials

@pytest.fixture
def git(lint):
    """Runs git in a repository in which example.com.zone is committed with the serial 4294967295."""
    def git(*words):
        assert run("git", "-c", "user.name=a", "-c", "user.email=a@b", "-c", "commit.gpgsign=false",
                   *words).returncode == 0
    Path("example.com.zone").write_text(SERVED.replace("h 1", "h 4294967295"))
    for words in (["init", "-q", "."], ["add", "."], ["commit", "-qm", "one"]):
        git(*words)
    return git


@pytest.mark.parametrize("serial, more, wanted", CASES["serials"])
def test_serials(lint, git, serial, more, wanted):
    Path("example.com.zone").write_text(SERVED.replace("h 1", f"h {serial}") + more)
    status, _, said = lint("--served", "--serial", "HEAD", "example", "example.com.zone")
    assert (status, listed(found_in(said, "[RZC]"))) == (bool(wanted), wanted)
    assert lint("--served", "--serial", "HEAD", "example", "z", text=SERVED)[0] == 0


def test_the_hook_of_git(lint, git):
    """contrib/pre-commit checks what is staged, and not what is beside it."""
    Path("z").write_text(SERVED)
    Path("zones").write_text("# the zones\nexample example.com.zone\nexample z\n")
    for staged, beside, wanted in ((SERVED + "x A 192.0.2.256\n", SERVED, 1), (SERVED + "x A 192.0.2.25\n", "x", 0)):
        Path("example.com.zone").write_text(staged)
        git("add", "example.com.zone")
        Path("example.com.zone").write_text(beside)
        done = run(TOP / "contrib" / "pre-commit")
        assert done.returncode == wanted and ("example.com.zone:6:5: R13: " in done.stdout) == wanted
    Path("example.com.zone").write_text(SERVED + "x A 192.0.2.256\n")
    git("add", "example.com.zone")
    for listed, said in (("example example.com.zone\r\n", "example.com.zone:6:5: R13: "),
                         ("example example.zone\n", "zones lists 'example.zone' for example"), ("example\n", "''")):
        Path("zones").write_text(listed)
        done = run(TOP / "contrib" / "pre-commit")
        assert done.returncode == 1 and said in done.stdout + done.stderr


# ---- files in BIND's form

def test_lines_of_files_in_the_form_of_bind(lint):
    """Faults are reported with the lines of the files that a zone consists of."""
    Path("part").write_text("a A 192.0.2.2\nb A 192.0.2.300\n")
    text = GOOD.replace("$TTL 1h", "$TTL 1m") + '@ CAA 0 issue ";"\n$INCLUDE part\n$GENERATE 1-3 g$ A 192.0.2.25$\n'
    status, _, said = lint("example", "z", text=text)
    assert status == 1 and re.findall(r"^(\w+:\d+:\d+: R\d\d)", said, re.M) == ["part:2:5: R13"]
    found = lint("example", "z", text=SERVED + "$GENERATE 5-7 g$ A 192.0.2.25$\nb CNAME ns\nb A 192.0.2.2\n")[1]
    assert sorted(set(one for one in found if one[0][0] in "RZ")) == [("R13", 6), ("Z06", 7), ("Z06", 8)]


def test_one_fault_many_times(lint):
    lines, before = "".join(f"b{i} A 192.0.2.1$\n" for i in range(300)), spent()
    text = SERVED + "$GENERATE 1-50000 a$ A 192.0.2.300\n@ NS sub\n" + lines
    found = found_in(lint("example", "z", text=text)[2], "[RZ]")
    assert found[0] == ("R13", 6) and found[1][1] == 8 and spent() - before < 30


@pytest.mark.parametrize("faults, limit", [(0, 3), (50, 15)])
def test_the_time_for_100_000_records(lint, faults, limit):
    lines = [f"h{i} A {'298' if faults and i % 2000 == 7 else '198'}.51.{i // 256 % 256}.{i % 256}\n"
             for i in range(99990)]
    before = spent()
    said = lint("--served", "example", "z", text=SERVED + "".join(lines))[2]
    assert len(found_in(said, "[RZ]")) == faults and spent() - before < limit


LONG = [f'h{i} TXT "{"x" * 148}"\n' for i in range(99990)]


@pytest.mark.parametrize("text, wanted", [
    ("\n" * 16777216, 2), ("(" * 16777216, 2), (None, 1), (SERVED + ";23456789012345\n" * 986000, 0),
    (SERVED + "".join(LONG[:99000] + [line.replace("TXT", "A") for line in LONG[99000:]]), 1)],
    ids=["newlines", "one line", "octets", "comments", "late faults"])
@pytest.mark.slow
@pytest.mark.parametrize("program", ["zonelint", "zoneimport"])
def test_files_of_16_mib(lint, program, text, wanted):
    """They take at most 20 s of the processor and 400 MB, or are refused."""
    Path("z").write_bytes(os.urandom(16777216) if text is None else text.encode())
    quiet = dict.fromkeys(("stdout", "stderr"), subprocess.DEVNULL)
    child = subprocess.Popen([TOP / "bin" / program, "example", "z"], **quiet)
    _, status, used = os.wait4(child.pid, 0)
    child.returncode = os.waitstatus_to_exitcode(status)
    assert child.returncode == wanted and used.ru_utime + used.ru_stime < 20 and used.ru_maxrss < 400 * 1024


@pytest.mark.parametrize("steps", CASES["steps"].values(), ids=CASES["steps"])
def test_steps(lint, steps):
    for first, lines, *wanted in steps:
        if not wanted:
            Path(first).parent.mkdir(exist_ok=True)
            Path(first).write_text(lines)
            continue
        text = None if lines is None else (SERVED if "--served" in first else GOOD) + lines
        status, found, said = lint(*shlex.split(first), text=text)
        assert status == wanted[0] and wanted[1] in (None, listed(found)) and "".join(wanted[2:]) in said, said


def test_more_addresses_than_zoneserve_serves_are_noted(lint):
    many = "".join(f"f A 198.51.100.{host}\n" for host in range(65))
    assert lint("example", "z", text=GOOD + many)[:2] == (0, [("N02", 70)])
    assert lint("--strict", "--error", "N02", "example", "z")[0] == 1


@pytest.mark.parametrize("line, code, says", CASES["bind"])
def test_a_faulty_line_in_the_form_of_bind(lint, line, code, says):
    _, found, said = lint("example", "z", text=GOOD + line + "\n")
    assert (code, 6) in found and says in said, said


def test_the_version(lint):
    assert lint("--version")[2] == f"zonelint {(TOP / 'VERSION').read_text()}"


def test_remedies_that_are_sure_are_written(lint, tmp_path):
    text = GOOD + "@ MX 1 mail.example.com ; mail\nw IN IN A 192.0.2.2\nt TXT \"a\nx A 192.0.2.300\n"
    lint("example.com", "z", text=text)
    status, _, said = lint("--diff", "example.com", "z")
    assert status == 1 and "+@ MX 1 mail.example.com. ; mail\n" in said and (tmp_path / "z").read_text() == text
    lint("--fix", "example.com", "z")
    wanted = GOOD + '@ MX 1 mail.example.com. ; mail\nw IN A 192.0.2.2\nt TXT "a"\nx A 192.0.2.300\n'
    assert (tmp_path / "z").read_text() == wanted


def test_remedies_are_written_to_the_file_that_a_link_names(lint, tmp_path):
    (tmp_path / "real").write_text(GOOD + "w IN IN A 192.0.2.2\n")
    (tmp_path / "real").chmod(0o640)
    (tmp_path / "link").symlink_to("real")
    lint("--fix", "example.com", "link")
    assert (tmp_path / "link").is_symlink() and (tmp_path / "real").read_text() == GOOD + "w IN A 192.0.2.2\n"
    assert (tmp_path / "real").stat().st_mode & 0o777 == 0o640
    assert sorted(path.name for path in tmp_path.iterdir()) == ["link", "real"]


def test_the_settings_of_servers(lint, tmp_path):
    (tmp_path / "example.com.zone").write_text(GOOD + "x A 192.0.2.300\n")
    for settings, text in CASES["settings"].items():
        (tmp_path / settings).write_text(text.replace("FOLDER", str(tmp_path)))
        assert lint("--named-conf", settings)[:2] == (1, [("R13", 6)])
    assert lint("--named-conf", "example.com.zone")[0] == 2


def test_a_serial_is_compared_with_the_includes_of_the_revision(lint, git):
    Path("part").write_text("w A 192.0.2.2\n")
    Path("z").write_text(GOOD + "$INCLUDE part\n")
    git("add", ".")
    git("commit", "-qm", "two")
    assert lint("--serial", "HEAD", "example", "z")[:2] == (0, [])
    Path("part").write_text("w A 192.0.2.3\n")
    assert lint("--serial", "HEAD", "example", "z")[:2] == (1, [("C01", 2)])


def test_formats(lint):
    text = GOOD + "a CNAME b\nb CNAME ns\n" + "".join(f"x{i} CNAME y\n" for i in range(20))
    said = lint("example", "z", text=text)[2]
    assert "W42: 15 more" in said and said.endswith("0 errors, 21 warnings in 1 zone\n")
    sarif = json.loads(lint("--format", "sarif", "example", "z")[2])["runs"][0]
    rules = sarif["tool"]["driver"]["rules"]
    assert len(sarif["results"]) == 21 and all(rule["help"]["text"] for rule in rules)
    assert all(rules[one["ruleIndex"]]["id"] == one["ruleId"] for one in sarif["results"])
    assert len(fingerprints(lint, text)) == 21 and fingerprints(lint, text) == fingerprints(lint, ";\n" + text)


@pytest.mark.peers("named-checkzone")
def test_bind_is_asked_too(lint):
    status, found, said = lint("--server", "bind", "example", "z", text=GOOD + "$TTL 2h")
    assert status == 1 and "B01" in dict(found) and "BIND says: " in said


@pytest.mark.parametrize("line", ['t TXT ( "a" ( "b" ) )', "$GENERATE 1-3 h$ A 192.0.2.$", "$ORIGIN x"])
def test_what_nsd_and_knot_do_not_read(lint, line):
    assert lint("--server", "bind", "example", "z", text=GOOD + line + "\n")[0] == 0
    assert ("D01", 6) in lint("--server", "nsd", "example", "z")[1]
    assert ("K01", 6) in lint("--server", "knot", "example", "z")[1]


if __name__ == "__main__":
    # Prints docs/plots/mistakes.txt: `PATH=PROGRAMS:$PATH tests/test_lint.py`.
    with tempfile.TemporaryDirectory() as folder:
        os.chdir(folder)
        print("| Mistake |" + "".join(f" `{Path(checker[0]).name}` |" for checker in CHECKERS))
        print("|---" * (len(CHECKERS) + 1) + "|")
        for title, cells in table(CHECKERS):
            print(f"| {title} |" + "".join(f" {cell} |" for cell in cells))
