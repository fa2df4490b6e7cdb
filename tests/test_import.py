"""bin/zoneimport: zones in BIND's form, and the records that they specify according to RFC 1035, RFC 3597 and BIND's
manual; inputs; and random zones, which named-compilezone must read or refuse as zoneimport does."""
import base64
import concurrent.futures
import json
import os
import random
import re
import sys
from pathlib import Path

import pytest
from servers import DATA, TOP, run, spent

sys.path.insert(0, str(TOP / "share" / "mitrehyssop"))
# `means`: lines in BIND's form, and the records that they specify. `refused`: lines, and a part of the message.
# `files`: files that can be included, the last three by random zones. `refuses`: why zoneimport refuses what BIND
# accepts: a pattern of the fault, and the reason.
CASES = json.loads((DATA / "import.json").read_text())
HEAD = "$TTL 1m\n@ IN SOA ns h ( 1 1h 5m 2w ; a comment\n   1m )\n@ NS ns\n@ NS ns.example.net.\nns A 192.0.2.1\n"
OWN = {"example. 60 IN SOA ns.example. h.example. 1 3600 300 1209600 60", "example. 60 IN NS ns.example.",
       "example. 60 IN NS ns.example.net.", "ns.example. 60 IN A 192.0.2.1"}
LOAD = ["named-compilezone", *"-i none -s full".split(), *(f"-{check}ignore" for check in "knmMSrTW")]
bind = pytest.mark.peers("named-compilezone")


@pytest.fixture
def imported(programs, tmp_path, monkeypatch):
    """Runs zoneimport in a folder with files that can be included. Returns its status and both outputs."""
    (tmp_path / "zones" / "folder").mkdir(parents=True)
    monkeypatch.chdir(tmp_path / "zones")
    for name, text in CASES["files"].items():
        Path(name).write_text(text)
    Path("link").symlink_to("/etc/hostname")
    os.mkfifo("pipe")

    def imported(*words, text=None, given=""):
        if text is not None:
            Path("zone").write_text(text, encoding="latin-1")
        done = run(TOP / "bin" / "zoneimport", *words, input=given, encoding="latin-1")
        return done.returncode, done.stdout, done.stderr
    return imported


def printed(text):
    """The records of a zone as zonecheck prints them."""
    return set(run("zonecheck", "--print", "example", "/dev/stdin", input=text,
                   encoding="latin-1").stdout.splitlines())


def compiled(text, folder):
    """What named-compilezone reads from a zone in a folder, with owners in lower case, or None if it refuses the zone;
    the numbers of the lines that it refuses; and what it prints."""
    done = run(*LOAD, "-o", "-", "example", "/dev/stdin", input=text, cwd=folder, encoding="latin-1")
    records = [re.sub(r"^\S+", lambda owner: owner[0].lower(), line) for line in done.stdout.splitlines()]
    refused = {int(line) for line in re.findall(r"/dev/stdin:(\d+): ", done.stderr)}
    return records if done.returncode == 0 else None, refused, done.stderr


@pytest.mark.parametrize("lines, means", CASES["means"])
def test_what_lines_mean(imported, lines, means):
    text = (HEAD + lines + "\n").replace("{here}", os.getcwd())
    status, new, error = imported("example", "zone", text=text)
    assert status == 0 and printed(new) == OWN | set(means), error
    # Each line stays at its place.
    assert "INCLUDE" in text or "GENERATE" in text.upper() or new.count("\n") == text.count("\n")


@bind
@pytest.mark.parametrize("lines", [lines for lines, _ in CASES["means"]])
def test_bind_reads_the_same(imported, lines):
    text = (HEAD + lines + "\n").replace("{here}", os.getcwd())
    assert compiled(text, ".")[0] == compiled(imported("example", "zone", text=text)[1], ".")[0] is not None


@pytest.mark.parametrize("line, said", CASES["refused"])
def test_lines_that_are_refused(imported, line, said):
    status, new, error = imported("example", "zone", text=f"{HEAD}b A 192.0.2.9\n{line}\n")
    assert (status, new) == (1, "") and said in error
    faults = re.findall(r"^(\S+?):(\d+):(?:\d+:)? [RZ]", error, re.M)
    assert "cycle" in line or "chain" in line or faults == [("zone", "8")]


NESTED = HEAD.replace("1h 5m 2w", "( 1h ( 5m ) 2w )").replace("\n", " \r\n")


@pytest.mark.parametrize("text", [
    "\xef\xbb\xbf" + HEAD, HEAD.replace("$TTL 1m\n", ""), HEAD.replace("\n", "\r\n"), NESTED])
def test_forms_of_files(imported, text):
    """A byte order mark, no $TTL, lines that end in CR LF, and nested parentheses."""
    status, new, error = imported("example", "-", given=text)
    assert status == 0 and printed(new) == OWN, error


def test_other_inputs(imported):
    status, new, error = imported("example", "-", given="\0\0\0\2\0\0\0\1x")
    assert (status, new) == (1, "") and "-f raw -F text" in error
    Path("parts").mkdir()
    Path("parts/part").write_text("a A 192.0.2.2\nb A 192.0.2.300\n")
    status, new, error = imported("--include-from", "parts", "example", "zone", text=HEAD + "$INCLUDE part\n")
    assert status == 1 and "/parts/part:2:5: R13: " in "/" + error
    for words in (["example", "nowhere"], ["example"], ["a..b", "zone"]):
        status, new, error = imported(*words)
        assert (status, new) == (2, "") and error


def test_the_time_for_70_000_records(imported):
    lines = [f"h{i} 1h A 198.51.{i // 256 % 256}.{i % 256}\n" for i in range(68000)]
    lines += [f'h{i} CAA 0 issue "ca{i}.example"\n' for i in range(2000)]
    before = spent()
    status, new, _ = imported("example", "-", given=HEAD + "".join(lines))
    assert status == 0 and new.count("TYPE257") == 2000 and spent() - before < 10


# ---- random zones

class Grammar:
    """Expands the rules of tests/data/bind.grammar, which says what each form of a rule means."""

    def __init__(self, seed):
        self.chance, self.rules, self.at = random.Random(seed), {}, 0
        for line in (DATA / "bind.grammar").read_text().splitlines():
            names, _, alternatives = line.partition(" ")
            rows = [re.fullmatch(r"(?:(\d+)\*)?(.*)", one) for one in alternatives.split("|")]
            for name in names.split(","):
                self.rules[name] = [row[2] for row in rows], [int(row[1] or 1) for row in rows]
        self.types = sorted(name for name in self.rules if name[:1].isupper())

    def octets(self, size):
        return bytes(self.chance.randrange(256) for _ in range(size))

    def special(self, name, size):
        pick, number = self.chance.choice, self.chance.randrange(size + 1)
        if name in ("hex", "octets", "dashed"):
            text = pick([str.lower, str.upper])(self.octets(size).hex(*["-"] * (name == "dashed")))
            at = self.chance.randrange(0, len(text), 2) if name == "hex" and pick([0, 1]) else 0
            return text[:at] + " " * bool(at) + text[at:]
        if name in ("coded", "base64"):
            text = base64.b64encode(self.octets(size)).decode()
            return text if name == "base64" or pick([0, 1]) else f"( {text[:3]} {text[3:]} )"
        if name == "any":
            return str(number % size)
        return pick(["", "", "", "0", "00"]) + str(pick([0, 1, 10, size, number]))

    def text(self, text):
        """A text in which each rule is expanded."""
        def expanded(found):
            name, _, size = found[1].partition(" ")
            if size:
                return self.special(name, int(size))
            fixed = {"nl": "\n", "tab": "\t", "bar": "|", "at": str(self.at)}
            return fixed[name] if name in fixed else self.service() if name == "service" else self.text(self.one(name))
        return re.sub(r"<([\w-]+(?: \d+)?)>", expanded, text)

    def one(self, name):
        return self.chance.choices(*self.rules[name])[0]

    def service(self):
        """The data of a SVCB record with some keys, in any order."""
        keys = self.chance.sample(["alpn", "port", "ech", "ipv4hint", "ipv6hint", "dohpath", "key"],
                                  self.chance.randrange(4))
        named = {key: key if key != "key" else f"key{self.chance.randrange(8, 65535)}" for key in keys}
        given = [self.text(f"{named[key]}=<{key}>") for key in keys]
        alone = self.chance.choice(["no-default-alpn", "no-default-alpn="])
        given += [alone] * self.chance.choice([0, "alpn" in keys])
        given += [f"mandatory={','.join(named.values())}"] * (bool(keys) and self.chance.choice([0, 0, 1]))
        given += [self.chance.choice(["key9", "key65333", "key10="])] * self.chance.choice([0, 0, 1])
        self.chance.shuffle(given)
        return " ".join([self.text("<number 9> <name>"), *given])

    def entry(self, at):
        """An entry whose owner is its own, with data of one of BIND's types, sometimes with a mistake."""
        self.at, rtype = at, self.chance.choice(self.types)
        data = self.text(f"<{rtype}>")
        spot = self.chance.randrange(len(data) * 30 + 1)
        # After a mistake inside parentheses or quotation marks BIND refuses later lines too, so there is none.
        if data[spot:spot + 1] not in ("", *'"\\') and "(" not in data:
            data = data[:spot] + self.chance.choice(["", "x", "-", "=", " ", "9"]) + data[spot + 1:]
        rtype = self.chance.choice([rtype] * 9 + [rtype.lower()])
        return f"{self.text('<owner> <front>')} {rtype} {data}{self.one('comment')}"

    def zone(self):
        text = self.text("<zone-head>" + "<zone-line>" * self.chance.randrange(1, 12))
        return text if self.chance.random() < 0.9 else text.replace("\n", "\r\n")


# What zoneimport accepts and BIND refuses: a CAA record whose mailbox is not a URL, and a NAPTR record with another
# expression.
ACCEPTS = re.compile(r"CAA \d+ iodef|NAPTR", re.I)


def differing_entries(seed, folder):
    """What zoneimport and named-compilezone read otherwise in 30 random entries, and the number that both accept. Only
    the first faults may be reported, so faulty entries are taken out until none is left."""
    import faults
    grammar = Grammar(seed)
    entries, begin, wrong = [grammar.entry(at) for at in range(30)], HEAD.count("\n") + 1, []
    for _ in range(40):
        text = HEAD + "".join(entry + "\n" for entry in entries)
        theirs, refused, said = compiled(text, folder)
        zone = faults.imported("example", text, "zone", folder).check()
        ours = {fault.place[1]: f"{fault.code}: {fault.text}" for fault in reversed(zone.faults)}
        if not refused and not ours:
            break
        for line in refused | ours.keys():
            at = max(min(line - begin, 29), 0)
            is_known = any(re.match(pattern, ours.get(line, "")) for pattern in CASES["refuses"])
            if line in ours and line not in refused and not is_known and theirs:
                wrong.append(f"refused here, and not by BIND: {entries[at]!r}: {ours[line]}")
            if line in refused and line not in ours and not ACCEPTS.search(entries[at]):
                wrong.append(f"refused by BIND, and not here: {entries[at]!r}: {said[:300]}")
            entries[at] = ";"
    written, refused, said = compiled(zone.text, folder)
    if refused or ours or sorted(theirs or ()) != sorted(written or ()) or len(theirs) < 4:
        wrong.append(f"other records: {said[:300]} {sorted(set(theirs or ()) ^ set(written or ()))}")
    return [f"seed {seed}: {one}" for one in wrong], sum(entry != ";" for entry in entries)


def differing_zones(seed, folder):
    """Whether zoneimport and named-compilezone read a random zone alike, and which of them accept it. BIND accepts
    types that are not served here, and it corrects TTLs that differ in a set."""
    import faults
    text = Grammar(seed).zone()
    zone = faults.imported("example", text, "zone", folder).check()
    theirs, is_read = compiled(text, folder)[0], not any(fault.code[0] == "R" for fault in zone.faults)
    ours = compiled(zone.text, folder)[0] if is_read else None
    is_known = any("not served" in fault.text or fault.code == "Z08" for fault in zone.faults)
    both = theirs is not None and is_read
    is_alike = is_known or (theirs == ours if both else theirs is None and not zone.passes)
    return [] if is_alike else [f"seed {seed}:\n{text}\n{sorted(set(theirs or ()) ^ set(ours or ()))}"], both


@bind
@pytest.mark.parametrize("differing, count, least", [
    (differing_zones, 200, 20), (differing_entries, 20, 100),
    pytest.param(differing_zones, 2_000, 200, marks=pytest.mark.slow),
    pytest.param(differing_entries, 1_000, 5_000, marks=pytest.mark.slow)])
def test_random_zones(imported, differing, count, least):
    with concurrent.futures.ThreadPoolExecutor(2) as pool:
        results = list(pool.map(lambda seed: differing(seed, os.getcwd()), range(count)))
    assert [one for wrong, _ in results for one in wrong] == [] and sum(number for _, number in results) > least
