"""Randomly changed datagrams, zone files and messages, by fixed seeds: what zoneserve, zonecheck, zonefaults and
dnsmsg print is compared with what plain programs say. The reader of zone files is plain_faults.py; the server is
here."""
import itertools
import json
import os
import random
import re
from concurrent.futures import ThreadPoolExecutor
from functools import lru_cache

import dns.message
import dns.name
import dns.rdata
import dns.rdataclass
import dns.renderer
import dns.rrset
import dns.zone
import plain_faults as plain
import pytest
from servers import DATA, TOP, run, spent

ZONE = DATA / "served.zone"
# `pieces` are put into a query, and `words` into a zone file. `swept`: for each sweep, the most pieces of a text, and
# the pieces. First they are octets that begin or end tokens, then parts of entries, then whole lines. `faulty`: an
# entry for each fault and each form of it. Of some the fault is in a word, of some between words, of some at an end.
TABLES = json.loads((DATA / "hostile.json").read_text())
ORIGIN = (b"example",)
slow = pytest.mark.slow
NS, CNAME, SOA, SRV, ANY = 2, 5, 6, 33, 255


# ---- a plain server: for each question it looks at all names, as RFC 1034 4.3.2 describes

class Server:
    """Answers for a zone that dnspython reads. A question for ANY gets the set of the lowest type, or all sets."""

    def __init__(self, text, origin="example.", all_types=False):
        self.origin, self.all_types = dns.name.from_text(origin), all_types
        self.nodes = dns.zone.from_text(text, self.origin, relativize=False).nodes
        self.names = {up for name in self.nodes for up in self.above(name)}

    @lru_cache(10_000)
    def above(self, name):
        """A name in the zone and the names above it, up to the origin."""
        return [dns.name.Name(name.labels[at:]) for at in range(len(name.labels) - len(self.origin.labels) + 1)]

    def set_at(self, owner, kind, name=None):
        """The set of a type at an owner, in canonical order, as the set of `name`; None if there is none."""
        found = owner in self.nodes and self.nodes[owner].get_rdataset(dns.rdataclass.IN, kind)
        return dns.rrset.from_rdata_list(name or owner.canonicalize(), found.ttl, sorted(found)) if found else None

    @lru_cache(10_000)
    def cut(self, name):
        """The zone cut at or above a name; if there are several, the one nearest to the origin."""
        return ([up for up in self.above(name) if up != self.origin and self.set_at(up, NS)] or [None])[-1]

    @lru_cache(10_000)
    def source(self, name):
        """The name whose records answer for a name: the name itself, the wildcard below its closest encloser, or
        None."""
        closest = next(up for up in self.above(name) if up in self.names)
        star = dns.name.Name((b"*", *closest.labels)) if name != closest else name
        return star if star in self.names else None

    def aliases(self, name, kind):
        """The sets of the aliases that lead from a name, in order, and the last name. At most 16 aliases are
        followed."""
        sets = []
        while kind not in (CNAME, ANY) and not self.cut(name) \
                and (alias := self.set_at(self.source(name), CNAME, name)):
            sets.append(alias)
            led = alias[0].target
            if len(sets) == 17 or not led.is_subdomain(self.origin) or any(one.name == led for one in sets):
                break
            name = led
        return sets, name

    def outcome(self, name, kind):
        """The RCODE, the zone cut if the reply is a referral, the answer sets, and the authority sets."""
        aliases, last = self.aliases(name, kind)
        cut, source = self.cut(last), self.source(last)
        if cut:
            return 0, cut, aliases, [self.set_at(cut, NS)]
        if source and kind != ANY and kind != CNAME and self.set_at(source, CNAME):
            return 0, None, aliases, []
        kinds = sorted(one.rdtype for one in self.nodes.get(source, ())) if kind == ANY else [kind]
        found = [one for one in (self.set_at(source, one, last) for one in kinds) if one]
        soa = self.set_at(self.origin, SOA)
        soa.ttl = min(soa.ttl, soa[0].minimum)
        found = found if self.all_types else found[:1]
        return 0 if source else 3, None, aliases + found, [] if found else [soa]

    def sets(self, name, kind):
        """All sets of a reply, each with its section; the number of leading sets without which it is truncated; its
        RCODE; and whether it is authoritative."""
        rcode, cut, answers, authorities = self.outcome(name, kind)
        found = [*((1, one) for one in answers), *((2, one) for one in authorities)]
        asked, below = ([target for one in sets for target in targets(one)] for sets in (answers, authorities))
        inside = [name for name in below if cut and name.is_subdomain(cut)]
        outside = [name for name in below if cut and not name.is_subdomain(cut)]
        required = len(found + self.extra(found, inside))
        return found + self.extra(found, asked + inside + outside), required, rcode, not (cut and not answers)

    def extra(self, earlier, names):
        """The address sets of these names for the additional section, except sets that are in the reply already."""
        more = []
        for name, kind in itertools.product(names, (1, 28)):
            is_present = any(one.name == name and one.rdtype == kind for _, one in earlier + more)
            found = None if is_present else self.set_at(name, kind)
            more += [(3, found)] if found else []
        return more


def targets(one):
    """The names for which the records of a set get additional records."""
    return [record.exchange if one.rdtype == 15 else record.target for record in one if one.rdtype in (NS, 15, SRV)]


class Exactly(dict):
    """The offsets of the names that were written before. Names that differ in the case of a letter are different."""

    def get(self, name, default=None):
        return super().get(name.labels, default)

    def __setitem__(self, name, place):
        super().__setitem__(name.labels, place)


def message(number, flags, question, sets):
    out = dns.renderer.Renderer(number, flags)
    out.compress = Exactly()
    if question:
        out.add_question(*question)
    for section, one in sets:
        # The target of an SRV record is not compressed (RFC 2782).
        if one.rdtype == SRV:
            plain_data = [dns.rdata.GenericRdata(one.rdclass, SRV, record.to_wire()) for record in one]
            one = dns.rrset.from_rdata_list(one.name, one.ttl, plain_data)
        out.add_rrset(section, one, want_shuffle=False)
    out.write_header()
    return out.get_wire()


def question_of(datagram):
    """The name, the type and the class of the question; None unless exactly one question, whose name is written
    without pointers, follows the header."""
    name, end = plain.name_at(datagram, 12) if datagram[4:12] == b"\0\1\0\0\0\0\0\0" else (None, 0)
    if name is None or len(datagram) != end + 4:
        return None
    return dns.name.Name((*name, b"")), *(int.from_bytes(datagram[at:at + 2], "big") for at in (end, end + 2))


def reply(server, datagram, limit):
    datagram = datagram[:512]
    if len(datagram) < 12 or datagram[2] & 0x80:
        return None
    number, flags = int.from_bytes(datagram[:2], "big"), 0x8000 | (datagram[2] & 0x79) << 8
    question = question_of(datagram)
    if datagram[2] & 0x78 or question is None:
        return message(number, flags | (4 if datagram[2] & 0x78 else 1), None, [])
    name, kind, rdclass = question
    is_of_no_data = kind in (0, 41) or 128 <= kind <= 254
    if rdclass != 1 or is_of_no_data or not name.is_subdomain(server.origin):
        return message(number, flags | (4 if rdclass == 1 and is_of_no_data else 5), question, [])
    sets, required, rcode, is_ours = server.sets(name, kind)
    kept = len(sets)
    while len(message(number, 0, question, sets[:kept])) > limit:
        kept -= 1
    flags |= rcode | (0x400 if is_ours else 0) | (0x200 if kept < required else 0)
    return message(number, flags, question, sets[:kept])


# ---- datagrams

def queries(server):
    """A query for each type of the zone, and for types 255 and 99, at each of its names and at some others."""
    names = {name.labels[:-1] for name in server.names if name in server.nodes}
    names |= {(b"x", *name) for name in names} | {(b"*", b"wild", b"example"), (b"Www", b"eXample"), (b"other",), (),
                                                  (b"a" * 63,) * 3 + ORIGIN}
    kinds = [*sorted({int(one.rdtype) for node in server.nodes.values() for one in node}), ANY, 99]
    names = [dns.name.Name((*name, b"")) for name in sorted(names)]
    return [dns.message.make_query(name, kind, id=0x1234).to_wire() for name in names for kind in kinds]


def octets_of(texts):
    return [text.encode("latin-1") for text in texts]


def changed(chance, octets, pieces):
    """Octets after zero to four random changes: octets are changed, parts removed or duplicated, the end cut off,
    pieces or lines put in, or lines taken out."""
    for _ in range(chance.choice([0, 1, 1, 1, 2, 3])):
        at = chance.randrange(len(octets) + 1)
        end, lines = min(len(octets), at + chance.randrange(1, 40)), octets.split(b"\n")
        line = octets[:at].count(b"\n")
        words = re.split(rb"( +)", lines[line])
        words[chance.randrange(len(words))] = chance.choice(pieces)
        before, after = octets[:at], octets[at + 1:]
        ways = [
            before + bytes([chance.choice([0, 1, 42, 63, 64, 65, 191, 192, 255, chance.randrange(256)])]) + after,
            before + bytes([(octets[at:] or b" ")[0] ^ 1 << chance.randrange(8)]) + after,
            before + chance.choice(pieces) + octets[at:],
            before + octets[end:],
            before + octets[at:end] * 2 + octets[end:],
            before]
        if len(lines) > 1:
            ways += [b"\n".join(lines[:line] + more + lines[line + size:]) for more, size in (
                ([], 1), ([chance.choice(lines)], 0), ([b"".join(words)], 1))]
        octets = chance.choice(ways)
    return octets


@pytest.mark.parametrize("count", [20_000, pytest.param(1_000_000, marks=slow)])
@pytest.mark.parametrize("words, limit", [([], 512), (["--tcp"], 65_535)], ids=["udp", "tcp"])
def test_datagrams(programs, words, limit, count):
    """`zoneserve once` gives each of count/2 datagrams the reply of the plain server, octet for octet."""
    chance, server, replies = random.Random(limit), Server(ZONE.read_text()), 0
    asked, pieces = queries(server), octets_of(TABLES["pieces"])
    datagrams = [changed(chance, chance.choice(asked), pieces) for _ in range(count // 2)]
    given = "".join(datagram.hex() + "\n" for datagram in datagrams)
    said = run(programs / "zoneserve", "once", *words, "example", ZONE, input=given, check=True).stdout
    for datagram, line in zip(datagrams, said.splitlines(), strict=True):
        wanted = reply(server, datagram, limit)
        replies += wanted is not None and len(wanted) > 12
        assert line == ("none" if wanted is None else wanted.hex()), datagram.hex()
    assert replies > count / 8


# ---- zone files

def said_of(text, file, *words):
    """The output, the status and the errors of a program for a file with this text."""
    file.write_bytes(text)
    done = run(*words, file, text=False, timeout=20)
    return done.stdout.decode("latin-1"), done.returncode, done.stderr


def checked(text, zone):
    """The expected output of zonecheck for a file, its expected status, and the records if it is a zone without a
    fault."""
    found, records = plain.faults_of(text, zone, first=True)
    if found:
        (_, code, _, begin), = found
        return f"line {text.count(10, 0, begin) + 1}: R{code:02}\n", 1, ()
    if faults := "".join(f"{plain.spelled(name)} Z{code:02}\n" for name, code in plain.checks(zone, records)):
        return faults, 1, ()
    serial = next(int.from_bytes(data[-20:-16], "big") for _, kind, data, _ in records if kind == 6)
    return f"zone {plain.spelled(zone, '')}/IN: loaded serial {serial}\nOK\n", 0, records


def printed(records):
    """The canonical text of a zone that has only A, NS and SOA records, as the zones of a sweep do."""
    def data(kind, octets):
        names = [plain.spelled(part) for part in plain.parts_of(kind, octets) if isinstance(part, tuple)]
        numbers = [int.from_bytes(octets[at:at + 4], "big")
                   for at in range(len(octets) - 20, len(octets), 4)] if kind == 6 else ()
        return ".".join(map(str, octets)) if kind == 1 else " ".join([*names, *map(str, numbers)])

    types = {number: name for name, (number, _) in plain.TYPES.items()}
    inorder = sorted(records, key=lambda record: (record[1] != 6, record[0][::-1], record[1], record[2]))
    return "".join(f"{plain.spelled(owner)} {ttl} IN {types[kind]} {data(kind, octets)}\n"
                   for owner, kind, octets, ttl in inorder)


# The end that is added to each text. It has the SOA and NS records that a zone needs.
END = b"\n$ORIGIN example.\n@ 1 SOA . . 1 1 1 1 1\n@ 1 NS .\n"


def swept(fewer):
    """All texts of up to four or five pieces, or of `fewer` fewer; each as it is, and with END after it."""
    for most, pieces in TABLES["swept"]:
        for count in range(most + 1 - fewer):
            for chosen in itertools.product(octets_of(pieces), repeat=count):
                yield b"".join(chosen)
                yield b"".join(chosen) + END


@pytest.mark.parametrize("fewer, least", [(3, 10), pytest.param(0, 1_000, marks=slow)])
def test_all_short_texts(programs, tmp_path, fewer, least):
    """`zonecheck --print` writes for each text what the plain reader, checker and printer say."""
    def zones(share):
        place, texts = share
        count = 0
        for text in texts:
            wanted, status, records = checked(text, ORIGIN)
            wanted = printed(records) if status == 0 else wanted
            words = programs / "zonecheck", "--print", "example"
            assert said_of(text, tmp_path / str(place), *words) == (wanted, status, b""), text
            count += status == 0
        return count

    workers, texts = os.cpu_count(), list(swept(fewer))
    with ThreadPoolExecutor(workers) as pool:
        assert sum(pool.map(zones, enumerate(texts[place::workers] for place in range(workers)))) >= least


@pytest.mark.parametrize("count", [500, pytest.param(100_000, marks=slow)])
def test_zone_files(programs, tmp_path, count):
    chance, words = random.Random(1), octets_of(TABLES["words"])
    texts = [path.read_bytes() for path in [*sorted((TOP / "examples").glob("*.zone")), ZONE]]
    texts = [(text, re.search(rb"origin is (\S+?)\.?\n", text)) for text in texts]
    for _ in range(count):
        text, origin = chance.choice(texts)
        origin = origin[1].decode() if origin else "example"
        text = changed(chance, text, words)
        wanted, status, _ = checked(text, tuple(label.encode().lower() for label in origin.split(".")))
        said = said_of(text, tmp_path / "zone", programs / "zonecheck", origin)
        assert said == (wanted, status, b""), (origin, text)


# ---- all faults of a file

HEAD = b"$TTL 60\n@ SOA ns h 1 2 3 4 5\n@ NS ns\nns A 192.0.2.1\n"


def test_the_stored_run():
    """The gate runs zonefaults with what the plain program says of a faulty file."""
    crate = TOP / "crates" / "zonefaults"
    wanted = plain.report((crate / "data" / "faulty.zone").read_bytes(), ORIGIN)
    assert wanted == (crate / "stdout").read_text() and (crate / "status").read_text() == "1\n"


def faulty_texts():
    """The texts of tests/data with faults, as they are and after one another."""
    cases = json.loads((DATA / "faults.json").read_text())
    lines = octets_of(row[2] + "\n" for row in cases["lines"])
    yield from octets_of(row[-2] for row in (*cases["files"], *cases["reports"]))
    for first, second in zip(lines, lines[1:] + lines[:1]):
        yield from (HEAD + first + second, second + HEAD + first)


def pairs_of_faults(step):
    """Each faulty entry with each other one, in three ways."""
    for first, second in list(itertools.product(octets_of(TABLES["faulty"]), repeat=2))[::step]:
        yield from (HEAD + first + second, first + HEAD + second, HEAD + first + b" A 192.0.2.7\n" + second)


def changed_texts(count):
    files = [*sorted((TOP / "examples").glob("*.zone")), *sorted(DATA.glob("*.zone"))]
    texts, words = [path.read_bytes() for path in files], octets_of(TABLES["words"])
    chance = random.Random(2)
    return (changed(chance, changed(chance, chance.choice(texts), words), words) for _ in range(count))


@pytest.mark.parametrize("texts", [
    faulty_texts, lambda: pairs_of_faults(10), lambda: changed_texts(500),
    pytest.param(lambda: pairs_of_faults(1), marks=slow), pytest.param(lambda: changed_texts(5_000), marks=slow)],
    ids=["data", "pairs", "changed", "all pairs", "5,000 changed"])
def test_all_faults(programs, tmp_path, texts):
    """`zonefaults` lists for each text the faults that the plain program finds."""
    faulty = 0
    for text in texts():
        wanted = plain.report(text, ORIGIN)
        said = said_of(text, tmp_path / "zone", programs / "zonefaults", "example")
        assert said == (wanted, int(wanted != ""), b""), text
        faulty += wanted.count("\n") > 1
    assert faulty > 100


# ---- messages

def broken_messages():
    """Ten captured messages: each truncated to each shorter length, and with each octet changed to each of six
    values."""
    lines = re.findall(r"\nstandard input\n\|([0-9a-f]+)\n",
                       (TOP / "crates" / "replay" / "data" / "captured.cases").read_text())
    for whole in map(bytes.fromhex, lines[:10]):
        yield from (whole[:end] for end in range(len(whole)))
        yield from (whole[:place] + bytes([octet]) + whole[place + 1:]
                    for place in range(len(whole)) for octet in [0, 63, 64, 191, 192, 255])


def is_read(programs, octets):
    """Whether dnsmsg prints a message and ends with 0, or a fault from 1 to 6 and ends with 1."""
    done = run(programs / "dnsmsg", input=octets.hex() + "\n", timeout=20)
    wanted = r"header (?s:.*)" if done.returncode == 0 else r"fault [1-6]\n"
    return done.returncode in (0, 1) and re.fullmatch(wanted, done.stdout) and done.stderr == ""


@pytest.mark.parametrize("step", [10, pytest.param(1, marks=slow)])
def test_broken_messages(programs, step):
    with ThreadPoolExecutor(4) as pool:
        octets = list(broken_messages())[::step]
        assert [one.hex() for one, read in zip(octets, pool.map(lambda one: is_read(programs, one), octets))
                if not read] == []


def test_the_message_with_the_most_pointers(programs):
    """Questions of six octets each, of which the name, the type and the class are all pointers. The first pointer
    leads to the root, and each other one to the pointer before it, or to the last pointer that can be reached (RFC
    1035 4.1.4)."""
    count = (65_535 - 12 - 5) // 6
    pointers = (0xC000 | max(12, min(place - 2, 16_383)) for place in range(13, 17 + 6 * count, 2))
    head = b"".join(number.to_bytes(2, "big") for number in (1, 0x8000, 1 + count, 0, 0, 0))
    before = spent()
    assert is_read(programs, head + b"\0" + b"".join(pointer.to_bytes(2, "big") for pointer in pointers))
    assert spent() - before < 20
