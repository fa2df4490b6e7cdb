"""Finds all faults of a zone by zonefaults, which decides, and says what to do about each.

zonefaults gives the place of each faulty entry's fault, and the faults of the zone that no further record removes.
"""
import collections
import gc
import itertools
import os
import re
import subprocess
import sys
from pathlib import Path

import bind
from master import FORMS, LINES, Names, Reader, Record, Refused, address, escaped, name, read, refuse, split, twice, unique, within
from reports import Report, plain

MOST, EACH = 100, 5         # the most faults, and the most of a code, that are reported as text for a file
MOST_TEXT = 50000000        # the most octets of the canonical text, which does not take too much memory
MOST_RUNS = 20              # how often zonefaults may read a file
FIELD = re.compile(r'"(?:[^"\\]|\\.)*"|(?:[^ "\\]|\\.)+')
SPOT = re.compile(r"^(\d+):(\d+)-(\d+):(\d+) (R\d\d)(?:\.(\d))?$", re.M)
# A fault. `place` is a file and a line, and `span` the column where it begins and the line and column where it ends, or None.
Fault = collections.namedtuple("Fault", "place code name text span", defaults=(None,))
# A place and a code of zonefaults. Lines are counted from 0, and columns from 1.
Spot = collections.namedtuple("Spot", "line column end_line end_column code number")

# The faults that are limits of zonecheck and zoneserve alone, and what a note says of each.
LIMITS = {"R14": "more than 100,000 records: the rest was not checked", "R15": "more than 16,777,216 octets: the rest was not checked",
          "Z14": "a set of more than 64 records", "Z15": "more than 32 types at a name"}
BOM = "\xef\xbb\xbf"
TOP = Path(__file__).resolve().parents[2]


def ask(program, origin, text, *options):
    """The status and the output of zonecheck or zonefaults for a text."""
    try:
        done = subprocess.run([program, *options, origin, "/dev/stdin"], input=text.encode("latin-1"), capture_output=True)
    except (OSError, ValueError) as error:
        raise Refused(f"{program}: {getattr(error, 'strerror', None) or error}") from None
    refuse(len(done.stdout) > MOST_TEXT, f"the canonical text has more than {MOST_TEXT:,} octets")
    refuse(done.returncode not in (0, 1), f"{program}: {done.stderr.decode('latin-1').strip() or f'status {done.returncode}'}")
    return done.returncode, done.stdout.decode("latin-1")


def run(program, main):
    """Runs `main`, and exits with its status, or with 2 if it raises an exception: 1 would mean that a zone has faults."""
    gc.disable()  # There are many records, and no cycles worth collecting.
    # The programs are on the path, or beside this one, or built in this source.
    places = [TOP / "bin", *TOP.glob("crates/zone*/out")]
    os.environ["PATH"] = ":".join([os.environ.get("PATH", os.defpath), *map(str, places)])
    sys.stderr = sys.stderr or open(os.devnull, "w", encoding="ascii")  # A closed stream is None.
    try:
        refuse(not sys.stdout, "standard output is closed")
        sys.stdout.reconfigure(errors="backslashreplace")
        status = main()
        sys.stdout.flush()
    except KeyboardInterrupt:
        status = 130
    except Exception as error:
        status = 2
        if not isinstance(error, BrokenPipeError):
            kind = "" if isinstance(error, (Refused, OSError)) else f"{type(error).__name__}: "
            print(f"{program}: {kind}{plain(str(getattr(error, 'strerror', None) or error))}", file=sys.stderr)
        if isinstance(error, OSError):
            os.dup2(os.open(os.devnull, os.O_WRONLY), 1)
    sys.exit(status)


def absolute(origin):
    """The name of an argument, whose octets are those of the name."""
    return name(os.fsencode(origin).decode("latin-1"), ".") or "."


def imported(origin, text, path, folder, lints=False, reads=read):
    """The zone of a file in BIND's form: the converted lines, each with its place in the original files. With `lints`, what only
    other servers serve is passed, and a file that zonecheck passes as it is needs no conversion."""
    if text.startswith(("\0\0\0", *FORMS)):
        return Zone(origin, text, path)
    if lints and "$" not in text.replace("$TTL", "").replace("$ORIGIN", ""):
        zone = Zone(origin, text, path)
        if zone.passes_at_once():
            return zone
    near = "" if path.startswith("/dev/") else os.path.dirname(path)
    importer = bind.Importer(absolute(origin), folder or near or ".", lints, maps=bool(folder), reads=reads)
    importer.read(text.removeprefix(BOM), path)
    refuse(len(importer.lines) >= LINES, f"{path}: with the files that it includes, it has more than {LINES:,} lines")
    zone = Zone(origin, "\n".join(importer.lines), path, importer)
    if text.startswith(BOM):
        zone.faults.append(Fault((path, 1), "R01", "", "the file begins with a byte order mark, which BIND refuses: take it out"))
    return zone


class Zone:
    """A zone file, and all that is found about it.

    `lines` are its lines. `places` are as in an importer, if one made the lines; else empty. `notes` has the importer's
    message for each line that it could not convert. `doubtful` has for each name the types of its faulty entries. `partial` means that
    included lines are unknown. `sources` has the text of each file. `more` means that there may be unreported faults. `fixes` has
    the remedies that are sure: a file, a line, the columns of what is replaced, and a text.
    """

    def __init__(self, origin, text, path, importer=None):
        self.origin, self.path, self.text, self.zone = origin, path, text, absolute(origin)
        made = importer or bind.Importer(self.zone, ".")
        self.places, self.notes, self.partial, self.passed = made.places, made.notes, False, made.passed
        self.lines = made.lines or (text.split("\n") if text.startswith((*FORMS,)) else split(text, path))
        self.sources, self.lints, self.notes_found, self.fixes = made.sources or {path: text}, made.lints, [], set()
        self.faults, self.records, self.passes, self.more, self.doubtful = [], [], False, False, collections.defaultdict(set)
        self.seen, self.mended, self.split = {}, set(), {}

    def passes_at_once(self):
        """Whether zonecheck passes the text. If so, sets `passes` and `records`; else returns False."""
        status, said = ask("zonecheck", self.origin, self.text, "--print")
        if status == 0:
            # The canonical text has a record on each line.
            for owner, ttl, _, rtype, data in (line.split(" ", 4) for line in said.splitlines()):
                data = FIELD.findall(data) if '"' in data or "\\" in data else data.split(" ")
                self.records.append(Record(owner, ttl, rtype, data))
        self.passes = status == 0
        return self.passes

    def check(self):
        """Sets `passes`, `faults` and `records`."""
        if self.passes or self.passes_at_once():
            return self
        runs, rows = 0, None
        while rows is None and not self.more:
            said, runs = ask("zonefaults", self.origin, "\n".join(self.lines))[1], runs + 1
            spots = [Spot(int(line) - 1, int(column), int(end) - 1, int(last), code, int(number or 0))
                     for line, column, end, last, code, number in SPOT.findall(said)]
            rows = self.look(spots, "\nmore\n" in said, said)
            self.more = self.more or len(self.faults) >= MOST or runs == MOST_RUNS
        if self.more:
            self.records = []
        else:
            ZoneFaults(self, self.records).report(rows)
        self.faults.sort(key=lambda fault: (fault.place[1], fault.span or (0,), fault.code))
        self.more, self.faults = self.more or len(self.faults) >= MOST, self.faults[:MOST]
        return self

    def look(self, spots, has_more, said):
        """Reports the faults of entries at `spots`, and reads the records of the other entries. Returns the names and codes of the
        zone's faults, or None if `lines` were changed because of a fault that hides others."""
        reader, self.records, before = Reader(self.zone), [], len(self.mended)
        for spot in spots:
            if spot.line < reader.at:
                continue  # It results from the fault before it, in the same entry.
            self.records += reader.records(self.lines, spot.line + 1)
            if len(self.faults) >= MOST or self.text.startswith((*FORMS,)) and self.faults:
                self.more = len(self.faults) >= MOST
                return []
            if self.take(reader, spot):
                return None
        self.records += reader.records(self.lines) if not spots or spots[-1].code < "R14" or self.places else ()
        if len(self.mended) > before or has_more and self.cut_out(spots):
            return None
        self.more = has_more
        return re.findall(r"^(.*) (Z\d\d)$", said, re.M)

    def take(self, reader, spot):
        """Reports the fault of the entry that `reader` has just read, unless it was reported before. Returns whether the later
        spots result from this fault."""
        begun, owner, rtype = reader.begun, reader.owner, ""
        if self.records and self.records[-1].line == begun:
            owner, _, rtype, *_ = self.records.pop()
        self.doubtful[None if spot.code in ("R05", "R06") else owner].add(rtype)
        place, span = self.exact(spot)
        key = place, span and span[0], spot.code
        until = self.seen.get(key)
        if until is None and begun not in self.mended and not (spot.code == "R08" and reader.lost):
            from remedies import Remedy  # Most zones need none.
            remedy = Remedy(self, reader, spot)
            until = self.seen[key] = remedy.until
            self.partial = self.partial or remedy.tokens[:1] and remedy.tokens[0].upper() in ("$INCLUDE", "$GENERATE")
            self.found(place, spot.code, remedy.says, span=span, entry=begun)
            if span and remedy.new is not None:
                self.fixes.add((*place, *remedy.cut, remedy.new))
            if remedy.mending:
                line, begin, end, new = remedy.mending
                self.mended.add(begun)
                self.lines[line] = self.lines[line][:begin] + new + self.lines[line][end:]
                reader.lost = reader.lost or spot.code == "R07"
                return spot.code not in ("R06", "R07")
        reader.at = max(reader.at, 1 + (until or 0))
        return False

    def cut_out(self, spots):
        """Takes out the lines of each $GENERATE that makes several faults. Returns whether there is one."""
        count = collections.Counter(self.places[spot.line] for spot in spots) if self.places else {}
        several = {place for place, number in count.items() if number > 1}
        self.lines = ["" if several and place in several else line for line, place in zip(self.lines, self.places or self.lines)]
        return bool(several)

    def remarks(self):
        """The notes: limits that only zonecheck has, and records that were not checked."""
        signed = [rtype for _, rtype, _ in self.passed if rtype != "DNAME"]
        kinds = (f"DNSSEC ({', '.join(dict.fromkeys(signed))})", len(signed)), ("DNAME", len(self.passed) - len(signed))
        for kind, count in kinds:
            if count:
                says = f"{count} record{'s' * (count > 1)} of {kind} {'were' if count > 1 else 'was'} not checked"
                self.notes_found.append(Fault((self.path, 1), "N01", "", says + ": zoneserve does not serve them"))
        return self.notes_found

    def place(self, line):
        """The file and the number of a line."""
        if not self.places:
            return self.path, line + 1
        file, number = divmod(self.places[line], 1 << 32)
        return [*self.sources][file], number

    def exact(self, spot):
        """The place of a spot, and its span if the line is in the file as it was checked."""
        file, number = self.place(min(spot.line, len(self.lines) - 1))
        if self.places and self.lines[spot.line:spot.line + 1] != [self.line(file, number)]:
            return (file, number), None
        return (file, number), (spot.column, number + spot.end_line - spot.line, spot.end_column)

    def line(self, file, number):
        """A line of a file as it was read."""
        if file not in self.split:
            self.split[file] = self.sources[file].split("\n")
        return self.split[file][number - 1] if number <= len(self.split[file]) else ""

    def where(self, lines):
        """The places of these lines, at most three, in the words of a message."""
        places = dict.fromkeys(self.place(line) for line in itertools.islice(lines, 3))
        where = [f"line {line}" + f" of {file}" * (file != self.path) for file, line in places]
        return " and ".join(where) or "the same line"

    def model(self, owners):
        """The records with their lines, at least those of these owners."""
        return Reader(self.zone, owners).records(self.lines) if self.passes else self.records

    def report(self, found, severity):
        """These faults, warnings and notes with their lines, as far as they have a severity."""
        return [Report(file, line, *(span or (None, None, None)), severity(code), code, owner, escaped(message[:2000]),
                       escaped(self.line(file, line).rstrip("\r").replace("\t", " ")[:300]))
                for (file, line), code, owner, message, span in found if severity(code)]

    def found(self, place, code, text, owner="", span=None, entry=None):
        """Adds a fault."""
        text = self.notes.get(entry, text) if code in ("R05", "R11", "R13") else text
        if self.lints and code in LIMITS:
            self.notes_found.append(Fault(place, "N02", owner, f"{LIMITS[code]}: zoneserve does not serve that", span))
        elif self.faults[-1:] != [Fault(place, code, owner, text, span)]:
            self.faults.append(Fault(place, code, owner, text, span))


class ZoneFaults(Names):
    """The faults of a zone: for each fault that zonefaults reports, the records that cause it, and what to do."""

    def report(self, faults):
        self.soas = [record for record in self.of.records if record.rtype == "SOA"]
        self.hosts = {one.data[-1] for one in self.of.records if one.rtype in ("NS", "MX", "SRV") and one.data}
        for owner, code in faults:
            here = self.at(owner)
            says = self.origin(owner, here, code) if code in ("Z01", "Z04") else "the name has this fault"
            for record, says in [*self.causes(owner, code)] or [(next(iter(here), None), says)]:
                self.of.found(self.of.place(record.line if record else 0), code, says, owner)
            if len(self.of.faults) > MOST:
                return

    def origin(self, owner, here, code):
        """The message for an origin without an SOA record, Z01, or without an NS record, Z04."""
        below = self.zone.lstrip(".")
        server = next((record.data[0] for record in here if record.rtype in ("NS", "SOA")), "ns1." + below)
        if code == "Z04":
            lost = ", with the address of the server" * (within(server, self.zone) and not self.at(server, "A", "AAAA"))
            return f"the origin has no NS record: add one for each server, as `{owner} 3600 IN NS {server}`{lost}"
        do = f": add `{owner} 3600 IN SOA {server} hostmaster.{below} 1 7200 900 1209600 300`"
        for soa in self.soas[:1]:
            do = "write @ as its owner, which lacks its final dot" if twice(soa.owner, self.zone) else \
                f"give {soa.owner} as ORIGIN, if the file is of that zone"
            do = f"; {self.of.where([soa.line])} has the one of {soa.owner}: {do}"
        return "the origin has no SOA record" + do

    def causes(self, owner, code):
        """The records that cause a fault of a name, each with its message."""
        from remedies import ZONE  # Most zones need none.
        cut, sets = self.cut(owner) or owner, self.sets[owner]
        for number, (rtype, own) in enumerate(sets.items()):
            first, alone = {record.ttl: record for record in reversed(own)}, unique(own)
            more = [record for record in own[MOST:] if record in (first[record.ttl], *alone[64:65])]
            for record in own[:MOST] + more:
                is_cause = {
                    "Z02": rtype == "SOA", "Z03": rtype == "SOA", "Z05": True, "Z07": rtype == "CNAME",
                    "Z06": rtype == "CNAME" or owner != self.zone, "Z08": len(first) > 1 and record is first[record.ttl],
                    "Z12": rtype not in ("A", "AAAA") and (rtype != "NS" or owner != cut), "Z13": rtype == "NS",
                    "Z14": record in alone[64:65], "Z15": (number, record) == (32, own[0])}
                if code in ("Z09", "Z10", "Z11"):
                    yield from self.target(owner, record, code) if rtype in ("NS", "MX", "SRV") else ()
                elif is_cause.get(code):
                    see = {"Z06": [one for one in self.at(owner) if (one.rtype == "CNAME") != (rtype == "CNAME")],
                           "Z08": first.values(), "Z12": self.at(cut, "NS")}.get(code, own)
                    kind = " CNAME" * (rtype == "CNAME") + " at the origin" * (owner == self.zone)
                    do = self.moved(owner) if code == "Z03" else self.outside(owner, rtype) if code == "Z05" else ""
                    yield record, ZONE[code + kind * (code == "Z06")].format(
                        record=record, own=own, alone=len(alone), types=len(sets), cut=cut, zone=self.zone, do=do,
                        lines=self.of.where(one.line for one in see if one.line != record.line))

    def moved(self, owner):
        if twice(owner, self.zone):
            return "its owner lacks the final dot: write @"
        if self.at(self.zone, "SOA"):
            return "take it out"
        return "write @ as its owner, or " * within(owner, self.zone) + f"give {owner} as ORIGIN, if the file is of that zone"

    def outside(self, owner, rtype):
        soa = next((soa.owner for soa in self.soas if not within(soa.owner, self.zone)), None)
        if soa and not self.at(self.zone, "SOA"):
            return f"the SOA of the file is that of {soa}: give that as ORIGIN"
        if rtype in ("A", "AAAA") and owner in self.hosts:
            return "the address of a host outside the zone is in the zone of that host: take the record out"
        if owner.count(".") == 1 and owner != ".":
            return f"write {owner[:-1]} without the final dot, or take the record out"
        return "take the record out, or put it into the file of its own zone"

    def target(self, owner, record, code):
        target, rtype, written, found = record.data[-1], record.rtype, record.last, address(record.last)
        end, aliases = self.aliased(target) if within(target, self.zone) else (target, [])
        if code == "Z09" and rtype == "NS" and aliases:
            yield record, f"the server {target} is an alias: write {end}"
        if code == "Z11" and rtype != "NS" and aliases:
            yield record, f"an {rtype} host that is an alias: {target}: write {end}"
        do = f"add `{target} 3600 IN A` with its address, or take the NS record out"
        if found:
            do = f"{found[1]} is an address: write a name, as `NS ns9`, and for that name `ns9 {found[0]} {found[1]}`"
        elif twice(target, self.zone):
            do = f"the final dot is missing: write {written}."
        elif aliases:
            do = f"write {end}, the name that it is an alias for"
        elif "." in written and written[-1] != "." and (owner == self.zone or not within(target, owner)):
            do = f"write {written}. if it is in another zone; else {do}"
        below = self.cut(target) and not (owner in self.cuts and within(target, owner))
        lost = within(target, self.zone) and not below and not self.at(target, "A", "AAAA")
        if code == "Z10" and rtype == "NS" and lost:
            yield record, f"a server in the zone without an address: {target}: {do}"
