"""Reads a zone file as BIND does, and writes its entries in zonecheck's form, each on its own lines."""
import os
import re
from array import array

from master import (KINDS, LARGEST, LINES, NAMES, NUMBERS, OTHERS, QUICK, Entry, Reader, Refused, digits, groups, name, octets,
                    read, refuse, split, unquoted)

# The types that only a server of another kind serves: those of DNSSEC, and DNAME.
UNSERVED = {"DS": "TYPE43", "RRSIG": "TYPE46", "NSEC": "TYPE47", "DNSKEY": "TYPE48", "NSEC3": "TYPE50", "NSEC3PARAM": "TYPE51",
            "DNAME": "TYPE39"}
UNSERVED = {name: rtype for rtype, number in UNSERVED.items() for name in (rtype, number)}
DEEPEST, FILES = 10, 1000   # how deep $INCLUDE may be nested, and the most included files
# Data that stays as it is: an IPv6 address without a dotted end, or numbers without leading zeros before a name.
PLAIN = re.compile(r"[0-9a-fA-F]*:[0-9a-fA-F:]*$|(?:[1-9]\d*[ \t]+|0[ \t]+){1,3}[^\d\s]")
RANGE = re.compile(r"(\d{1,10})-(\d{1,10})(?:/(\d{1,10})|(?!/))")
# A part of a template of $GENERATE: plain text, or `$` for the number, with an offset, a width and a base if they are given.
PART = re.compile(r"([^\\$]+|\\.?)|\$(?:(\$)|\{(-?\d{1,9})(?:,(\d{1,3})(?:,([doxXnN]))?)?\}|(\{)?)", re.S)


def generated(text, number):
    """A template of $GENERATE filled with a number. As in BIND, an offset also applies to each later `$` without one."""
    offset, filled = 0, ""
    for other, dollar, given, width, base, bad in PART.findall(text):
        refuse(bad, f"{text}: ${{ takes an offset, a width and one of d, o, x, X, n and N")
        offset, width, base = int(given or offset), int(width or 0), base or "d"
        value = number + offset
        refuse(width > 127 or value > 2147483647, f"{text}: the width or the number is too great")
        # n and N: hex digits, the lowest digit first, with dots between them. The width counts digits and dots.
        nibbles = f"{value & 0xffffffff:{'X' if base == 'N' else 'x'}}"[::-1].ljust((width + 1) // 2, "0")
        filled += other or dollar or (
            ".".join(nibbles) + "." * (len(nibbles) * 2 == width) if base in "nN" else
            f"%0{width}{base}" % (value if base == "d" else value & 0xffffffff))
    return filled


class Importer(Reader):
    """Converts a file, and the files that it includes, to `lines`. `notes` says for each line that could not be converted
    why not. `sources` has the text of each file, and `places` the number of a file in `sources` and of a line there.

    With `lints`, records of the types UNSERVED are left out: `passed` has for each its owner, type and line.
    `folder` is where $INCLUDE looks for files; if it `maps`, absolute paths are looked for there too. `reads` reads one."""

    def __init__(self, zone, folder, lints=False, maps=False, reads=read):
        super().__init__(zone)
        self.folder, self.lines, self.places, self.notes, self.sources = os.path.realpath(folder), [], array("Q"), {}, {}
        self.lints, self.maps, self.reads, self.passed = lints, maps, reads, []
        # `restate`: whether the next record has to state its owner. `implied`: the TTL that records without one get from
        # the SOA record, or None. `size`: how many octets `lines` have. `count`: how many records were read. `files`: how
        # many files were included. `written`: the owner of the last line, if it was not yet put into `owner`.
        self.restate, self.implied, self.size, self.count, self.files, self.written = False, None, 0, 0, 0, None

    def read(self, text, path, stack=()):
        """Adds the entries of a text."""
        lines, self.sources[path] = split(text, path), text
        file = [*self.sources].index(path) << 32
        if stack and not lines[-1]:
            lines.pop()
        at, nested = 0, True
        while at < len(lines):
            begin, same = at, []
            while at < len(lines) and (line := self.quick(lines[at])) is not None:
                same.append(line)
                at += 1
            self.add(same, file + begin + 1, file + at)
            self.owner, self.written = self.written and name(self.written, self.origin) or self.owner, None
            # A zone that exceeds one of these limits never passes, so the rest of it is not read.
            if at == len(lines) or self.size > LARGEST or len(self.lines) >= LINES or self.count > 101000:
                break
            entry, begun = self.entry(lines, at, nested), len(self.lines)
            # An entry that is not closed is read to the end of the file. So that this is not repeated for each later entry, they
            # are read without nesting: then the next parenthesis inside another ends an entry.
            nested = nested and entry.closed
            directive, tokens = (entry.owner or "").upper(), entry.tokens
            try:
                if directive == "$INCLUDE":
                    new = self.include(tokens, path, file + at + 1, stack)
                elif directive == "$GENERATE":
                    new = self.generate(tokens)
                elif directive[:1] != "$":
                    new = self.record(entry) if tokens else entry.lines()
                else:
                    self.take(entry)
                    if directive == "$TTL" and len(tokens) == 2:
                        tokens[1], self.implied = digits(tokens[1]) or tokens[1], None
                    new = [";" * (directive == "$DATE") + line for line in entry.lines()]
            except Refused as error:
                self.notes[begun], new = str(error), lines[at:entry.end]
            self.add(new, file + at + 1, file + entry.end)
            at = entry.end

    def quick(self, line):
        """The converted line if it has no entry, or one of which at most the TTL is converted, as most are; else None.
        If so, the entry is read."""
        if line[:1] in ("", ";"):
            return line
        quick = QUICK.fullmatch(line)
        if not quick or self.restate and not quick[1] or self.implied and not quick[2] or \
                quick[3] in ("AAAA", "MX", "SRV") and not PLAIN.match(quick[4]):
            return None
        if (ttl := quick[2]) and not (ttl.isdecimal() and ttl[0] != "0"):
            line = f"{line[:quick.start(2)]}{digits(ttl) or ttl}{line[quick.end(2):]}"
        self.written, self.stated, self.count, self.restate = quick[1] or self.written, ttl or self.stated, self.count + 1, False
        return line

    def add(self, lines, first, last):
        """Adds lines, whose places are from `first` on, but at most `last`."""
        self.lines += lines
        self.places.extend(min(place, last) for place in range(first, first + len(lines)))
        self.size += sum(map(len, lines)) + len(lines)

    def record(self, entry):
        """The lines of a record."""
        self.count += 1
        owner, tokens, at, data, begin = entry.owner, entry.tokens, entry.at, entry.data, int(not entry.blank)
        front = f"{self.owner} " if owner is None and self.restate and self.owner else ""
        record, rtype, self.restate = self.take(entry), NAMES.get(entry.rtype, entry.rtype), False
        if self.lints and rtype in UNSERVED:
            self.passed.append((self.owner, UNSERVED[rtype], len(self.lines)))
            self.restate = True
            return [""] * (entry.end - entry.begin)
        if owner and owner[0] == '"':
            tokens[0] = unquoted(owner) + " "
        if entry.ttl:
            tokens[tokens.index(entry.ttl, begin)] = digits(entry.ttl) or entry.ttl
        if record and record.ttl is None and rtype == "SOA" and len(data) == 7:
            self.implied = digits(data[6])
        if data[:1] == ["\\#"]:
            tokens[at] = NUMBERS[rtype] if rtype in OTHERS else tokens[at]
            tokens[at + 2:at + 3] = [digits(token) or token for token in data[1:2]]
            if any(len(token) % 2 for token in data[2:]):
                tokens[at + 3:] = ["".join(data[2:]), *[""] * (len(data) - 3)]
        elif rtype in OTHERS:
            from generic import generic  # It imports dnspython, which takes long.
            text, why = generic(entry, rtype, self.origin)
            if why:
                self.notes[len(self.lines)] = why
            else:
                tokens[at:] = [f"{NUMBERS[rtype]} {text}", *[""] * len(data)]
        elif rtype in KINDS:
            tokens[at] = tokens[at] if rtype == entry.rtype else rtype
            for place, (kind, token) in enumerate(zip(KINDS[rtype], data), at + 1):
                if kind == "6" and "." in token:
                    tokens[place] = groups(token) or token
                elif kind in "HL" and (token.isdigit() or rtype == "SOA" and place > at + 3):
                    tokens[place] = digits(token) or token
        if self.implied and entry.ttl is None and record:
            tokens[begin] = f"{self.implied} {tokens[begin]}"
        first, *rest = entry.lines()
        return [front + first, *rest]

    def include(self, tokens, by, place, stack):
        """Adds the entries of the file of $INCLUDE FILE [ORIGIN] in the file `by`, and then restores the origin and the owner."""
        refuse(len(tokens) not in (2, 3), "$INCLUDE takes a file and an origin")
        path = os.fsdecode(octets(tokens[1]).replace("\0", "").encode("latin-1"))
        real = os.path.realpath(os.path.join(self.folder, path))
        if self.maps and os.path.isabs(path) and os.path.commonpath([real, self.folder]) != self.folder:
            # The end of the path that is a file in the folder.
            parts = path.strip("/").split("/")
            ends = (os.path.join(self.folder, *parts[at:]) for at in range(len(parts)))
            real = os.path.realpath(next(filter(os.path.isfile, ends), real))
        before, owner, self.files = self.origin, self.owner, self.files + 1
        origin = name(tokens[2], before) if len(tokens) == 3 else before
        refuse(os.path.commonpath([real, self.folder]) != self.folder,
               f"{tokens[1]} is outside {self.folder}; --include-from names another folder")
        refuse(origin is None, f"{tokens[-1]} is not a name")
        refuse(real in stack, f"{tokens[1]} includes itself")
        refuse(len(stack) >= DEEPEST or self.files > FILES,
               f"{tokens[1]}: includes are nested deeper than {DEEPEST} files, or more than {FILES} files are included")
        refuse(os.path.exists(real) and not os.path.isfile(real), f"{tokens[1]} is not a plain file")
        text = self.reads(real, tokens[1])
        if origin != before:
            self.add([f"$ORIGIN {origin}"], place, place)
        self.origin = origin
        self.read(text, real if os.path.isabs(by) else os.path.relpath(real), (*stack, real))
        changed, self.origin, self.owner, self.restate = self.origin != before, before, owner, True
        return [f"$ORIGIN {before}"] if changed else []

    def generate(self, tokens):
        """The records of $GENERATE FIRST-LAST[/STEP] OWNER [TTL] [CLASS] TYPE DATA."""
        found = RANGE.match("".join(tokens[1:2]))
        first, last, step = (int(part or 1) for part in found.groups()) if found else (1, 0, 0)
        refuse(first > last or last > 2147483647 or not step,
               f"$GENERATE takes a range, as 1-9 or 1-9/2, and not {''.join(tokens[1:2]) or 'nothing'}")
        refuse(len(Entry([" ".join(tokens[2:])], 0).data) != 1 or tokens[2][0] == '"',
               "$GENERATE takes a range, an owner, a type and one token of data; quote data of several tokens")
        refuse((last - first) // step >= 100000, "$GENERATE makes more than 100,000 records")
        data, owner, lines = tokens[-1], self.owner, []
        if data[0] == '"':
            data = re.sub(r"\\(.)", lambda match: match[0].replace('\\"', '"'), data[1:-1], flags=re.S)
        for number in range(first, last + 1, step):
            front = generated(tokens[2], number)
            line = " ".join(["\\" * front.startswith("$") + front, *tokens[3:-1], generated(data, number)])
            lines += self.record(Entry([line], 0, nested=True))
        self.owner, self.restate = owner, True
        return lines
