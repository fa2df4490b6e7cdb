#!/usr/bin/python3
"""Prints all faults of a zone file as `zonefaults` does, `tests/plain_faults.py ORIGIN FILE`, slowly.

It is written from the prose of the definitions (`EntryPlaces`, `AllFaults`), not from the programs, and uses only the
standard library. It reads a file token by token (RFC 1035 5.1), and looks at all records for each check.
"""
import ipaddress
import re
import sys
from pathlib import Path

# Each type's number and the fields of its data: numbers of 2 or 4 octets (H, L), addresses (4, 6), names (n), one
# string (s), one or more strings (t).
TYPES = {"A": (1, "4"), "NS": (2, "n"), "CNAME": (5, "n"), "SOA": (6, "nnLLLLL"), "PTR": (12, "n"),
         "HINFO": (13, "ss"), "MX": (15, "Hn"), "TXT": (16, "t"), "AAAA": (28, "6"), "SRV": (33, "HHHn")}
PIECES = dict(TYPES.values())
WIDTHS = {"4": 4, "6": 16, "H": 2, "L": 4}
NO_ZONE_TYPES = {0, 39, 41, 43, 46, 47, 48, 50, 51, *range(128, 256)}
MOST_OCTETS, MOST_RECORDS, MOST_LISTED = 2 ** 24, 100_000, 1_000
REMOVABLE = {1, 4, 10}
INVALID = object()


# ---- entries and their tokens (RFC 1035 5.1)

# An escape, and the octets of a string and of a word, of which some need an escape.
ESCAPE = rb"\\(?:[01][0-9]{2}|2[0-4][0-9]|25[0-5]|[ -/:-~])"
STRING, WORD = rb"(?:[\t !#-\[\]-~]|%s)*" % ESCAPE, rb"(?:[!#-'*-:<-\[\]-~]|%s)+" % ESCAPE
TOKEN = re.compile(rb'(?P<blank>[ \t]+|;[^\n]*)|(?P<bracket>[()])|(?P<end>\r?\n)|"(?P<quoted>%s)"|(?P<word>%s)'
                   % (STRING, WORD))
LINE_END, CUT = re.compile(rb"\r?\n|\Z"), re.compile(rb"|\r|\\[0-9]{0,2}")


def place_of(text, at):
    """The place of the octet at `at`, which is empty at a line end and at the end of the text."""
    return at, at if LINE_END.match(text, at) else at + 1


def read_entry(text, past, begin):
    """The words of the entry that begins at `begin`, each with its place; the place of its end; its lexical fault, a
    number of an R code (docs/CODES.md), and that fault's place, or None; and where the next entry begins, or None."""
    at, words, is_open, code = begin, [], False, None
    while at < len(text) and not code:
        found = TOKEN.match(text, at)
        kind = found and found.lastgroup
        if not found:
            at = re.compile(STRING).match(text, at + 1).end() if text[at] == 34 else at
            code = 3 if LINE_END.match(text, at) else 2 if text[at] == 92 else 1
            code = 15 if past and CUT.fullmatch(text, at) else code
        elif kind == "bracket" and (found[0] == b"(") == is_open:
            code = 4
        elif kind == "end" and not is_open:
            return words, at, None, found.end()
        else:
            words += [(found[kind], kind == "quoted", found.span())] if kind in ("quoted", "word") else []
            is_open ^= kind == "bracket"
            at = found.end()
    code = code or (15 if past else 4 if is_open else None)
    if not code:
        return words, at, None, None
    place = place_of(text + past, len(text)) if code == 15 else place_of(text, at)
    return words, at, (code, place), text.find(b"\n", at) + 1 or len(text)


# ---- the meaning of tokens

def unescaped(raw):
    """The octets that a part of a word spells."""
    return re.sub(ESCAPE, lambda one: bytes([int(one[0][1:])]) if len(one[0]) == 4 else one[0][1:], raw)


def wire(name):
    return b"".join(bytes([len(label)]) + label for label in name) + b"\0"


def labels_of(raw):
    """The labels that a word spells, and whether it ends in a dot, which is not escaped."""
    parts = re.sub(rb"(%s)|\." % ESCAPE, lambda found: found[1] or b"\n", raw).split(b"\n")
    ends = len(parts) > 1 and not parts[-1]
    return list(map(unescaped, parts[:-1] if ends else parts)), ends


def name_of(word, origin):
    """The name that a word spells, in lower case, below the origin if it is relative; None if the word is no valid
    name."""
    raw, is_quoted = word
    if is_quoted:
        return None
    if raw in (b"@", b"."):
        return origin if raw == b"@" else ()
    labels, ends = labels_of(raw)
    name = tuple(labels) + (() if ends else origin)
    if not raw or any(not 1 <= len(label) <= 63 for label in name) or len(wire(name)) > 255:
        return None
    return tuple(label.lower() for label in name)


def name_fault(raw):
    """The number of the fault of a word that is no name: its labels from the left, an empty one 1, one of more than 63
    octets 2; 3 if the name is too long."""
    lengths = map(len, labels_of(raw)[0])
    return next((1 if length == 0 else 2 for length in lengths if not 1 <= length <= 63), 3)


def number_of(word, octets):
    raw, is_quoted = word
    plain = not is_quoted and re.fullmatch(rb"0|[1-9][0-9]{0,9}", raw)
    return int(raw) if plain and int(raw) < 256 ** octets else None


def address_of(word, version):
    """The octets of an address. An IPv6 address has only groups of hexadecimal digits and colons."""
    raw, is_quoted = word
    if is_quoted or version == 6 and not re.fullmatch(rb"[0-9A-Fa-f:]*", raw):
        return None
    try:
        return {4: ipaddress.IPv4Address, 6: ipaddress.IPv6Address}[version](raw.decode("latin-1")).packed
    except ValueError:
        return None


def string_of(word):
    octets = unescaped(word[0])
    return bytes([len(octets)]) + octets if len(octets) <= 255 else None


def type_of(words):
    """The number of the type that the first word names, or None if it names none that a zone may contain."""
    if not words or words[0][1]:
        return None
    raw = words[0][0].upper().decode("latin-1")
    numbered = re.fullmatch(r"TYPE(0|[1-9][0-9]{0,4})", raw)
    number = TYPES[raw][0] if raw in TYPES else int(numbered[1]) if numbered else None
    return number if number is not None and number < 65536 and number not in NO_ZONE_TYPES else None


def ttl_of(word):
    number = number_of(word, 4)
    return number if number is not None and number < 2 ** 31 else None


# ---- data

def name_at(data, at):
    """The name that begins at `at` in data, and its end. The name is None if it is invalid or incomplete."""
    labels = []
    while at < len(data) and data[at]:
        if data[at] > 63:
            return None, at
        labels.append(data[at + 1:at + 1 + data[at]])
        at += 1 + data[at]
    is_whole = at < len(data) and len(wire(labels)) <= 255
    return (tuple(labels), at + 1) if is_whole else (None, at)


def string_end(data, at):
    return at + (1 + data[at] if at < len(data) else 1)


def parts_of(kind, data):
    """The fields of data, as octets or as names; None if the data is invalid for its type."""
    if kind not in PIECES:
        return [data]
    at, parts = 0, []
    for piece in PIECES[kind]:
        name, end = name_at(data, at) if piece == "n" else (None, string_end(data, at))
        while piece == "t" and end < len(data):
            end = string_end(data, end)
        end = at + WIDTHS[piece] if piece in WIDTHS else end
        if end > len(data) or piece == "n" and name is None:
            return None
        parts.append(data[at:end] if name is None else name)
        at = end
    return parts if at == len(data) else None


def unknown_data(kind, words):
    """The data that these words spell in the generic form, from `\\#` on, and its fault, as `data_of` gives them."""
    if len(words) > 1 and number_of(words[1], 2) is None:
        return None, (6, 2)
    odd = next((at for at, (raw, quoted) in enumerate(words)
                if at > 1 and (quoted or not re.fullmatch(rb"([0-9A-Fa-f]{2})+", raw))), 0)
    data = bytes.fromhex(b"".join(word[0] for word in words[2:]).decode()) if not odd else b""
    is_said = len(words) > 1 and not odd and number_of(words[1], 2) == len(data)
    parts = parts_of(kind, data) if is_said else None
    if parts is None:
        return None, (7 if is_said else 6, odd + 1)
    return b"".join(wire([label.lower() for label in part]) if isinstance(part, tuple) else part
                    for part in parts), None


def data_of(kind, words, origin):
    """The data that the words after the type spell, with its names in lower case, or None; and its fault or None: a
    number, and how many words, from the type on, precede the faulty one."""
    if words and words[0] == (b"\\#", False):
        return unknown_data(kind, words)
    pieces = PIECES.get(kind)
    if pieces is None:
        return None, (6, min(len(words), 1))
    pieces = "s" * max(1, len(words)) if pieces == "t" else pieces
    if len(pieces) != len(words):
        return None, (1, 0)
    data = b""
    for before, (piece, word) in enumerate(zip(pieces, words), 1):
        if piece in "HL":
            number = number_of(word, WIDTHS[piece])
            octets = None if number is None else number.to_bytes(WIDTHS[piece], "big")
        elif piece == "n":
            name = name_of(word, origin)
            octets = None if name is None else wire(name)
        else:
            octets = string_of(word) if piece == "s" else address_of(word, int(piece))
        if octets is None:
            return None, ({"H": 2, "L": 2, "n": 4, "s": 5}.get(piece, 3), before)
        data += octets
        if len(data) > 65535:
            return None, (5, before)
    return data, None


# ---- what entries mean, by looking back over all entries before them

class Reader:
    def __init__(self, zone):
        self.origin, self.owner, self.default, self.stated, self.count, self.records = zone, None, None, None, 0, []

    def take(self, blank, words):
        """What an entry without a lexical fault means: None; or a fault: its code, the number of words before the one
        at fault, or None for the beginning of the entry, and its number."""
        bare = [word[:2] for word in words]
        if not bare:
            return None
        if not blank and not bare[0][1] and bare[0][0].startswith(b"$"):
            return self.directive(bare)
        return self.record(blank, bare)

    def directive(self, words):
        name = words[0][0].lower()
        if name not in (b"$origin", b"$ttl"):
            return 5, 0, None
        if len(words) == 1:
            return 6, 0, None
        if name == b"$origin":
            value, spelled = name_of(words[1], self.origin), name_of((words[1][0], False), self.origin)
            self.origin = self.origin if spelled is None else spelled
        else:
            value = ttl_of(words[1])
            self.default = INVALID if value is None else value
        return (6, 1, None) if value is None else (6, 2, None) if len(words) > 2 else None

    def record(self, blank, words):
        rest = words if blank else words[1:]
        if not blank:
            self.owner = name_of(words[0], self.origin)
        stated = other = None
        for _ in range(2):
            raw = rest[0][0].lower() if rest and not rest[0][1] else b""
            if raw[:1].isdigit() and stated is None:
                stated, *rest = rest
            elif re.fullmatch(rb"in|c[hs]|hs|class.*", raw) and other is None:
                other, *rest = rest
        before, kind = len(words) - len(rest), type_of(rest)
        ttl = ttl_of(stated) if stated else None
        in_force = self.stated if self.default is None else self.default
        if stated:
            in_force = self.stated = INVALID if ttl is None else ttl
        self.count += 1
        if self.owner is None:
            return (8, None, None) if blank else (7, 0, None if words[0][1] else name_fault(words[0][0]))
        if stated and ttl is None:
            return 9, words.index(stated, 0 if blank else 1), None
        if other and other[0].lower() not in (b"in", b"class1"):
            return 10, words.index(other, 0 if blank else 1), None
        if kind is None:
            return 11, before, None
        if in_force is None:
            return 12, before, None
        data, fault = data_of(kind, rest[1:], self.origin)
        if fault:
            return 13, before + fault[1], fault[0]
        if self.count > MOST_RECORDS:
            return 14, None, None
        if in_force is not INVALID:
            self.records.append((self.owner, kind, data, in_force))
        return None


def faults_of(text, zone, first=False):
    """All faults of a file, each as its place, its code, its number, and where its entry begins; and the records of
    its other entries, without duplicates. If `first`, it stops after the first fault."""
    text, past = text[:MOST_OCTETS], text[MOST_OCTETS:MOST_OCTETS + 1]
    reader, found, begin = Reader(zone), [], 0
    while begin is not None and not (found and (first or found[-1][1] >= 14)):
        words, end, lexical, after = read_entry(text, past, begin)
        kept = list(reader.records) if lexical else None
        fault = reader.take(text[begin:begin + 1] in (b" ", b"\t"), words)
        if lexical:
            reader.records = kept
            found.append((lexical[1], lexical[0], None, begin))
        elif fault:
            code, before, number = fault
            place = (begin, begin) if before is None else words[before][2] if before < len(words) else (end, end)
            found.append((place, code, number, begin))
        begin = after
    return found, list(dict.fromkeys(reader.records))


# ---- the checks

def is_below(name, other):
    return len(name) >= len(other) and name[len(name) - len(other):] == other


class Zone:
    def __init__(self, zone, records):
        self.zone, self.owned = zone, {}
        for record in records:
            self.owned.setdefault(record[0], []).append(record)

    def at(self, name, *kinds):
        return [record for record in self.owned.get(name, []) if not kinds or record[1] in kinds]

    def is_cut(self, name):
        return name != self.zone and is_below(name, self.zone) and bool(self.at(name, 2))

    def cuts(self, name):
        return [name[place:] for place in range(len(name) + 1) if self.is_cut(name[place:])]

    def targets(self, name, *kinds):
        """The names in the zone to which the records of these types lead."""
        parts = [parts_of(kind, data) for _, kind, data, _ in self.at(name, *kinds)]
        return [led for row in parts
                if is_below(led := next(part for part in row if isinstance(part, tuple)), self.zone)]

    def is_lost(self, name, server):
        is_served = not self.cuts(server) or self.is_cut(name) and is_below(server, name)
        return not self.at(server, 1, 28) and is_served

    def codes(self, name):
        """The numbers of the Z codes of the faults of a name."""
        zone, kinds = self.zone, [record[1] for record in self.at(name)]
        sets = set(kinds)
        failed = {
            1: name == zone and 6 not in sets,
            2: name == zone and kinds.count(6) > 1,
            3: name != zone and 6 in sets,
            4: name == zone and 2 not in sets,
            5: bool(kinds) and not is_below(name, zone),
            6: 5 in sets and len(sets) > 1,
            7: kinds.count(5) > 1,
            8: any(len({record[3] for record in self.at(name, kind)}) > 1 for kind in sets),
            9: any(self.at(led, 5) for led in self.targets(name, 2)),
            10: any(self.is_lost(name, led) for led in self.targets(name, 2)),
            11: any(self.at(led, 5) for led in self.targets(name, 15, 33)),
            12: self.is_cut(name) and bool(sets - {1, 2, 28})
            or any(cut != name for cut in self.cuts(name)) and bool(sets - {1, 28}),
            13: name[:1] == (b"*",) and 2 in sets,
            14: any(kinds.count(kind) > 64 for kind in sets),
            15: len(sets) > 32,
        }
        return [code for code, fails in failed.items() if fails]


def checks(zone, records):
    """Yields each fault of a zone, as an owner and the number of its Z code. The owners are in canonical order."""
    whole = Zone(zone, records)
    for name in sorted({zone, *whole.owned}, key=lambda name: name[::-1]):
        yield from ((name, code) for code in whole.codes(name))


# ---- the report

def spelled(name, end="."):
    def octet(number):
        if number in b'"$().;@\\':
            return "\\" + chr(number)
        return chr(number) if 33 <= number <= 126 else f"\\{number:03}"

    return ".".join("".join(map(octet, label)) for label in name) + end if name else "."


def position(text, at):
    line_begin = text.rfind(b"\n", 0, at) + 1
    return f"{text.count(10, 0, at) + 1}:{at - line_begin + 1}"


def report(text, zone):
    found, records = faults_of(text, zone)
    lines = []
    for (begin, end), code, number, _ in found[:MOST_LISTED]:
        dotted = "" if number is None else f".{number}"
        lines.append(f"{position(text, begin)}-{position(text, end)} R{code:02}{dotted}\n")
    lines += ["more\n"] * (len(found) > MOST_LISTED)
    kept = [(owner, code) for owner, code in checks(zone, records) if not found or code not in REMOVABLE]
    lines += [f"{spelled(owner)} Z{code:02}\n" for owner, code in kept]
    return "".join(lines)


if __name__ == "__main__":
    sys.stdout.write(report(Path(sys.argv[2]).read_bytes(), name_of((sys.argv[1].encode(), False), ())))
