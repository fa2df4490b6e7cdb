"""Reads the entries of zone files for zonelint and zoneimport: names, tokens, owners, data and their lines.

This module checks nothing, because zonecheck does. It reads faulty entries too, and guesses where such an entry ends.
Texts have one character for each octet (latin-1).
"""
import collections
import functools
import ipaddress
import os
import re
import stat
import sys

PIECE = re.compile(r'[ \t\r]+|;.*|"(?:[^"\\]+|\\.)*(?:"|\\?)|[()]|(?:[^ \t\r;"()\\]+|\\.)+|\\', re.S)
SIMPLE = re.compile(r"(?:[!#%&'*+,\-/0-9:<=>?A-Z\[\]^_`a-z{|}~]{1,63}(?:\.|$))+")
CLASS = re.compile(r"(?:IN|CH|CS|HS)$|CLASS", re.I)

# The fields of each type that is known by name: a number of 16 (H) or 32 bits (L), an address (4, 6), a name (n), a string (s).
KINDS = {"A": "4", "NS": "n", "CNAME": "n", "SOA": "nnLLLLL", "PTR": "n", "HINFO": "ss", "MX": "Hn", "TXT": "s",
         "AAAA": "6", "SRV": "HHHn"}
# The types that BIND knows by name, and their numbers. zonecheck knows the OTHERS only by number (RFC 3597).
TYPES = ("A 1 NS 2 MD 3 MF 4 CNAME 5 SOA 6 MB 7 MG 8 MR 9 NULL 10 WKS 11 PTR 12 HINFO 13 MINFO 14 MX 15 TXT 16 RP 17 AFSDB "
         "18 X25 19 ISDN 20 RT 21 NSAP 22 NSAP-PTR 23 SIG 24 KEY 25 PX 26 GPOS 27 AAAA 28 LOC 29 NXT 30 EID 31 NIMLOC 32 "
         "SRV 33 ATMA 34 NAPTR 35 KX 36 CERT 37 A6 38 SINK 40 APL 42 SSHFP 44 IPSECKEY 45 DHCID 49 TLSA 52 SMIMEA 53 HIP 55 "
         "NINFO 56 RKEY 57 TALINK 58 CDS 59 CDNSKEY 60 OPENPGPKEY 61 CSYNC 62 ZONEMD 63 SVCB 64 HTTPS 65 DSYNC 66 SPF 99 "
         "UINFO 100 UID 101 GID 102 UNSPEC 103 NID 104 L32 105 L64 106 LP 107 EUI48 108 EUI64 109 URI 256 CAA 257 AVC 258 "
         "DOA 259 AMTRELAY 260 RESINFO 261 WALLET 262 TA 32768 DLV 32769").split()
NUMBERS = {rtype: "TYPE" + number for rtype, number in zip(TYPES[::2], TYPES[1::2])}
OTHERS = [rtype for rtype in NUMBERS if rtype not in KINDS]
NAMES = {number: rtype for rtype, number in NUMBERS.items()}
NAMED = {NUMBERS[rtype]: rtype for rtype in KINDS}
# The first octets of files that are not plain text, and the message for each.
BIND = "the file is in the {0} format of BIND: `named-compilezone -f {0} -F text -o NEW ORIGIN FILE` writes it as text"
UTF16 = "the file is UTF-16: `iconv -f UTF-16 -t UTF-8 FILE` writes it in octets"
FORMS = {"\0\0\0\2": BIND.format("raw"), "\0\0\0\3": BIND.format("map"), "\xff\xfe": UTF16, "\xfe\xff": UTF16}
# The beginning of a line that looks like an entry.
BEGIN = (r"(?i)\$[A-Z]+[ \t]|(?:[^ \t;\"()][^ \t;\"()]*)?[ \t]+(?:(?:\d[\dwdhms]*|IN)[ \t]+){0,2}(?:TYPE\d+|"
         + "|".join([*KINDS, *OTHERS, "DS"]) + r")[ \t(]")
# A line that is a whole entry of plain tokens and strings, as most are: its owner, TTL, type and data.
PLAIN = r"[!#%-'*-:<-?A-\[\]-~]+"
TOKEN = rf'(?:{PLAIN}|"[ !#-\[\]-~]*")'
QUICK = re.compile(rf"({PLAIN})?[ \t]+(?:(\d[\dwdhms]*)[ \t]+)?(?:IN[ \t]+)?(A|AAAA|NS|CNAME|MX|PTR|SRV|TXT)[ \t]+"
                   rf"({TOKEN}(?:[ \t]+{TOKEN}){{0,3}})[ \t\r]*(?:;.*)?")
LARGEST = 16777216  # the most octets of a file; one more is read, to see whether there are more
# The most lines of a file, octets of a line, pieces of an entry and of a file, so that they do not take too much memory and time.
LINES, LONGEST, LARGE_ENTRY, PIECES = 1000000, 1000000, 500000, 3000000
MOST_NODES = 1000000
UNITS = {"w": 604800, "d": 86400, "h": 3600, "m": 60, "s": 1, "": 1}
# `data` has the fields as in the canonical text; `line` is the entry's first line, counted from 0, and `last` its last token.
Record = collections.namedtuple("Record", "owner ttl rtype data line last", defaults=(None, ""))


@functools.lru_cache(1 << 12)
def digits(token):
    """The plain digits of a number, which may have units or leading zeros: 5400 for 1h30m. None if it is no number.

    As in BIND, the last number may lack its unit if all before it are 0."""
    if not re.fullmatch(r"(?ai)(?:0+[wdhms]){0,12}[0-9]{1,60}|(?:[0-9]{1,20}[wdhms]){1,12}", token):
        return None
    return str(sum(int(count) * UNITS[unit] for count, unit in re.findall(r"([0-9]+)([a-z]?)", token.lower())))


def groups(token):
    """An IPv6 address in the form of the canonical text, in hex digits alone. None if the token is not an IPv6 address."""
    try:
        found = ipaddress.IPv6Address("" if "%" in token else token)
    except ValueError:
        return None
    # Later versions of Python write the last two groups of such an address as an IPv4 address.
    low = int(found) & 0xffffffff
    return f"::ffff:{low >> 16:x}:{low & 0xffff:x}" if found.ipv4_mapped else str(found)


def address(token):
    """The type and the text of the address that a token is meant to be, or None if there is none."""
    bare = re.sub(r"/\d+$|%\w+$", "", token.strip('"').rstrip(",.;")).strip("[]")
    if found := re.fullmatch(r"((?:\d{1,9}\.){3}\d{1,9})(?::\d+)?", bare):
        parts = [int(part) for part in found[1].split(".")]
        return ("A", ".".join(map(str, parts))) if max(parts) < 256 else None
    return ("AAAA", groups(bare) if "." in bare else bare) if groups(bare) else None


def octets(token):
    """The octets of a token or string, without its quotation marks and escapes."""
    bare = token[1:].removesuffix('"') if token[:1] == '"' else token
    return re.sub(r"\\(\d{3}|.)", lambda c: chr(int(c[1]) & 255) if c[1].isdecimal() else c[1], bare, flags=re.S)


def unquoted(token):
    """A quoted string as a token without quotation marks. Other tokens stay as they are."""
    if not re.fullmatch(r'"(?:[^"\\]|\\.)+"', token, re.S):
        return token
    return re.sub(r"\\.|[ \t;()]", lambda c: c[0] if c[0][1:] else f"\\{ord(c[0]):03}", token[1:-1], flags=re.S)


def escaped(text, spared=" -~"):
    """A text with \\DDD for each octet that is not `spared`; by default, for each that is not printable."""
    sound = text.isascii() and text.isprintable()
    return text if sound else re.sub(f"[^{spared}]", lambda c: f"\\{ord(c[0]):03}", text)


def string(token):
    """A string in the form of the canonical text."""
    return '"' + escaped(re.sub(r'(["\\])', r"\\\1", octets(token))) + '"'


@functools.cache
def dns_name():
    """dns.name of dnspython, which takes long to import, and which few zones need."""
    try:
        import dns.name
    except ImportError:
        raise ModuleNotFoundError("python3-dnspython is needed, and is not installed") from None
    return dns.name


@functools.lru_cache(1 << 17)
def name(text, origin):
    """The absolute name that a token means below an origin, in the form of the canonical text. None if it is not a name."""
    if text == "@":
        return origin
    if SIMPLE.fullmatch(text) and len(text) + len(origin) < 254:
        return text.lower() if text[-1] == "." else f"{text.lower()}.{origin.lstrip('.')}"
    names = dns_name()
    try:
        # A name's text has at most 1,004 characters: a longer one stays invalid when it is cut.
        return names.from_text(text[:1021].encode("latin-1"), names.from_text(origin)).canonicalize().to_text()
    except Exception:  # dnspython raises many kinds of exceptions.
        return None


def parent(full):
    """The name above an absolute name that is not the root."""
    return (re.sub(r"(?:[^.\\]|\\.)*\.", "", full, 1) if "\\" in full else full.partition(".")[2]) or "."


def above(full):
    """Yields an absolute name, and the names above it up to the root."""
    while full != ".":
        yield full
        full = parent(full)
    yield "."


def within(full, zone):
    return full == zone or zone == "." or full.endswith("." + zone)


def twice(full, zone):
    """Whether a name ends with the zone's name twice, as a name does whose final dot is missing."""
    return zone != "." and within(full, zone + zone)


class Refused(Exception):
    """A file can't be read or checked, or an entry can't be converted. The text is the reason."""


def refuse(holds, why):
    if holds:
        raise Refused(why)


def read(path, shown=None):
    """The octets of a file, or of standard input (`-`), but at most one octet more than a file may have."""
    try:
        if not path.startswith("/dev/") and path != "-" and stat.S_ISFIFO(os.stat(path).st_mode) and sys.stderr.isatty():
            print(f"{path} is a pipe: waiting for what is written to it", file=sys.stderr)
        with open(0 if path == "-" else path, "rb", closefd=path != "-") as source:
            return source.read(LARGEST + 1).decode("latin-1")
    except (OSError, ValueError) as error:
        raise Refused(f"{shown or path}: {getattr(error, 'strerror', None) or error}") from None


def split(text, path):
    """The lines of a text."""
    lines = text.split("\n") if text.count("\n") < LINES else ()
    refuse(not lines, f"{path}: more than {LINES:,} lines: take comments and empty lines out")
    refuse(max(map(len, lines)) > LONGEST, f"{path}: a line has more than {LONGEST:,} octets, and can't be an entry")
    return lines


class Entry:
    """An entry: the lines from `begin` up to `end`, without `end`, and their `pieces`, with a line feed after each line.

    `tokens` are the pieces except blanks, parentheses and comments, and `places` are their places among all pieces.
    With `nested`, an entry may have parentheses inside parentheses, as in BIND. If the parentheses are not `closed`,
    the entry ends before the next line that looks like an entry. `at` is the place of the type among the tokens.
    """

    def __init__(self, lines, begin, nested=False):
        self.begin, self.blank = begin, lines[begin][:1] in (" ", "\t")
        self.closed = self.read(lines, len(lines), nested) <= 0
        if not self.closed:
            later = range(begin + 1, len(lines))
            self.read(lines, next((at for at in later if re.match(BEGIN, lines[at])), len(lines)), True)
        self.places = [at for at, piece in enumerate(self.pieces) if piece[0] not in " \t\r\n();"]
        self.tokens = tokens = [self.pieces[at] for at in self.places]
        at = int(bool(tokens) and not self.blank)
        self.owner, self.ttl, self.rrclass = tokens[0] if at else None, None, None
        for token in tokens[at:]:
            if self.ttl is None and "0" <= token[0] <= "9":
                self.ttl = token
            elif self.rrclass is None and CLASS.match(token):
                self.rrclass = token
            else:
                break
            at += 1
        self.at, self.rtype, self.data = at, "".join(tokens[at:at + 1]).upper(), tokens[at + 1:]

    def read(self, lines, most, nested):
        """Reads the pieces of the entry, all before line `most`, and returns how many parentheses are left open."""
        self.pieces, self.depth, self.end, depth = [], 0, self.begin, 0
        while self.end == self.begin or self.end < most and depth > 0 and (nested or depth < 2):
            found = PIECE.findall(lines[self.end])
            for piece in found if "(" in found or ")" in found else ():
                depth += (piece == "(") - (piece == ")")
                self.depth = max(self.depth, depth)
            self.pieces += [*found, "\n"]
            self.end += 1
            refuse(len(self.pieces) > LARGE_ENTRY, f"an entry has more than {LARGE_ENTRY:,} tokens, blanks and comments")
        return depth

    @property
    def last(self):
        """The line of the last token."""
        return self.begin + self.pieces[:self.places[-1] if self.tokens else 0].count("\n")

    def joined(self, first):
        """The tokens from `first` on as a text, with one blank for all other pieces between two tokens."""
        pieces = self.pieces[[*self.places, len(self.pieces)][first]:]
        text = "".join("\0" if piece[0] in " \t\r\n();" else escaped(piece, "\t -~") for piece in pieces)
        return re.sub("\0+", " ", text.strip("\0"))

    def lines(self):
        """The lines with the changed `tokens`, \\DDD for octets that are not allowed, and no inner parentheses."""
        pieces, depth = self.pieces[:], 0
        for number, (at, token) in enumerate(zip(self.places, self.tokens)):
            pieces[at] = token if 0 < number <= self.at else escaped(token, "\t -~")
            if not token and not pieces[at - 1].strip(" \t"):
                pieces[at - 1] = ""
        for at, piece in enumerate(self.pieces if self.depth > 1 else ()):
            depth += (piece == "(") - (piece == ")")
            if piece == "(" and depth > 1 or piece == ")" and depth > 0:
                pieces[at] = " "
        return "".join(pieces)[:-1].split("\n")


class Reader:
    """Reads the entries of a zone in order, and keeps what a later entry can inherit: `origin`, `owner` and TTLs.

    `at` is the next line, `begun` the line of the last entry, `default` the TTL of the last $TTL, and `stated` the last
    TTL that a record stated. `pieces` is how many pieces of entries were read that are not plain lines. `lost`, which
    faults.py sets: whether an owner was not a name, so that later entries may lack one. If `wanted` has owners, plain
    lines of others are left out.
    """

    def __init__(self, zone, wanted=()):
        self.origin, self.at, self.owner, self.default, self.stated, self.pieces = zone, 0, None, None, None, 0
        self.begun, self.lost, self.wanted = 0, False, wanted

    def entry(self, lines, at, nested=False):
        """The entry that begins at a line. Raises `Refused` if all entries together are too large."""
        entry = Entry(lines, at, nested)
        self.pieces += len(entry.pieces)
        refuse(self.pieces > PIECES, f"more than {PIECES:,} tokens, blanks and comments")
        return entry

    def records(self, lines, stop=sys.maxsize):
        """Yields the records of the entries that begin before line `stop`; if it is given, ends after one that is not closed."""
        while self.at < min(stop, len(lines)):
            if quick := QUICK.fullmatch(lines[self.at]):
                owner, ttl, rtype, data = quick.groups()
                self.begun, self.at = self.at, self.at + 1
                self.owner, self.stated = owner and name(owner, self.origin) or self.owner, ttl or self.stated
                if not self.wanted or self.owner in self.wanted:
                    tokens = re.findall(TOKEN, data)
                    ttl = ttl or self.default or self.stated
                    yield Record(self.owner, ttl, rtype, self.fields(rtype, tokens), self.begun, tokens[-1])
            elif lines[self.at][:1] in ("", ";"):
                self.at += 1
            else:
                entry = self.entry(lines, self.at)
                self.begun, self.at, record = self.at, entry.end, self.take(entry)
                if record:
                    yield record
                if not entry.closed and stop < sys.maxsize:
                    return

    def fields(self, rtype, tokens):
        """Data in the form of the canonical text. Fields that are faulty, or of other types, stay as they are."""
        kinds = KINDS.get(rtype, "")
        if not kinds or tokens[:1] == ["\\#"]:
            return tokens
        return [string(token) if kind == "s" else name(token, self.origin) or token if kind == "n" else
                kind == "6" and groups(token) or token
                for kind, token in zip(kinds * len(tokens) if kinds == "s" else kinds, tokens)]

    def take(self, entry):
        """The record of an entry, or None if the entry is not a record."""
        owner, directive, tokens = entry.owner or "", (entry.owner or "").upper(), entry.tokens
        if directive[:1] == "$":
            if directive == "$ORIGIN" and len(tokens) > 1:
                self.origin = name(tokens[1], self.origin) or self.origin
            elif directive == "$TTL" and len(tokens) > 1:
                self.default = tokens[1]
            return None
        self.owner = owner and name(unquoted(owner), self.origin) or self.owner
        self.stated = entry.ttl or self.stated
        ttl, rtype = entry.ttl or self.default or self.stated, NAMED.get(entry.rtype, entry.rtype)
        return Record(self.owner, ttl, rtype, self.fields(rtype, entry.data), entry.begin, tokens[-1]) if rtype else None


def unique(records):
    """The records without duplicates: of equal records the first is kept."""
    return list({(*record[:3], *record.data): record for record in reversed(records)}.values())[::-1]


class Names:
    """The records of a zone by owner and type, and its cuts. `of` is a `Zone` of faults.py, and `zone` the zone's name."""

    def __init__(self, zone, records):
        self.of, self.zone, self.records, self.sets = zone, zone.zone, records, collections.defaultdict(dict)
        for record in records:
            self.sets[record.owner].setdefault(record.rtype, []).append(record)
        self.cuts = {cut for cut, sets in self.sets.items() if "NS" in sets and within(cut, self.zone)} - {self.zone}

    def at(self, owner, *types):
        """The records of a name, only of `types` if any are given."""
        sets = self.sets.get(owner, {})
        return [record for rtype in sets if not types or rtype in types for record in sets[rtype]]

    def cut(self, full):
        """The highest cut that is equal to the name or above it, or None."""
        if not self.cuts or full == self.zone or not within(full, self.zone):
            return None
        return self.cut(parent(full)) or (full if full in self.cuts else None)

    @functools.cached_property
    def nodes(self):
        """The names that exist, in order: owners of records, and the names above them up to the root."""
        nodes, level = {}, self.sets
        while level:
            nodes.update(dict.fromkeys(level, True))
            refuse(len(nodes) > MOST_NODES, f"more than {MOST_NODES:,} names own records or are above such names")
            level = {above: True for full in level if full != "." and (above := parent(full)) not in nodes}
        return nodes

    def covering(self, full):
        """The name; or, if it does not exist, the wildcard that covers it."""
        if full in self.sets:
            return full
        closest = next(node for node in above(full) if node in self.nodes)
        return full if full == closest else "*." + closest.lstrip(".")

    def alias(self, full):
        return self.at(full, "CNAME")

    def aliased(self, full, before=(), most=None):
        """The name to which a chain of aliases leads, and the names passed on the way, `before` first.

        The chain ends at a name that is no alias or was passed already, or once `most` names were passed."""
        names = list(before)
        while full not in names and len(names) != most and (alias := self.alias(full)):
            names.append(full)
            full = alias[0].data[0]
        return full, names
