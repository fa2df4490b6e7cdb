"""Says what to do about a faulty entry of a zone file, for each fault that zonefaults places, R01 to R15."""
import difflib
import itertools
import re
import tomllib
import unicodedata
from pathlib import Path

from master import (BEGIN, FORMS, KINDS, NAMED, NUMBERS, OTHERS, PIECE, Entry, Reader, address, digits, escaped, name, octets,
                    unquoted)

with open(Path(__file__).with_suffix(".toml"), "rb") as tables:
    TEXTS = tomllib.load(tables)
TAKES, OWNERS, ZONE, TABLES = TEXTS["takes"], TEXTS["owners"], TEXTS["zone"], TEXTS["tables"]
LARGEST = {"H": 65535, "L": 4294967295, "T": 2147483647}
# The types that a misspelled type may mean.
COMMON = [*KINDS, *"CAA TLSA SSHFP NAPTR HTTPS SVCB URI LOC RP CERT DS CDS DNSKEY CDNSKEY SMIMEA".split()]
# Octets that are not UTF-8 are \udc80 to \udcff here.
STRAY = [(re.sub("[\uf780-\uf7ff]", lambda c: chr(ord(c[0]) - 0xf700 + 0xdc00), characters), *others)
         for characters, *others in TABLES["stray"]]
NOT_ASCII = re.compile(f"[^\\0-\x7f{''.join(characters for characters, _, _ in STRAY)}]")
TIME = "a plain number of seconds up to 2147483647"


class Remedy(Entry):
    """The remedy for a fault of the entry that `reader` has just read. `spot` is its place and code, as in faults.py.

    `says` is the message, and `until` the last line of the entry. If the remedy is sure, `new` replaces the octets from `cut[0]` up
    to `cut[1]` of the line of the spot; else `new` is None. A method returns the message, or the message and `new`.
    """

    def __init__(self, zone, reader, spot):
        super().__init__(zone.lines, reader.begun)
        self.zone, self.reader, self.spot = zone, reader, spot
        self.line, self.until = zone.lines[min(spot.line, len(zone.lines) - 1)], self.end - 1
        self.cut = [spot.column - 1, spot.end_column - 1]
        self.word = self.line[slice(*self.cut)]
        # An entry that is not closed takes in the next lines. Their faults are not its own.
        found = self.r04() if self.is_open else getattr(self, spot.code.lower(), self.rule)()
        self.says, self.new = (found, None) if isinstance(found, str) else found

    @property
    def mending(self):
        """What to change so that the entry hides no fault of a later one: a line, the columns of what is replaced, and a text."""
        if self.is_open:
            before = "".join(self.pieces[:self.places[-1] + 1] if self.tokens else ["("]).rpartition("\n")[2]
            return self.last, len(before), len(before), ")"
        if self.spot.code == "R12":
            return self.spot.line, self.cut[0], self.cut[0], "3600 "
        if self.spot.code == "R07":
            return self.spot.line, *self.cut, as_name(self.word, self.reader.origin)[1] or f"name{self.begin}"
        is_ttl = self.spot.code == "R06" and self.tokens[0].upper() == "$TTL" and self.word != self.tokens[0]
        return (self.spot.line, *self.cut, self.new or "3600") if is_ttl else None

    @property
    def is_open(self):
        """Whether a parenthesis of the entry is not closed, so that zonefaults takes the next entries for a part of it."""
        return not self.closed and (self.spot.line >= self.end or self.spot.code == "R04" and self.word != "(")

    def rule(self):
        for code, pattern, says, *new in TABLES["rules"]:
            found = re.compile(pattern, re.I).match(self.line, self.cut[0]) if code == self.spot.code else None
            if found:
                self.cut = found.span()
                return says.format(*map(str.upper, found.groups())), new[0] if new else None
        return None

    def misplaced(self, token, place):
        """The message for a token that is an address or an owner, but is in the place of a TTL or a type."""
        rtype, text = address(token) or ("", "")
        if text:
            return f"no type before {token}: write {rtype} {text}"
        owner = self.blank and token == self.tokens[0] and re.match(BEGIN, " ".join(self.tokens))
        return owner and f"{token} is in the place of the {place}: an owner begins in the first column"

    def r01(self):
        text, notes = self.zone.text, []
        form = next((says for begin, says in FORMS.items() if text.startswith(begin)), None)
        if form or "\r" in text.rstrip("\r\n") and "\n" not in text.rstrip("\n"):
            return form or "the lines of the file end with CR alone: write LF for each, as `tr '\\r' '\\n'` does"
        new = self.clean(notes)
        says = "; ".join(dict.fromkeys(notes)) or "an octet that is not allowed: only printable ASCII, spaces and tabs are allowed"
        self.cut = [0, len(self.line)]
        return says, new if notes and "not ASCII" not in says else None

    def clean(self, notes):
        """The line with all octets that are not allowed replaced or taken out. Adds the messages to `notes`."""
        line, is_text, written = self.line, False, ""
        end = "\r" * (line.endswith("\r") and self.spot.line + 1 < len(self.zone.lines))
        text = whole = line.removesuffix(end).encode("latin-1").decode("utf-8", "surrogateescape")

        def pieces(text):
            return itertools.takewhile(lambda piece: piece[0] != ";", PIECE.findall(text))

        def note(match, says):
            place = len(whole[:match.start() if match else 0].encode("utf-8", "surrogateescape"))
            notes.append(f"the octet {ord(line[place]):02X} at place {place + 1} of {self.zone.where([self.spot.line])} is {says}")
        for characters, instead, says in STRAY:
            if found := re.search(f"[{characters}]", "".join(pieces(whole))):
                note(found, says)
                text = re.sub(f"[{characters}]", instead, text)
        for piece in pieces(text):
            is_text = is_text or piece.upper() in ("TXT", "HINFO")
            if not piece.isascii() and (is_text or piece[0] == '"'):
                piece = escaped(piece.encode("utf-8", "surrogateescape").decode("latin-1"), "\t -~")
                do = "\\DDD for each such octet, here " + "".join(re.findall(r"\\[12]\d\d", piece))[:80]
                note(NOT_ASCII.search(whole), f"not ASCII: write {do}")
            elif not piece.isascii():
                piece = re.sub("[\udc80-\udcff]", lambda c: chr(ord(c[0]) - 0xdc00), piece).lower()
                labels = unicodedata.normalize("NFC", piece).split(".")
                piece = ".".join(one if one.isascii() else "xn--" + one.encode("punycode").decode() for one in labels)
                note(NOT_ASCII.search(whole), f"not ASCII: write the name as DNS has it, {piece}")
            written += piece
        comment = text[len("".join(pieces(text))):].encode("utf-8", "surrogateescape").decode("latin-1")
        return written + comment + end

    def r03(self):
        says, lines, (at, _) = "a quotation mark is not closed on its line", self.zone.lines, self.cut
        if self.line[:at].endswith('\\"'):
            return says + ', since \\" is a mark inside the string: write \\\\" for a backslash at its end'
        # If the closing mark is on a line before the next entry, the string goes on to that line.
        near = itertools.takewhile(lambda at: not re.match(BEGIN, lines[at]), range(self.end, min(self.end + 60, len(lines))))
        last = next((at for at in near if lines[at].replace('\\"', "").count('"') % 2), None)
        if self.closed and not self.depth and last:
            self.until = last
            return says + ": write a string on each line, and parentheses around all of them"
        new = None if self.depth and ")" in self.line[self.line.rfind('"'):] else '"'
        return says + ": close it; long texts are several strings in parentheses", new

    def r04(self):
        pieces, shut = self.pieces, next((piece for piece in self.pieces if piece[0] == ";" and ")" in piece), "")
        if not self.depth:
            return "a ) without a ( before it: take it out, or write the ( that is missing"
        if pieces.count("(") == pieces.count(")"):
            return "a parenthesis inside another: take the inner ones out"
        if shut:
            return f"a parenthesis is not closed, since the ) in the comment {shut[:60]} is none: write it before the ;"
        return f"a parenthesis is not closed: write ) at the end of {self.zone.where([self.last])}"

    def r05(self):
        first = self.tokens[0]
        if first.upper() in ("$INCLUDE", "$GENERATE"):
            return f"{first} is not known here: `zoneimport` writes its records, and `zonelint --bind` reads it"
        near, says = difflib.get_close_matches(first[:20].upper(), ["$ORIGIN", "$TTL"], 1), f"{first} is not known: "
        says += "the only directives here are $ORIGIN and $TTL"
        owner = f"an owner that begins with $ is written \\{first}" if self.rtype in KINDS and self.data else says
        return f"{says}: write {near[0]}" if near else owner

    def r06(self):
        first, fields = self.tokens[0], [token.strip('"') for token in self.tokens[1:]]
        if first.upper() == "$ORIGIN":
            good = next((field for field in fields if name(field, self.reader.origin) and re.search(r"\w", field)), "")
            return "$ORIGIN takes one name" + f": write $ORIGIN {good}" * bool(good)
        # A number is not taken if a word beside it may be its unit, as in `1 hour`.
        value = None if any(field[:1].isalpha() for field in fields) else as_number(next(filter(digits, fields), ""), "T")[1]
        do = f"{' '.join(fields)} is written {value} here" if value else f"write {first} 3600, for example"
        return f"$TTL takes one{TIME[1:]}: {do}", value if len(fields) == 1 else None

    def r07(self):
        first, (_, good) = self.tokens[0], as_name(self.tokens[0], self.reader.origin)
        return f"{first} is not a name, since it has {OWNERS[str(self.spot.number)]}: write {good or 'another'}"

    def r09(self):
        instead, (_, value) = self.reader.default or "3600", as_number(self.word, "T")
        if value:
            return f"the TTL is {TIME}: {self.word} is written {value} here", value
        return self.misplaced(self.word, "TTL") or f"the TTL is {TIME}: {self.word} is not; write {instead}, for example"

    def r12(self):
        records = itertools.islice(Reader(self.zone.zone).records(self.zone.lines), 1000)
        near = [record.ttl for record in records if record.ttl and record.ttl.isdecimal() and int(record.ttl) < 2**31]
        return f"no TTL: put $TTL {[*near, '3600'][0]} on the first line"

    def r11(self):
        typed, bare, comment = self.word, self.rtype.strip('":,.'), re.match(r"#|//|--|/\*", self.tokens[0])
        if comment:
            return f"a comment begins with ; here, and not with {comment[0]}"
        if found := self.rule() or (self.blank or not self.data) and self.misplaced(typed, "type"):
            return found
        if self.rtype in OTHERS:
            (data, why), number = self.generic(), NUMBERS[self.rtype]
            do = why or f"write {number} {data[:60]}{'..' * bool(data[60:])}, as `zoneimport` does"
            return f"{typed.upper()} is not known by name: {do}"
        near = [bare] if bare in NUMBERS else difflib.get_close_matches(bare[:20], COMMON, 1) if bare[2:] else []
        if near or typed:
            return f"{typed} is not a type: " + (
                f"write {near[0]}" if near else f"the known types are {', '.join(KINDS)}; write others as TYPEn")
        return f"no type after {self.tokens[-1]}"

    # The numbers of these faults are in docs/CODES.md: R13.1 is the number of fields, R13.2 to R13.5 are about one field.
    def r13(self):
        rtype, hexes, number = NAMED.get(self.rtype, self.rtype), "".join(self.data[2:]), self.spot.number
        if self.data[:1] == ["\\#"]:
            says, is_hex = "\\# takes a length and hex digits for that number of octets", re.fullmatch(r"([0-9a-fA-F]{2})*", hexes)
            do = f": write \\# {len(hexes) // 2} {hexes}".rstrip()[:70] if is_hex else ""
            return says + (f"; these are not valid for {rtype}" if number == 7 else do)
        if number == 6:
            data, _ = self.generic()
            return f"{rtype} takes \\#, a length and hex digits" + (f": write {data}" if data else "")
        takes, text = f"{rtype} takes {TAKES[rtype]}", " ".join([rtype, *self.data])
        for pattern, says in TABLES["fields"]:
            if found := re.fullmatch(pattern, text):
                return f"{takes}; {says.format(*found.groups())}"
        if number == 1:
            return "; ".join([takes, *self.counted(rtype, KINDS[rtype])])
        kinds = {2: "L" if rtype == "SOA" else "H", 3: "4" if rtype == "A" else "6", 4: "n", 5: "s"}
        says, new = FIELD[kinds[number]](self.word, kinds[number] if number < 4 else self.reader.origin)
        numbers = [token for kind, token in zip(KINDS[rtype], self.data) if kind in "HL"] if number == 2 else []
        others = [as_number(token, kinds[2])[0] for token in numbers if token != self.word]
        return "; ".join(dict.fromkeys([takes, says, *filter(None, others)])), new if number == 2 and "is written" in says else None

    def generic(self):
        from generic import generic  # It imports dnspython, which takes long.
        return generic(self, self.rtype, self.reader.origin)

    def counted(self, rtype, kinds):
        """The messages for data with too few or too many fields."""
        data, front, count = self.data[:], [], len(self.data)
        while len(data) > len(kinds) and kinds[0] != "s" and (
                data[0].upper() == "IN" or digits(data[0]) and digits(data[kinds.count("H")])):
            front.append(data.pop(0))
        if front:
            yield f"TTL and class come before the type: write {' '.join(front)} {rtype}"
        lines, fields = self.zone.lines[self.end:self.end + 8], f"{count} field{'s' * (count != 1)}, and not {len(kinds)}"
        # The next lines belong to an SOA record if they are exactly the numbers that it lacks.
        more = itertools.accumulate([piece for piece in PIECE.findall(line) if piece[0] not in " \t\r;()"] for line in lines)
        lost = [at for at, one in enumerate(more, self.end) if len(data) + len(one) == 7 and all(map(digits, one))]
        if rtype == "SOA" and count < 6 and lost:
            self.until = lost[0]
            yield f"its lines are not joined: write ( at the end of {self.zone.where([self.begin])}, and ) after the last number"
        elif len(data) > len(kinds) and kinds != "s":
            hosts = all(as_name(token, self.reader.origin)[1] == token for token in data[len(kinds) - 1::len(kinds)])
            several = rtype in ("NS", "PTR", "MX", "SRV") and count % len(kinds) == 0 and hosts
            yield f"{fields}: " + (
                "a record has one address: write a record for each" if all(map(address, data)) else
                "a record has one host: write a record for each" if several else
                f"a comment begins with ;, write it before {data[len(kinds)]}")
        elif len(data) < len(kinds):
            yield fields


# Each of these functions takes a token and what its field may be, and returns what is wrong with the token, or None, and the right
# token, or None if it is unknown.

def as_number(token, kind):
    bare, most = token.strip('"'), LARGEST[kind]
    value = digits(bare)
    if not value:
        return f"{token} is not a plain number", None
    if int(value) > most:
        short = bare[:10] if re.match(r"(?:19|20)\d{9}", bare) and int(bare[:10]) <= most else None
        return f"{token} is greater than {most}" + (f": write {short}" if short else ""), short
    why = "has units" if not bare.isdigit() else "has a leading zero" if bare == token else "has quotation marks"
    return None if value == token else f"{token} {why}: it is written {value} here", value


def as_name(token, origin):
    bare = token if token == "." else re.sub(r"\.\.+", ".", unquoted(token).strip('"')).lstrip(".")
    if not bare or not name(bare, origin):
        return f"{token} is not a name, which has labels of 1 to 63 octets", None
    return None if bare == token else f"{token} is not a name: write {bare}", bare


def as_address(token, kind):
    bare, numeric = token.strip('"'), re.match(r"\d+\.\d+\.", token)
    # Letters that look like digits.
    rtype, text = address(bare.translate(str.maketrans("lIoO", "1100")) if numeric else bare) or ("", None)
    if not text and re.search(r"[g-zG-Z]", bare) and name(bare, ".") and ":" not in bare and not numeric:
        return f"{token} is a name: write CNAME {bare} for an alias", None
    if kind == "4" and (mapped := re.fullmatch(r"::ffff:([\d.]+)", bare, re.I)) and address(mapped[1]):
        rtype, text = address(mapped[1])
    if text and rtype != ("A" if kind == "4" else "AAAA"):
        return f"{token} is an address of the type {rtype}: write {rtype} {text}", None
    return f"{token} is not one" + (f": write {text}" if text else ""), text


def as_string(token, _):
    return f"a string has {len(octets(token))} octets, but at most 255 are allowed: write several, in parentheses", None


FIELD = {"n": as_name, "s": as_string, "4": as_address, "6": as_address, "H": as_number, "L": as_number}
