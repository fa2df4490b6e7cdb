"""How faults, warnings and notes are written: as text, and in the formats of editors and CI systems."""
import collections
import functools
import json
import os
import re
import urllib.parse
from pathlib import Path

from master import escaped

SHARE = Path(__file__).resolve().parent
COLOURS = {"error": "31", "warning": "33", "note": "36"}


def plain(text):
    """A text that is safe for a terminal: \\DDD replaces octets that are not printable."""
    return text if text.isprintable() else escaped(os.fsencode(text).decode("latin-1").expandtabs())


def text_of(file):
    """The name of a file as a text: \\DDD for each octet that is not UTF-8."""
    return re.sub("[\udc80-\udcff]", lambda c: f"\\{ord(c[0]) - 0xdc00:03}", file)


class Report(collections.namedtuple("Report", "file line column end_line end_column severity code name message text")):
    """A fault, a warning or a note as it is reported. As a string it has the form FILE:LINE:COLUMN: .., which editors recognize, or
    FILE:LINE: .. if it has no column; then come the line, and marks below what is at fault."""

    def said(self):
        return f"{self.name}: {self.message}" if self.name else self.message

    def __str__(self):
        column, marks = f"{self.column}:" if self.column else "", ""
        if self.column and self.column < 300 and "\\" not in self.text[:self.column]:
            marks = f"    {' ' * (self.column - 1)}{'^' * max(self.end_column - self.column, 1)}\n"
        return f"{plain(self.file)}:{self.line}:{column} {self.code}: {self.said()}\n    {self.text}\n{marks}"

    def coloured(self):
        front, code, rest = str(self).partition(f" {self.code}: ")
        return f"{front} \x1b[{COLOURS[self.severity]}m{self.code}\x1b[0m: {rest}"


@functools.cache
def page():
    """The path of CODES.md where it is installed, or in the source; or None."""
    return next((place for place in (SHARE / "CODES.md", SHARE.parents[1] / "docs" / "CODES.md") if place.exists()), None)


@functools.cache
def explained():
    """What CODES.md says of each code: the cells of its row in a table, each after its heading."""
    rows, heads = {}, []
    for line in page().read_text(encoding="utf-8").splitlines() if page() else ():
        cells = [cell.strip().replace("\\|", "|") for cell in re.split(r"(?<!\\)\|", line)[1:-1]]
        heads = cells if cells[:1] == ["Code"] else heads
        if cells and (found := re.fullmatch(r"`([A-Z]\d\d)`", cells[0])):
            rows[found[1]] = dict(zip(heads[1:], cells[1:]))
    return rows


def fingerprints(found):
    """For each report a number that stays the same if lines are added before it: it has no lines, but counts equal reports."""
    import hashlib
    count, made = collections.Counter(), []
    for one in found:
        key = one.file, one.code, one.name, re.sub(r"lines? \d+", "line", one.message), one.text
        count[key] += 1
        made.append(hashlib.sha256(repr((key, count[key])).encode()).hexdigest())
    return made


def dump(value):
    return json.dumps(value, indent=1) + "\n"


# The escapes that GitHub needs in a file name. In a message only % has to be escaped, since no message has a CR or LF.
GITHUB = {ord(c): f"%{ord(c):02X}" for c in "%\r\n:,"}
XML = str.maketrans({"&": "&amp;", "<": "&lt;", ">": "&gt;", '"': "&quot;"})
GITLAB = {"error": "major", "warning": "minor", "note": "info"}


def span(one, *keys):
    """The place of a report under these keys: the lines and columns where it begins and ends, or only its line."""
    values = (one.line, one.column, one.end_line, one.end_column)
    return dict(zip(keys, values if one.column else values[:1]))


def positions(one):
    """The place of a report for GitLab."""
    return {"lines": {"begin": one.line}} if not one.column else {
        "lines": {"begin": one.line, "end": one.end_line},
        "positions": {"begin": {"line": one.line, "column": one.column}, "end": {"line": one.end_line, "column": one.end_column}}}


def sarif(found, version):
    codes, rules = sorted({one.code for one in found}), []
    link = {"helpUri": page().as_uri()} if page() else {}  # No page is published, so this links to the installed one.
    for code in codes:
        short, *others = explained().get(code, {}).values() or [code]
        rules.append({"id": code, "shortDescription": {"text": short}, "help": {"text": "\n".join([short, *others])}, **link})
    results = [{
        "ruleId": one.code, "ruleIndex": codes.index(one.code), "level": one.severity, "message": {"text": one.said()},
        "partialFingerprints": {"zonelint/v1": print_of},
        "locations": [{"physicalLocation": {"artifactLocation": {"uri": urllib.parse.quote(os.fsencode(one.file))},
                                            "region": span(one, "startLine", "startColumn", "endLine", "endColumn")}}]}
        for one, print_of in zip(found, fingerprints(found))]
    driver = {"name": "zonelint", "version": version, "rules": rules}
    return dump({"version": "2.1.0", "$schema": "https://json.schemastore.org/sarif-2.1.0.json",
                 "runs": [{"tool": {"driver": driver}, "results": results}]})


# For each format, the function that makes its text from a list of reports and the program's version.
FORMATS = {
    "text": lambda found, _: "".join(map(str, found)),
    "json": lambda found, _: dump([{**one._asdict(), "file": text_of(one.file)} for one in found]),
    "github": lambda found, _: "".join(
        f"::{one.severity.replace('note', 'notice')} file={plain(one.file.translate(GITHUB))},"
        + "".join(f"{key}={value}," for key, value in span(one, "line", "col", "endLine", "endColumn").items()) + f"title={one.code}::"
        + one.said().replace("%", "%25") + "\n" for one in found),
    "gitlab": lambda found, _: dump([
        {"description": f"{one.code}: {one.said()}", "check_name": one.code, "fingerprint": print_of,
         "severity": GITLAB[one.severity], "location": {"path": text_of(one.file), **positions(one)}}
        for one, print_of in zip(found, fingerprints(found))]),
    "sarif": sarif,
    "checkstyle": lambda found, _: '<?xml version="1.0" encoding="UTF-8"?>\n<checkstyle version="4.3">\n' + "".join(
        f'<file name="{plain(one.file).translate(XML)}"><error '
        + "".join(f'{key}="{value}" ' for key, value in span(one, "line", "column").items())
        + f'severity="{one.severity.replace("note", "info")}" source="zonelint.{one.code}" '
        f'message="{f"{one.code}: {one.said()}".translate(XML)}"/></file>\n' for one in found) + "</checkstyle>\n",
}
