"""Shows or writes the remedies of a zone file that are sure."""
import contextlib
import difflib
import os
import re
import shutil
import tempfile
from pathlib import Path

from master import refuse
from reports import plain


def fixed(zone, path, text, found):
    """The lines of a file with the remedies that are sure: those of `fixes`, and missing final dots."""
    lines = text.split("\n")
    for file, line, begin, end, new in sorted(zone.fixes, reverse=True):
        if file == path:
            lines[line - 1] = lines[line - 1][:begin] + new + lines[line - 1][end:]
    doubled = re.compile(rf"(?:is|name) (\S+)\.{re.escape(zone.zone)}: is a final dot missing")
    for one in found:
        if one.file == path and (name := doubled.search(one.message)):
            typed = rf"(?i)(?<!\S){re.escape(name[1])}(?=[\s;)]|$)"
            lines[one.line - 1] = re.sub(typed, lambda match: match[0] + ".", lines[one.line - 1], 1)
    return lines


def show(path, text, lines):
    for line in difflib.unified_diff(text.split("\n"), lines, path, path, lineterm=""):
        print(plain(line) if line.isprintable() else line.encode("latin-1").decode("utf-8", "backslashreplace"))


def write(path, text, lines):
    """Replaces the file that `path` leads to in one step, if its text changes."""
    if (new := "\n".join(lines)) == text:
        return
    target = os.path.realpath(path)
    refuse(not os.path.isfile(target), f"{path} is not a file that can be written")
    with tempfile.TemporaryDirectory(dir=os.path.dirname(target), prefix=".zonelint.") as folder:
        written = Path(folder, "zone")
        written.write_bytes(new.encode("latin-1"))
        with contextlib.suppress(PermissionError):
            shutil.chown(written, os.stat(target).st_uid, os.stat(target).st_gid)
        shutil.copymode(target, written)
        written.replace(target)
