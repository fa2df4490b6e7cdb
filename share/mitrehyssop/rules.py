"""Which codes are reported, and as what: by default, in a file zonelint.toml, by options, and by comments in a zone file."""
import collections
import functools
import json
import os
import re
from pathlib import Path

from master import Refused, refuse

# Warnings that are errors: what they report is certainly wrong.
ERRORS = ("W31", "W44", "W46", "W51", "W55")
KEYS = ("select", "ignore", "error")
CODE = re.compile(r"[A-Z]\d{0,2}")
COMMENT = re.compile(r";\s*zonelint:\s*(ignore|ignore-file)\s+([A-Z][\w ,]*)")
LEVELS = {"W": "warning", "N": "note"}


def codes_of(text, where):
    """The codes in a list, separated by commas or blanks. The beginning of codes, such as W, means all of them."""
    codes = re.split(r"[\s,]+", text.strip(" ,")) if isinstance(text, str) else text
    sound = isinstance(codes, list) and all(isinstance(code, str) and CODE.fullmatch(code) for code in codes)
    refuse(not sound, f"{where}: {text!r} is not a list of codes")
    return tuple(codes)


@functools.cache
def settings_in(folder):
    """The settings of zonelint.toml in a folder, or in the nearest one above it that has such a file; and the file."""
    path = Path(folder, "zonelint.toml")
    if path.is_file():
        import tomllib  # Few zones have such a file.
        try:
            return tomllib.loads(path.read_text(encoding="utf-8")), path
        except (OSError, ValueError) as error:
            raise Refused(f"{path}: {error}") from None
    above = os.path.dirname(folder)
    return settings_in(above) if above != folder else ({}, path)


def severities(options, zone, path):
    """The function that says how a code is reported for a zone file: None if it is not."""
    settings, file = settings_in(os.path.dirname(os.path.realpath(path))) if path != "-" else ({}, "")
    own = settings.get("zones", {}).get(zone.strip("."), {}) if isinstance(settings.get("zones", {}), dict) else None
    refuse(not isinstance(own, dict) or set(settings) - {*KEYS, "zones"} or set(own) - {*KEYS},
           f"{file}: it has select, ignore, error, and tables zones.\"NAME\" with these")
    select, ignore, error = (codes_of(settings.get(key, []), file) + codes_of(own.get(key, []), file)
                             + sum((codes_of(text, f"--{key}") for text in getattr(options, key)), ()) for key in KEYS)

    def severity(code):
        if code.startswith(ignore) or select and not code.startswith((*select, "R")):
            return None
        return "error" if code.startswith((*error, *ERRORS)) else LEVELS.get(code[0], "error")
    return severity


def without_ignored(found, sources):
    """The reports that no comment in their file ignores: `ignore` on their line, or `ignore-file` anywhere."""
    ignored = collections.defaultdict(list)
    for file, text in sources.items():
        for number, line in enumerate(text.split("\n"), 1) if "zonelint:" in text else ():
            for kind, codes in COMMENT.findall(line):
                ignored[file, number if kind == "ignore" else None] += CODE.findall(codes)
    return [one for one in found if not one.code.startswith((*ignored[one.file, None], *ignored[one.file, one.line]))]


def baseline_of(path):
    """The fingerprints in a baseline file."""
    try:
        return set(json.loads(Path(path).read_text(encoding="ascii")))
    except (OSError, ValueError, TypeError) as error:
        raise Refused(f"{path}: {error}") from None
