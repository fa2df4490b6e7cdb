"""Which zones to check: origins and files, as given, in lists, in folders, and in the settings of name servers."""
import os
import re

from master import Refused, dns_name, read, refuse

NAMED = r"(?:(?:db|pri|master|named)\.)?(.+?)(?:\.(?:zone|db|hosts|txt|signed|inc|dns|unsigned))*"
ZONE_FILE = r"(?:db|pri|master)\..+|.+\.(?:zone|db|hosts|dns)(?:\.signed)?"
ORIGIN = r"(?im)^\$ORIGIN[ \t]+(\S+\.)[ \t]*(?:;.*)?\r?$"
SOA = r"(?im)^(\S+\.)[ \t]+(?:\d\w*[ \t]+|IN[ \t]+){0,2}SOA[ \t]"
TOKEN = r"(?s)/\*.*?\*/|//[^\n]*|#[^\n]*|\"([^\"]*)\"|([{};]|[^\s{};\"]+)"
PAIR = r"(?m)^\s*(?:-\s+)?(zonesdir|storage|name|domain|zonefile|file)[ \t]*:[ \t]*\"?([^\"#\n]+?)\"?\s*(?:#.*)?$"


def origin_of(text):
    """An origin as the programs take it: a name that is not ASCII is put into the form of DNS (IDNA)."""
    if text.isascii() or any("\udc80" <= c <= "\udcff" for c in text):
        return text
    try:
        return dns_name().from_text(text).to_text()
    except Exception as error:  # dnspython raises many kinds of exceptions.
        raise Refused(f"{text} is no domain name: {error}") from None


def guessed(path, text):
    """The origin of a file: its first $ORIGIN, or the owner of its SOA, if that is absolute; else from the name of the file."""
    head = text[:65536]
    found = [match for pattern in (ORIGIN, SOA) if (match := re.search(pattern, head))]
    if found:
        return min(found, key=re.Match.start)[1]
    name = re.fullmatch(NAMED, os.path.basename(path))[1]
    if re.fullmatch(r"(?:\d{1,3}\.){1,3}\d{1,3}", name):
        return ".".join(reversed(name.split("."))) + ".in-addr.arpa"
    return name


def in_folder(folder):
    """The zone files below a folder, in order."""
    for room, folders, files in os.walk(folder):
        folders[:] = sorted(name for name in folders if name[0] != ".")
        yield from (os.path.join(room, name) for name in sorted(files) if re.fullmatch(ZONE_FILE, name))


def in_named(text, path):
    """The primary zones of a named.conf, each with its file."""
    tokens, folder = ["".join(found) for found in re.findall(TOKEN, text) if any(found)], os.path.dirname(path)
    if "directory" in tokens:
        folder = tokens[tokens.index("directory") + 1]
    for begin in [at + 2 for at, token in enumerate(tokens) if token == "zone"]:
        end, depth = begin, 0
        while end < len(tokens) and (depth or tokens[end] not in "};"):
            depth += (tokens[end] == "{") - (tokens[end] == "}")
            end += 1
        block = tokens[begin:end]
        if {"master", "primary"} & set(block) and "file" in block:
            yield tokens[begin - 1], os.path.join(folder, block[block.index("file") + 1])


def in_pairs(text, path):
    """The zones of an nsd.conf or a knot.conf, each with its file."""
    folder, origin = os.path.dirname(path), None
    for key, value in re.findall(PAIR, text):
        if key in ("zonesdir", "storage"):
            folder = value
        elif key in ("name", "domain"):
            origin = value
        elif origin:
            yield origin, os.path.join(folder, value.replace("%s", origin))


def in_settings(path):
    text = read(path)
    zones = [*(in_named if re.search(r"\bzone\s+\"?[^\s\"]+\"?[^{};]*\{", text) else in_pairs)(text, path)]
    refuse(not zones, f"{path} names no zone with a file")
    return zones


def in_list(path):
    for line in read(path).split("\n"):
        fields = line.strip(" \t\r").split(None, 1)
        if fields and fields[0][0] != "#":
            refuse(len(fields) == 1, f"{path}: a line needs an ORIGIN and a FILE: {line[:60]!r}")
            yield tuple(os.fsdecode(field.encode("latin-1")) for field in fields)


def zones_of(words, listed, settings):
    """The pairs of origins and files. An origin is None if it is to be taken from the file. If the first word is a file or a folder,
    all words are; else they are pairs of an ORIGIN and a FILE."""
    if words and words[0] not in (".", "-") and os.path.exists(words[0]):
        yield from ((None, path) for word in words for path in (in_folder(word) if os.path.isdir(word) else [word]))
    else:
        refuse(len(words) % 2, "give an ORIGIN and a FILE for each zone, or files and folders that exist")
        yield from zip(map(origin_of, words[::2]), words[1::2])
    yield from (zone for path in listed for zone in in_list(path))
    yield from (zone for path in settings for zone in in_settings(path))
