"""Converts data of the types that zonecheck knows only by number, from BIND's form to that of RFC 3597.

dnspython reads most of these types. The types of ROWS are read here, since dnspython writes texts in UTF-8, or does not know the
type. A few other forms that only BIND reads are rewritten for dnspython.
"""
import base64
import re
import struct

import dns.name
from master import NAMES, NUMBERS, escaped, octets, refuse

# The fields of a type: a number of 8 (B) or 16 bits (H), a name (n), a string (s), one of letters and digits (a) or digits (d), a
# text without its length (t), one in quotation marks (q), and any number of strings (*). `|` is between two forms.
ROWS = {"MB": "n", "MG": "n", "MR": "n", "MINFO": "nn", "X25": "d", "ISDN": "s|ss", "NSAP-PTR": "n", "NAPTR": "HHsssn",
        "NINFO": "*", "TALINK": "nn", "SPF": "*", "AVC": "*", "RESINFO": "*", "WALLET": "*", "URI": "HHq", "CAA": "Bat"}
FORMS = {"B": r"\d+", "H": r"\d+", "a": r"[A-Za-z0-9]{1,255}", "d": r'"?\d{4,255}"?', "n": r'[^"].*', "q": '".*"'}
ESCAPES = re.compile(r"(?:[^\\]|\\(?:[01]\d\d|2[0-4]\d|25[0-5]|\D))*", re.S)
STRING = re.compile(r'"(?:[^"\\]|\\.)*"', re.S)
# For each type with data in base64: which tokens of its data these are. dnspython skips octets that are not base64.
BASE64 = {"CERT": slice(3, None), "IPSECKEY": slice(4, None), "DHCID": slice(None), "HIP": slice(2, 3),
          "KEY": slice(3, None), "CDNSKEY": slice(3, None), "OPENPGPKEY": slice(None)}
# The octets of a fingerprint by its type (RFC 4255 3.1.2, RFC 6594 4).
FINGERPRINTS = {1: 20, 2: 32}
GROUPS = re.compile(r"[0-9a-fA-F]{1,4}(?::[0-9a-fA-F]{1,4}){3}")
METRES = re.compile(r"-?\d*\.\d{3,}m?", re.I)
PARAMETER = re.compile(r'(?:[^ "\\]|\\.|"(?:[^"\\]|\\.)*")+', re.S)


def is_expression(text):
    """Whether BIND takes the octets as the expression of a NAPTR record (RFC 3402 3.2): empty, or an expression, what it is replaced
    with and flags, each after the same character."""
    if not text:
        return True
    parts = re.split(r"(?<!\\)" + re.escape(text[0]), text, flags=re.S)
    try:
        groups = re.compile(parts[1]).groups if len(parts) == 4 else -1
    except re.error:
        groups = -1
    return not (text[0] in "i\\" or text[0].isdigit() or "\0" in text or groups < 0 or parts[3] not in ("", "i")
                or any(int(number) > groups or number == "0" for number in re.findall(r"\\(\d)", parts[2])))


def field(kind, token, origin):
    """The octets of a field."""
    refuse(not re.fullmatch(FORMS.get(kind, ".*"), token, re.S) or not ESCAPES.fullmatch(token), f"{token} is not allowed there")
    if kind in "BH":
        return struct.pack(">" + kind, int(token))
    if kind == "n":
        return dns.name.from_text(escaped(token), dns.name.from_text(origin)).to_wire()
    text = octets(token).encode("latin-1")
    refuse(len(text) > 255 and kind not in "tq", f"a string has {len(text)} octets, but at most 255 are allowed")
    return text if kind in "tq" else bytes([len(text)]) + text


def service(text):
    """The data of SVCB and HTTPS with parameters that dnspython reads, and whether the priority is 0."""
    priority, *tokens = PARAMETER.findall(text)
    for at, token in enumerate(tokens[1:], 1):
        key, equals, value = token.partition("=")
        wanted = {"port": r'"?\d+"?', "dohpath": r'"?/.*\{\?dns\}.*', "ech": r'"?[A-Za-z0-9+/]*=*"?'}.get(key, ".*")
        refuse(key != key.lower() or not re.fullmatch(wanted, value, re.S), f"{token} is not allowed there")
        key = "key7" if key == "dohpath" else key
        value = value.replace("dohpath", "key7") if key == "mandatory" else value
        if equals and not value and (found := re.fullmatch(r"ech|no-default-alpn|key(?:[7-9]|[1-9]\d+)", key)):
            key, value = {"ech": "key5", "no-default-alpn": "key2"}.get(key, found[0]), '""'
        tokens[at] = key + equals + value
    alias = tokens[1:] and priority.strip("0") == ""
    return " ".join(["1" if alias else priority, *tokens]), alias


def by_dnspython(rtype, entry, origin):
    """The octets of the data of an entry. Raises NotImplementedError if this dnspython does not read the type."""
    import dns.rdata  # This import takes longer than all others together, and most zones don't need it.
    import dns.version
    # KEY has the form of DNSKEY (RFC 2535 3.1), and dnspython does not read it by its name.
    number = dns.rdatatype.from_text("DNSKEY" if rtype == "KEY" else NUMBERS.get(rtype, rtype))
    tokens, alias = entry.data[:], False
    if dns.rdata.get_rdata_class(1, number) is dns.rdata.GenericRdata:
        raise NotImplementedError(f"dnspython {dns.version.version} does not read {rtype}: "
                                  "write \\#, a length and hex digits, or use a later one")
    given = "".join(tokens[BASE64.get(rtype, slice(0, 0))])
    refuse(base64.b64encode(base64.b64decode(given)).decode() != given, f"{given[:60]} is not base64")
    if rtype in ("CERT", "CDNSKEY", "CDS"):
        tokens[:3] = [{"NSEC3DSA": "6", "NSEC3RSASHA1": "7"}.get(token.upper(), token.upper()) for token in tokens[:3]]
    elif rtype in ("NID", "L64"):
        refuse(not GROUPS.fullmatch(tokens[-1]), f"{tokens[-1]} is not four groups of hexadecimal digits")
        tokens[1:] = [":".join(group.zfill(4) for group in token.split(":")) for token in tokens[1:]]
    elif rtype == "LOC":
        begin = next((at for at, token in enumerate(tokens) if token.upper() in ("E", "W")), len(tokens))
        finer = next((token for token in tokens[begin:] if METRES.fullmatch(token)), None)
        refuse(finer, f"{finer} is finer than a centimetre")
    elif rtype == "NSAP":
        tokens = [re.sub("^0X", "0x", token) for token in tokens]
    text = " ".join(escaped(token, "\t -~") for token in tokens)
    if rtype in ("SVCB", "HTTPS"):
        text, alias = service(entry.joined(entry.at + 1))
    data = dns.rdata.from_text(1, number, text, dns.name.from_text(origin), False).to_generic().data
    return b"\0\0" + data[2:] if alias else data


def generic(entry, rtype, origin):
    """The data of an entry in the form of RFC 3597, and None; or None and why it can't be converted."""
    rtype = NAMES.get(rtype, rtype)
    try:
        refuse(any(token[0] == '"' and not STRING.fullmatch(token) for token in entry.data), "a quotation mark is not closed")
        forms = ROWS.get(rtype, "").replace("*", "s" * max(len(entry.data), 1)).split("|")
        kinds = next((form for form in forms if len(form) == len(entry.data)), forms[0])
        refuse(rtype in ROWS and len(kinds) != len(entry.data), f"{len(entry.data)} fields, and not {len(kinds)}")
        data = b"".join(field(kind, token, origin) for kind, token in zip(kinds, entry.data)) if rtype in ROWS else \
            by_dnspython(rtype, entry, origin)
        if rtype == "NAPTR":
            refuse(not is_expression(octets(entry.data[4])), f"{entry.data[4]} is not an expression that BIND reads")
        refuse(rtype == "NSAP" and not data, "the address is empty")
        size = FINGERPRINTS.get(data[1]) if rtype == "SSHFP" and len(data) > 2 else None
        refuse(size and len(data) != size + 2, f"such a fingerprint has {size} octets, and not {len(data) - 2}")
    except NotImplementedError as error:
        return None, str(error)
    except Exception as error:  # dnspython raises many kinds of exceptions.
        return None, f"the data is invalid for {rtype}: {error or type(error).__name__}"
    return f"\\# {len(data)} {data.hex()}".strip(), None
