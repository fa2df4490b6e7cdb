"""Warnings about a zone: likely mistakes that may be intended. docs/CODES.md has each with its RFC and what to do."""
import difflib
import functools
import ipaddress
import re

from faults import Fault
from master import Names, above, address, dns_name, octets, twice, unique, within

HOST = re.compile(r"(?:\*\.)?(?:[a-z0-9](?:[a-z0-9-]*[a-z0-9])?\.)+|(?:.*\.)?gc\._msdcs\..*")
FOUR = re.compile(r"\d+\.\d+\.\d+\.\d+\.")
# Names of the usual form of hosts. None of them can have a warning about its form.
USUAL = re.compile(r"(?!\d+\.\d+\.\d+\.\d+\.)(?:[a-z0-9](?:[a-z0-9-]*[a-z0-9])?\.)+")
# Names below in-addr.arpa and ip6.arpa, except those whose labels have other signs, as for delegations; and names of
# addresses.
REVERSE = re.compile(r"(?:\w\.)*ip6\.arpa\.|(?:\d+\.)*in-addr\.arpa\.")
ADDRESS = re.compile(r"(?:[0-9a-f]\.){32}ip6\.arpa\.|(?:0*(?:25[0-5]|2[0-4]\d|1?\d?\d)\.){4}in-addr\.arpa\.")
# An instance of a service (RFC 6763 4.1) may have a label before it.
SERVICE = re.compile(r"(?:(?:[^.\\]|\\.)+\.)?_[^.]+\._[^.]+\.")
# For each beginning of a text: a pattern of the names where such a text has a meaning, an example, and what it has to contain.
TEXTS = {"v=DMARC1": (r"_dmarc\.|.*\._report\._dmarc\.", "_dmarc", "p="),
         "v=DKIM1": (r"(?!_).+\._domainkey\.", "NAME._domainkey", "p="),
         "v=STSv1": (r"_mta-sts\.", "_mta-sts", "id="), "v=TLSRPTv1": (r"_smtp\._tls\.", "_smtp._tls", "rua="),
         "v=BIMI1": (r".+\._bimi\.", "NAME._bimi", "l="), "v=spf1": ("", "", "")}
POLICY = (".", "*.", "rpz-passthru.", "rpz-drop.", "rpz-tcp-only.")  # targets that mean actions in response policy zones
LOWER = {kind.lower(): kind for kind in TEXTS}
# The terms of an SPF text (RFC 7208 12), and the tags of a DMARC policy whose values are checked (RFC 7489 6.3).
DOMAIN = r"(?=[^ ]*[a-z%])[^ /,;:\"']+"
SPF = (rf"(?i)[-+?~]?(?:all|include:{DOMAIN}|(?:a|mx)(?::{DOMAIN})?(?:/\d+)?(?://\d+)?|ptr(?::{DOMAIN})?|"
       rf"exists:{DOMAIN}|ip4:[\d./]+|ip6:[\da-f:./]+)|[a-z][\w.-]*={DOMAIN}")
URIS = r"(?:\s*mailto:[^\s,!@]+@[^\s,!]+(?:![0-9]+[kmgt]?)?\s*(?:,|$))+"
DMARC = {"p": "none|quarantine|reject", "sp": "none|quarantine|reject", "pct": r"\d\d?|100", "adkim": "[rs]", "aspf": "[rs]",
         "rua": URIS, "ruf": URIS}
BASE64 = re.compile("(?:[A-Za-z0-9+/]{4})*(?:[A-Za-z0-9+/]{2}==|[A-Za-z0-9+/]{3}=)?")
UNUSABLE = [ipaddress.ip_network(net) for net in ("0.0.0.0/8", "127.0.0.0/8", "169.254.0.0/16", "224.0.0.0/3", "::/127",
                                                  "::ffff:0:0/96", "fe80::/10", "ff00::/8")]


def spf_faults(text):
    """What is wrong with the terms of an SPF text."""
    terms = [term for term in text.split(" ")[1:] if term]
    names = [term.lstrip("+-?~").lower() for term in terms]
    for term, name in zip(terms, names):
        try:
            sound = re.fullmatch(SPF, term) and (name[:4] not in ("ip4:", "ip6:")
                                             or ipaddress.ip_network(name[4:], False).version == int(name[2]))
        except ValueError:
            sound = False
        if not sound:
            yield f"{term} is not a term of SPF, so the whole text is void"
    if "all" in names and not all(name.startswith("exp=") for name in names[names.index("all") + 1:]):
        yield "what stands after all is never used"
    if "all" in names and "redirect=" in text.lower():
        yield "redirect= is never used beside all"
    if any(term.lower() in ("+all", "all") for term in terms):
        yield "+all lets everybody send mail in this name"
    count = sum(bool(re.match(r"include:|a\b|mx\b|ptr\b|exists:|redirect=", name)) for name in names)
    if count > 10:
        yield f"{count} terms need look-ups, but more than 10 make the text void"


@functools.lru_cache(1 << 12)
def meant(*strings):
    """The key of TEXTS with which a text begins, in any case, or None; the text; and what is wrong with it at any name."""
    parts = [octets(part) for part in strings]
    whole, kind = "".join(parts), LOWER.get(re.split("[ ;]", parts[0], 1)[0].lower())
    tags = dict(tag.strip().split("=", 1) for tag in whole.split(";") if "=" in tag) if kind == "v=DMARC1" else {}
    bad = [tag for tag, value in tags.items() if not re.fullmatch(DMARC.get(tag.strip().lower(), ".*"), value.strip(), re.I)]
    hidden = re.match(r"[\s\"']+(v=(?:spf1|DMARC1|DKIM1)\b)", parts[0], re.I)
    joined = any(a and b and a[-1] != " " != b[0] and len(a) < 250 for a, b in zip(parts, parts[1:]))
    return kind, whole, [row for row in (
        *(("W56", True, says) for says in (spf_faults(whole) if kind == "v=spf1" else ())),
        ("W57", bad, f"{bad[:1] and bad[0]}={bad and tags[bad[0]]} is not valid in a DMARC policy"),
        ("W54", hidden, f"the text begins with {whole[:1]!r} and not with {hidden and hidden[1]}, so it means nothing"),
        ("W54", not kind and re.match(r"(?i)(v=spf\d*|spf1)(?![\w.])", parts[0]), "an SPF text begins with v=spf1 and a space"),
        ("W52", kind == "v=spf1" and joined,
         "the strings of the SPF text are joined without a space: write one string, or end each with a space"),
        ("W55", re.match("\u00e2\u0080[\u0098-\u009f]", whole), "the text begins with a curly quotation mark")) if row[1]]


def caa_fault(data):
    """What is wrong with the octets of a CAA record (RFC 8659 4)."""
    tag, value = data[2:2 + data[1]].decode("latin-1").lower(), data[2 + data[1]:].decode("latin-1")
    if tag == "iodef" and not re.match(r"mailto:.+@.+|https?://.+", value, re.I):
        return f"iodef takes a URL such as mailto:security@example.com, and not {value}"
    if tag in ("issue", "issuewild") and not re.match(r"\s*(?:(?:[a-z0-9-]+\.)+[a-z0-9-]+\s*)?(?:;|$)", value, re.I):
        return f"{tag} takes the domain name of an authority, or ; for none, and not {value}"
    known = ("issue", "issuewild", "iodef", "issuemail", "issuevmc", "contactemail", "contactphone")
    return None if tag in known else f"the tag {tag} is not known: no authority reads it"


def digest_fault(data):
    """What is wrong with the octets of a TLSA or SMIMEA record (RFC 6698 2.1)."""
    if data[0] > 3 or data[1] > 1 or data[2] > 2:
        return f"usage {data[0]}, selector {data[1]} and matching type {data[2]} are not all known"
    size = {1: 32, 2: 64}.get(data[2])
    return f"such a digest has {size} octets, and not {len(data) - 3}" if size and len(data) != size + 3 else None


# For each type that has no name in the canonical text: what looks at its octets, and the code of the warning.
RAW = {"TYPE257": (caa_fault, "W58"), "TYPE52": (digest_fault, "W59"), "TYPE53": (digest_fault, "W59")}
POINTERS = ("TYPE35", "TYPE64", "TYPE65")  # NAPTR, SVCB and HTTPS, which have a name in their octets
PROTOCOLS = ("_tcp", "_udp", "_tls", "_sctp", "_dccp")
# The beginnings of the texts of addresses in UNUSABLE: a quick test, since a zone may have 100,000 addresses.
MAY_BE = re.compile(r"0\.|127\.|169\.254\.|22[4-9]\.|2[345]\d\.|::|f[ef]", re.I)


class Warnings(Names):
    """Looks at the records of a zone. A row is a record, a code, whether the warning applies, and its sentence."""

    def __init__(self, zone):
        super().__init__(zone, zone.records if zone.passes else unique(zone.records))
        self.arpa = self.zone.endswith("arpa.")
        self.doubled = tuple(end + self.zone for end in (".com.", ".org.", ".arpa.", self.zone))
        last = self.zone.split(".")[-2:-1]
        self.again = f".{self.zone}{last[0]}." if last and last[0] else "\0"
        self.dotless = (self.again, "." + self.zone + self.zone) if self.zone != "." else "\0"
        # A catalog zone (RFC 9432) has a TTL of 0 on purpose.
        self.catalog = bool(self.at("version." + self.zone, "TXT"))
        # In a response policy zone owners are names and addresses of others on purpose.
        self.policy = ".rpz-" in "\n".join(self.sets) or any(
            record.data[:1] and record.data[0] in POLICY for record in self.records if record.rtype == "CNAME")
        self.dnames = {owner for owner, rtype, _ in zone.passed if rtype == "DNAME"}
        self.glue = {record.data[0] for record in self.records if record.rtype == "NS"}

    def alias(self, full):
        """As in Names, but a name that does not exist has the alias of the wildcard that covers it."""
        source = self.covering(full) if within(full, self.zone) else None
        return self.at(source, "CNAME") if source == full or not self.cut(full) else []

    def look(self):
        """All rows that apply."""
        hosts, targets = dict.fromkeys(("A", "AAAA"), self.address), ("NS", "CNAME", "PTR", "MX", "SRV")
        looks = {"SOA": self.soa, "TXT": self.text, **hosts, **dict.fromkeys(targets, self.target),
                 **dict.fromkeys(RAW, self.raw), **dict.fromkeys(POINTERS, self.pointer), "TYPE99": self.obsolete}
        for full, sets in self.sets.items():
            if not within(full, self.zone):
                continue
            if not USUAL.fullmatch(full) or full.endswith(self.doubled) or "SRV" in sets or self.arpa or self.cut(full):
                yield from (row for row in self.owner(full, sets) if row[2])
            for rtype, records in sets.items():
                look = looks.get(rtype)
                for record in records:
                    if record.ttl == "0" and not self.catalog:
                        yield record, "W06", True, "the TTL is 0: each question reaches the server"
                    if look and (rtype[:4] == "TYPE" or record.data[:1] != ["\\#"]):
                        yield from ((record, *row) for row in look(record) if row[1])
        yield from (row for row in self.servers() if row[2])

    def servers(self):
        servers = self.at(self.zone, "NS") if "NS" not in self.of.doubtful.get(self.zone, ()) else []
        hosts = [{host.data[0] for host in self.at(server.data[0], "A", "AAAA")} for server in servers]
        for server in servers[:1]:
            same = len(hosts) > 1 and 0 < len(hosts[0]) <= 2 and all(host == hosts[0] for host in hosts)
            yield server, "W01", len(hosts) == 1 and not self.is_local(server), "the zone has only one server"
            yield server, "W05", same, f"all servers have the same address: {' and '.join(sorted(hosts[0]))}"

    def is_local(self, record):
        """Whether this is the server of a zone that a resolver has for itself, as of private addresses (RFC 6303)."""
        return record.data[0] == "localhost." and (self.arpa or self.zone == "localhost.")

    def raw(self, record):
        data, (fault_of, code) = bytes.fromhex("".join(record.data[2:])), RAW[record.rtype]
        says = fault_of(data) if len(data) > 2 else None
        yield code, says, says

    def pointer(self, record):
        data, place = bytes.fromhex("".join(record.data[2:])), 2
        try:
            if record.rtype == "TYPE35":  # Two numbers and three strings are before the name (RFC 3403 4.1).
                place = functools.reduce(lambda place, _: place + 1 + data[place], range(3), 4)
            full = dns_name().from_wire(data, place)[0].canonicalize().to_text()
        except Exception:  # The octets need not be of that form.
            return []
        return self.strange(record, full, within(full, self.zone)) if full != "." else []

    def obsolete(self, record):
        is_text = any(meant(*one.data)[0] == "v=spf1" for one in self.at(record.owner, "TXT"))
        yield "W54", not is_text, "no receiver reads records of the type SPF (RFC 7208 3.1): write TXT"

    def owner(self, full, sets):
        first, srv, pointer, host = (next(iter(found or ()), None) for found in (
            next(iter(sets.values())), sets.get("SRV"), sets.get("PTR"), sets.get("A") or sets.get("AAAA")))
        sign, star, cut = "\\@" in full, "*" in full.removeprefix("*."), self.cut(full)
        doubled = twice(full, self.zone) or full.endswith(self.doubled[:3])
        # In a DNSBL (RFC 5782) owners are addresses on purpose, and the data is a code in the form of an address, 127.0.0.2.
        four = FOUR.match(full) and not (doubled or full.endswith(".arpa.") or host and host.data[0].startswith("127."))
        odd = not (HOST.fullmatch(full) or sign or star or re.match(r"(?:a\.|mx\.)?_spf(?:_rate|_verify)?\.", full))
        over = next((label for label in full.split(".")[1:3] if label[:1] == "_"), "_tcp")
        near = difflib.get_close_matches(over, PROTOCOLS[:2], 1) if srv and over not in PROTOCOLS else []
        return [
            (first, "W34", sign and not srv, "@ inside a name; it means the origin only if it is the whole name"),
            (first, "W35", star, "a * that is not the whole first label matches nothing"),
            (first, "W31", doubled and not self.policy, f"the owner is {full}: is a final dot missing?"),
            (first, "W32", four and not self.policy, f"the owner is an address: {full}"),
            (pointer, "W37", pointer and self.arpa and not cut and REVERSE.fullmatch(full) and not ADDRESS.fullmatch(full),
             f"{full} stands for no address"),
            (srv, "W36", srv and not SERVICE.match(full), "the owner of SRV is not of the form _service._protocol"),
            (srv, "W36", near, f"the protocol {over} is not known: write {''.join(near)}"),
            (host, "W33", host and odd, f"{full} has an address, and an octet that host names do not have"),
            (host, "W47", host and cut and full not in self.glue,
             f"an address at or below the delegation of {cut}, at a name that no NS record names: it is never served")]

    @functools.cached_property
    def codes(self):
        """Whether most addresses of the zone are codes such as 127.0.0.2, as in a DNSBL."""
        hosts = [host.data[0] for host in self.records if host.rtype == "A" and host.data]
        return sum(host.startswith("127.") for host in hosts) * 2 > len(hosts)

    def address(self, record):
        host, full = record.data[0] if record.data else "", record.owner
        if not MAY_BE.match(host) or self.arpa or self.policy or "localhost" in full or not (found := address(host)):
            return ()
        net = next((net for net in UNUSABLE if ipaddress.ip_address(found[1]) in net), None)
        is_code = self.codes and host.startswith("127.0.0.")
        return [("W48", net and not is_code, f"nobody can reach {host} from elsewhere: it is in {net}")]

    def target(self, record):
        rtype, full, inside = record.rtype, record.data[-1], within(record.data[-1], self.zone)
        types = self.sets.get(full, ())
        yield "W38", rtype == "SRV" and full != "." and record.data[2] == "0", "the port is 0, at which no service listens"
        host = ("A" in types or "AAAA" in types) and "CNAME" not in types and not self.cut(full)
        if (host if inside else full.count(".") > 1) and USUAL.fullmatch(full) and not full.endswith(self.dotless):
            return  # a host with an address, or one elsewhere, as most targets are
        if rtype == "CNAME":
            end, chain = self.aliased(full, [record.owner], 20)  # 20 bounds the work here; the server follows at most 16.
            back = f"the alias leads back to {end}" if full != record.owner else "an alias to itself"
            yield "W44", end in chain, back
            yield "W45", end not in chain and chain[1:], f"the target {full} is an alias too: write {end}"
        null = full == "." and len(self.at(record.owner, rtype)) > 1
        yield "W46", null and rtype == "MX", "a null MX, which says that the name takes no mail, beside other MX records"
        yield "W46", null and rtype == "SRV", "the target . says that there is no such service, beside other SRV records"
        yield "W48", full == "localhost." and rtype != "PTR" and not self.is_local(record), \
            "localhost. is the own host of each client"
        # A server in the zone without an address is a fault (Z10), so there is no warning.
        if full != "." and (rtype != "NS" or not inside or self.cut(full) or self.at(full, "A", "AAAA")):
            yield from self.strange(record, full, inside)

    def strange(self, record, full, inside):
        """The first warning about a target that is no usual one."""
        rtype, cut, source, own = record.rtype, self.cut(full), self.covering(full), full[:-len(self.zone)] if inside else full
        do = f"; write {own} if it is in another zone" if own.count(".") > 1 else ""
        four = FOUR.fullmatch(full) or inside and FOUR.match(full) and not self.arpa or ":" in own and address(own)
        host = rtype in ("NS", "MX", "SRV") or rtype == "PTR" and self.arpa
        server = rtype == "NS" and not self.at(full) and not (record.owner in self.cuts and within(full, record.owner))
        known = inside and not self.of.partial and full not in self.of.doubtful and self.dnames.isdisjoint(above(full))
        types = self.sets.get(source, {})
        return [row for row in (
            ("W32", four, f"the target is an address: {full}; write the name of a host"),
            ("W41", re.search("[/:]", full) and rtype != "PTR" and not full.endswith(".arpa."),
             f"the target is a URL or has a port: {full}; write the name of the host"),
            ("W31", twice(full, self.zone), f"the target is {full}: is a final dot missing?"),
            ("W31", full.endswith(self.again), f"the target {full} ends like the zone, and then again with {self.zone.split('.')[-2]}"),
            ("W31", not inside and full.count(".") == 1 and self.zone != "." and self.at(full + self.zone),
             f"the target {full} is a top-level name: write {full[:-1]} without the final dot"),
            ("W34", "\\@" in full, f"@ inside the target {full}; it means the origin only if it is the whole name"),
            ("W33", host and not HOST.fullmatch(full), f"the host {full} has an octet that host names do not have"),
            ("W43", known and cut and server,
             f"the server {full} is in the zone of {cut}, and has no address here: add its address"),
            ("W42", known and not cut and full != source and not types, f"the target {full} does not exist{do}"),
            ("W43", known and not cut and (rtype in ("MX", "SRV") or "_" not in record.owner + full)
             and types.keys().isdisjoint(("A", "AAAA", "CNAME")), f"the target {full} has no address")) if row[1]][:1]

    def soa(self, record):
        (mname, rname), servers = record.data[:2], self.at(self.zone, "NS")
        refresh, retry, expire, minimum = map(int, record.data[3:])
        lost = servers and all(mname != server.data[0] for server in servers)
        # DNS has a dot for the @ of a mailbox, and a backslash before each dot of the part before it (RFC 1035 8).
        local, _, domain = rname.partition("\\@")
        return [] if record.owner != self.zone else [
            ("W02", lost, f"the first name, {mname}, is not one of the servers"),
            ("W03", domain, "the mailbox %s has @: write %s.%s" % (rname, local.replace(".", "\\."), domain)),
            *(("W31", twice(full, self.zone), f"the name {full}: is a final dot missing?") for full in (mname, rname)),
            ("W04", retry >= refresh, f"the retry time {retry} is not less than the refresh time {refresh}"),
            ("W04", expire < refresh + retry, f"the expire time {expire} is less than the refresh and retry times together"),
            ("W04", minimum > 86400, f"by the last number, {minimum}, resolvers may miss a new name for more than a day")]

    def text(self, record):
        kind, whole, rows = meant(*record.data)
        owner, spf, texts = record.owner, kind == "v=spf1", self.sets[record.owner]["TXT"]
        yield from rows
        several = kind and kind != "v=DKIM1" and len(texts) > 1 and sum(meant(*one.data)[0] == kind for one in texts) > 1
        yield "W56", spf and owner == self.zone and not re.search(r"(?i)\ball\b|redirect=", whole), \
            "the SPF text refuses nobody: end it with -all or ~all"
        yield "W51", several, f"more than one text of {kind} at a name: none of them applies"
        if "_" not in owner and (spf or not kind):
            return
        dkim, dmarc = re.match(TEXTS["v=DKIM1"][0], owner), owner.startswith("_dmarc.")
        names, example, needed = TEXTS.get(kind, ("", "", "p=" if dkim else ""))
        lost, elsewhere = needed not in whole.lower() and "._report._dmarc." not in owner, not re.match(names, owner)
        begun = spf or not kind or whole.startswith(kind) and whole[len(kind):].lstrip()[:1] in ("", ";")
        key = re.search(r"(?:^|;)\s*p=([^;]*)", whole) if dkim else None
        yield "W57", key and not BASE64.fullmatch(re.sub(r"\s", "", key[1])), "p= is not a key in base64"
        yield "W53", lost, f"the text lacks {needed}; is it cut off at a ; without quotation marks?"
        yield "W54", spf and (dmarc or "._domainkey." in owner), "an SPF text means nothing at this name"
        yield "W54", elsewhere, f"this text means nothing at this name: write it at {example}"
        yield "W54", not (begun or elsewhere), f"the text means nothing unless it begins with {kind} and a semicolon"
        yield "W54", not kind and dmarc, "the text is no DMARC policy: it begins with v=DMARC1 and a semicolon"


def warnings(zone):
    """The warnings about a checked zone, in the order of their lines."""
    found, lines = [*Warnings(zone).look()], {}
    for record in zone.model({row[0].owner for row in found}) if found else ():
        for key in ((record.owner, record.rtype), (record.owner, record.rtype, *record.data)):
            lines.setdefault(key, record.line)

    def line(record):
        key = record.owner, record.rtype, *record.data
        return lines.get(key, lines.get(key[:2], 0)) if record.line is None else record.line
    faults = {Fault(zone.place(line(record)), code, record.owner, says): None for record, code, _, says in found}
    aliases = {record.owner for record in zone.records if record.rtype == "CNAME"}
    for owner, rtype, at in zone.passed:
        if owner in aliases and rtype not in ("RRSIG", "NSEC"):  # These may be beside a CNAME (RFC 4034 3, 4).
            faults[Fault(zone.place(at), "Z06", owner, f"{rtype} at the name of a CNAME: keep one of them")] = None
        if (owner, rtype) == (zone.zone, "DS"):
            says = "a DS record at the origin: write it into the zone above"
            faults[Fault(zone.place(at), "Z12", owner, says)] = None
    end = zone.sources[zone.path].rpartition("\n")
    if end[2][:1] == "$":
        says = "BIND refuses a directive on a last line that has no line end"
        faults[Fault((zone.path, end[0].count("\n") + 1 + bool(end[1])), "W07", "", says)] = None
    return sorted(faults, key=lambda fault: (fault.place[1], fault.code))
