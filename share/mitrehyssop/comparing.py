"""Asks name servers the questions of questions.py, and compares each reply with the proved one."""
import asyncio
import collections
import socket
import subprocess
import sys
import tempfile

import dns.asyncquery
import dns.query
from dns.flags import AA, TC
from dns.rcode import FORMERR, NOERROR, NOTIMP, NXDOMAIN, REFUSED, SERVFAIL
from dns.rdatatype import CNAME, DNSKEY, HINFO, NS, NSEC, NSEC3, NSEC3PARAM, RRSIG, SOA
from master import Refused
from questions import KINDS, Question

SECONDS, TRIES = 2, 2       # how long a server may take to reply, and how often it is asked
FLYING, PATIENCE = 32, 20   # the most questions to a server at once, and the most in a row that it leaves without a reply
SIGNING = {RRSIG, NSEC, NSEC3, NSEC3PARAM, DNSKEY}
UNEVEN, HIGHER, LOWER = "TTLs that differ in one set", "higher TTLs", "lower TTLs: the server caps them, or has a cache"
WHY = {asyncio.TimeoutError: "silence", dns.query.UnexpectedSource: "a reply from another address or port",
       dns.query.BadResponse: "a reply with another ID or question", EOFError: "the connection ended",
       OSError: "no connection", Exception: "a reply that can't be read"}
Difference = collections.namedtuple("Difference", "kind rfc expected got")


def reference(zone, asked):
    """Each question with its proved reply, as octets, from one run of `zoneserve once --tcp`."""
    queries = "".join(dns.message.make_query(one.name, one.rtype, id=0, flags=0).to_wire().hex() + "\n" for one in asked)
    with tempfile.NamedTemporaryFile() as file:
        file.write(zone.text.encode("latin-1"))
        file.flush()
        words = ["zoneserve", "once", "--tcp", zone.origin, file.name]
        try:
            done = subprocess.run(words, input=queries.encode(), capture_output=True, check=True)
        except (OSError, subprocess.CalledProcessError) as error:
            raise Refused(f"zoneserve: {getattr(error, 'strerror', 0) or error.stderr.decode('latin-1').strip() or error}")
    return [*zip(asked, map(bytes.fromhex, done.stdout.decode().split()))]


class Server:
    """A server's address, how it is asked, what is `said` of it, and by kind and place the replies that differ."""

    def __init__(self, name, family, address, options):
        self.name = name if address[0] in name else f"{name} ({address[0]})"
        self.family, self.address, self.tcp, self.edns = family, address, options.tcp or options.exact, not options.no_edns
        self.pause, self.next, self.silent = 1 / options.rate if options.rate else 0, 0, 0
        self.said, self.serial, self.replies, self.differ, self.kinds = "", None, 0, 0, {}

    async def exchange(self, query, tcp, odd):
        """The reply. `odd` gets the exceptions for what arrives instead over UDP."""
        if tcp:
            return await dns.asyncquery.tcp(query, self.address[0], port=self.address[1], one_rr_per_rrset=True)
        async with await dns.asyncbackend.get_default_backend().make_socket(self.family, socket.SOCK_DGRAM) as sock:
            await dns.asyncquery.send_udp(sock, query, self.address)
            while True:
                try:
                    reply, *_ = await dns.asyncquery.receive_udp(
                        sock, self.address, one_rr_per_rrset=True, raise_on_truncation=True)
                    if query.is_response(reply):
                        return reply
                    odd.append(dns.query.BadResponse())
                except dns.message.Truncated:
                    raise
                except Exception as error:  # dnspython raises many kinds of exceptions.
                    odd.append(error)

    async def ask(self, name, rtype):
        """The reply, and whether it came over TCP, which is used if the reply over UDP is truncated."""
        query = dns.message.make_query(name, rtype, use_edns=0 if self.edns else False, payload=1232, flags=0)
        tcp, left, odd = self.tcp, TRIES, []
        while left:
            now = asyncio.get_running_loop().time()
            left, self.next = left - 1, max(now, self.next + self.pause)
            await asyncio.sleep(self.next - now)
            try:
                return await asyncio.wait_for(self.exchange(query, tcp, odd), SECONDS), tcp
            except dns.message.Truncated:
                tcp, left, odd = True, TRIES, []
            except Exception as error:
                odd = odd or [error]
        why = next(why for kind, why in WHY.items() if isinstance(odd[-1], kind))
        raise ConnectionError(f"no reply over {'TCP' if tcp else 'UDP'}: {why}")

    async def begin(self, origin, serial, any_soa):
        """Asks for the zone's serial, and returns whether to ask more. `serial` is the file's."""
        try:
            reply, tcp = await self.ask(origin, "SOA")
            if self.edns and reply.edns < 0 and reply.rcode() in (FORMERR, NOTIMP):
                self.edns = False
                reply, tcp = await self.ask(origin, "SOA")
        except ConnectionError as error:
            self.said = str(error)
            return False
        self.serial = next((rrset[0].serial for rrset in reply.answer if rrset.rdtype == SOA), None)
        kind, rule = ("lame: it does not serve the zone", "RFC 8906 3.1.1") if self.serial is None else (
            "an older zone" if (serial - self.serial) % 2**32 < 2**31 else "a newer zone", "RFC 1034 4.3.5")
        self.said = (header(reply) if self.serial is None else f"serial {self.serial}") + ", without EDNS" * (not self.edns)
        if self.serial is None or self.serial != serial and not any_soa:
            found = Difference(kind, rule, [f"serial {serial}"], [self.said])
            self.replies, self.differ, self.kinds = 1, 1, {kind: {0: (Question("records", origin, "SOA"), tcp, found)}}
        return not self.kinds

    async def work(self, left, judge):
        """Asks the questions that are `left`, each with its place and its proved reply."""
        while self.silent < PATIENCE and (one := next(left, None)):
            place, (question, want), tcp = *one, self.tcp
            try:
                got, tcp = await self.ask(question.name, question.rtype)
                found, self.silent = judge.differences(question, want, got), 0
            except Exception as error:  # One reply, or data that dnspython can't read, must not end the run.
                found, self.silent = [Difference(str(error), "RFC 8906 3.1", ["a reply"], [])], self.silent + 1
            self.replies, self.differ = self.replies + 1, self.differ + bool(found)
            for one in found:
                self.kinds.setdefault(one.kind, {})[place] = question, tcp, one
            if self.replies % 50 == 0 and sys.stdout.isatty() and sys.stderr.isatty():
                print(f"{self.replies} replies", end="\r", file=sys.stderr, flush=True)


def header(reply):
    return f"{dns.rcode.to_text(reply.rcode())}, flags {dns.flags.to_text(reply.flags)}, counts {[*map(len, reply.sections)]}"


class Judge:
    """Compares replies with the proved ones."""

    def __init__(self, names, options):
        self.names, self.origin = names, dns.name.from_text(names.zone)
        self.exact, self.left_out = options.exact, SIGNING | ({SOA} if options.any_soa else set())

    def owns(self, rrset):
        """Whether a record is in the zone, by itself or by the wildcard that covers its owner."""
        full = self.names.covering(rrset.name.canonicalize().to_text())
        rows = self.names.at(full, dns.rdatatype.to_text(rrset.rdtype), f"TYPE{rrset.rdtype:d}")
        return any(rrset[0] == dns.rdata.from_text("IN", rrset.rdtype, " ".join(row.data)) for row in rows)

    def differences(self, question, want, got):
        """Where a reply is not one that the RFCs allow; or, with --exact, where it is not the proved one."""
        want, rfc = dns.message.from_wire(want, one_rr_per_rrset=True), KINDS[question.kind]
        code, asked, kind, rule = got.rcode(), question.rtype, None, rfc
        # A chain of aliases that ends `away`, in another zone; or that is a loop or too long, so that the server is `free`.
        ends = asked not in ("CNAME", "ANY") and want.answer and want.answer[-1].rdtype == CNAME and not want.authority
        away = ends and not want.answer[-1][0].target.is_subdomain(self.origin)
        free = asked == "ANY" or ends and not away
        fits = code in (want.rcode(), *((NXDOMAIN,) if away else (NXDOMAIN, SERVFAIL, NOTIMP, REFUSED) if free else ()))
        if self.exact:
            kind = "another header" if header(got) != header(want) else None
        elif question.kind == "outside":
            kind = "AA for a name outside the zone" if got.flags & AA else None
        elif not fits:
            kind = f"{dns.rcode.to_text(code)} and not {dns.rcode.to_text(want.rcode())}"
        elif got.flags & TC > want.flags & TC:
            kind, rule = "TC over TCP", "RFC 2181 9"
        elif (got.flags ^ want.flags) & AA and code in (NOERROR, NXDOMAIN):
            kind, rule = "no AA" if want.flags & AA else "AA in a referral", "RFC 1035 4.1.1"
        found = [Difference(kind, rule, [header(want)], [header(got)])] if kind else []
        if self.exact or fits and code in (NOERROR, NXDOMAIN) and not (got.flags | want.flags) & TC:
            found += self.sections(rfc, want, got, away, free)
        return found

    def sections(self, rfc, want, got, away, free):
        """The differences of records, each known by its owner, type and data, without regard to case in names."""
        cut = next((rrset.name for rrset in want.authority if rrset.rdtype == NS), None)
        rules = rfc, "RFC 2308 3" if want.authority and not cut else "RFC 1034 4.3.2", "RFC 9471 3.1" if cut else rfc

        def allowed(place, rrset):
            """Whether a server may have a record that the proved reply lacks."""
            if not rrset.name.is_subdomain(self.origin):
                return away or place == 2
            apex = place == 1 and not cut and (rrset.name, rrset.rdtype) == (self.origin, NS)
            return free and rrset.rdtype == HINFO or (free or apex or place == 2) and self.owns(rrset)
        for place, (name, *parts) in enumerate(zip(("answer", "authority", "additional"), want.sections[1:], got.sections[1:])):
            wanted, given = ({(rrset.name.to_digestable(), rrset.rdtype, rrset[0].to_digestable()): rrset
                              for rrset in part if rrset.rdtype not in self.left_out} for part in parts)
            lacks = [str(one) for key, one in wanted.items() if key not in given and (
                self.exact or (not free, True, cut and one.name.is_subdomain(cut))[place])]
            more = [str(one) for key, one in given.items() if key not in wanted and (self.exact or not allowed(place, one))]
            if lacks or more:
                how = "has other" if lacks and more else "lacks" if lacks else "has more"
                yield Difference(f"the {name} section {how} records", rules[place], lacks, more)
            for key in [key for key in wanted if key in given and given[key].ttl != wanted[key].ttl]:
                uneven = any(other[:2] == key[:2] and given[other].ttl != given[key].ttl for other in given)
                yield Difference(UNEVEN if uneven else HIGHER if given[key].ttl > wanted[key].ttl else LOWER,
                                 "RFC 2181 5.2" if uneven else "RFC 1035 3.2.1", [str(wanted[key])], [str(given[key])])
