"""Makes the questions to which a zone has interesting replies: each kind of RFC 1034 4.3.2, at each name."""
import collections
import random

from master import KINDS as TYPES, Names, name, within

# The kinds of questions, each with the section of an RFC that says what the reply is.
KINDS = {"records": "RFC 1034 4.3.2", "alias": "RFC 1034 3.6.2", "no data": "RFC 2308 2.2", "empty name": "RFC 4592 2.2.2",
         "no such name": "RFC 2308 2.1", "wildcard": "RFC 4592 3.3", "referral": "RFC 1034 4.3.2", "capitals": "RFC 4343 3",
         "outside": "RFC 1035 4.1.1"}
LACKED = ("A", "AAAA", "MX", "TXT", "NS", "CNAME")  # no name owns all of these
OUTSIDE = ("zz-none.example.net.", "zz-none.example.org.")
Question = collections.namedtuple("Question", "kind name rtype")


def every(zone, all_types):
    """All questions about a zone, each with its kind; and its records by their names."""
    names, asked, more = Names(zone, zone.records), {}, ("SRV", *TYPES, "ANY") if all_types else ("SRV",)

    def ask(kind, full, *types):
        for rtype in types if len(full) < 240 or name(full, ".") else ():  # The name below a long one may be too long.
            asked.setdefault((full, rtype), kind)

    def missing(full):
        below = f"zz-none.{full.lstrip('.')}"
        return missing(below) if below in names.nodes else below
    for full in [full for full in names.nodes if within(full, names.zone)]:
        own = names.sets.get(full, {})
        kind = "referral" if names.cut(full) else "alias" if "CNAME" in own else None
        lacked = next(rtype for rtype in LACKED if rtype not in own)
        ask(kind or "records", full, *own)
        ask(kind or ("no data" if own else "empty name"), full, lacked, *more)
        if full.startswith("*."):
            covered = missing(full[2:] or ".")
            for below in (covered, missing(covered)):
                ask(kind or "wildcard", below, *own, lacked)
        if f"*.{full.lstrip('.')}" not in names.nodes:
            ask("referral" if kind == "referral" else "no such name", missing(full), "A", "TXT")
    ask("capitals", names.zone.upper(), "SOA")
    ask("outside", OUTSIDE[within(OUTSIDE[0], names.zone)], *["A"] * (names.zone != "."))
    return asked, names


def sample(asked, most, seed):
    """At most `most` of the questions, evenly over their kinds. Equal seeds choose equal questions."""
    kinds, chosen, chooser = collections.defaultdict(list), [], random.Random(seed)
    for (full, rtype), kind in asked.items():
        kinds[kind].append(Question(kind, full, rtype))
    for left, found in zip(range(len(kinds), 0, -1), sorted(kinds.values(), key=len)):
        places = chooser.sample(range(len(found)), min(len(found), (most - len(chosen)) // left))
        chosen += [found[place] for place in sorted(places)]
    return chosen
