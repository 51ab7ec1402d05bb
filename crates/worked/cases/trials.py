"""What comes of shops in files where calls of the files are refused, each in turn.

A trial is a deed during which calls of a file are refused, the deeds before and behind it, and all that may come of it: what the deed
tells, and what those behind it tell. Each outcome is named, `in` where the deed was carried out and `out` where it wasn't; the first one is
that without a refused call. Nothing of that comes from the program. How often each came depends on how many calls the kit's store makes of
a file, so these numbers alone (`COUNTS`) are read from a run, and change with the kit.
"""

from forms import *
from files import NEW, TILL, deed_text, failed, imported, requests, row, told, token
from keys import keyed
from orders import ONE, move, new_order, one, order_row, position_row
from versions import NEWEST, OLDER, asked_again, migrated, old_file
from waiting import entry_row, join, joined, sent_row, work, worked

trials = []


def trial(name, before, first, then, outcomes, kind="stops", new=True):
    """An outcome has a name, what the first deed tells, and what each deed behind it tells. Those before it begin over a new shop, or no file."""
    assert all(len(it) == 2 + len(then) for it in outcomes)
    trials.append((kind, name, [*NEW, *before] if new else before, first, then, outcomes))


# Stops.

T60, T120, T180 = "2026-05-01T10:01:00Z", "2026-05-01T10:02:00Z", "2026-05-01T10:03:00Z"
UNANSWERED = detail(503, "Service unavailable.")
NOT_OPENED, NOT_READ = "not opened\n", failed("63")
the_order = keyed("/orders/", ONE, "k")


def ordered_at(tick, moment, end):
    """The order of one position that was made at that tick."""
    return order_row([position_row(1, tick)], made=moment, expires=end)


ordered = {
    3: ordered_at(3, T, "2026-05-15T10:00:00Z"),
    4: ordered_at(4, T60, "2026-05-15T10:01:00Z"),
    5: ordered_at(5, T60, "2026-05-15T10:01:00Z"),
    7: ordered_at(7, T120, "2026-05-15T10:02:00Z"),
}


def ended(*answers):
    return "ended\n" + "".join(answers)


def told_order(tick):
    return answer(201, ordered[tick])


def listed_order(*ticks):
    return listed("/orders/", len(ticks), [ordered[it] for it in ticks])


def repeated(tick):
    """The order that the repeat is told, and the third delivery, and that is listed, alone."""
    return ended(told_order(tick)), ended(told_order(tick), listed_order(tick), availability(1, 0, pending=1))


trial("order_under_a_key", [requests(setup(1))],
      requests([(T, the_order, "")], [T, T]),
      [requests([(T60, the_order, "")], [T, T, T]),
       requests([(T120, the_order, ""), (T180, get("/orders/"), ""), (T180, ask, "")], [T, T, T, T60])],
      [("in, answered", ended(told_order(3)), *repeated(3)),
       ("in, 503", ended(UNANSWERED), *repeated(3)),
       ("out, 503", ended(UNANSWERED), *repeated(4)),
       ("out, not read", NOT_READ, *repeated(4)),
       ("out, not opened", NOT_OPENED, *repeated(4))])

waiters = [
    (T, new_order(ONE), answer(201, order_row([position_row(1, 3)]))),
    (T, join("a", 0), joined(1, "a")),
    (T, join("b", 5), joined(2, "b", 5)),
    (T, join("c", 5), joined(3, "c", 5)),
    (T, move("mark_canceled"), one("c")),
    (T, hold, sold_out(1)),
]
reads = [get("/vouchers/"), get("/waitinglistentries/"), ask]


def queue_of(tick=None):
    """What is read where b was sent a voucher at that tick, or nobody was."""
    sent = [sent_row(1, tick)] if tick else []
    entries = [entry_row(1, "a"), entry_row(2, "b", 5, voucher=1 if tick else "null"), entry_row(3, "c", 5)]
    usage = availability(1, 0, blocking=1, waiting=2) if tick else availability(1, 0, waiting=3)
    return ended(listed("/vouchers/", len(sent), sent), listed("/waitinglistentries/", 3, entries), usage)


found_sent = [queue_of(9), ended(worked()), queue_of(9)]
found_unsent = [queue_of(), ended(worked(sent=1)), queue_of(13)]
trial("periodic_work", [requests(setup(1) + waiters)],
      requests([(T, work, "")], [T] * 8),
      [requests([(T, it, "") for it in reads], [T] * 9), requests([(T, work, "")], [T] * 12),
       requests([(T, it, "") for it in reads], [T] * 13)],
      [("in, answered", ended(worked(sent=1)), *found_sent),
       ("in, 503", ended(UNANSWERED), *found_sent),
       ("out, 503", ended(UNANSWERED), *found_unsent),
       ("out, not read", NOT_READ, *found_unsent),
       ("out, not opened", NOT_OPENED, *found_unsent)])

as_till = requests([(T, get("/items/", token=TILL), "")])
known, unknown = ended(listed("/items/", 0, [])), ended(detail(401, "Invalid token."))
known_then = [known, "token 2\n", known, "token 3\n"]
unknown_then = [unknown, "token 2\n", known, "token 3\n"]
the_token = token("till", 2), [as_till, token("till", 2), as_till, token("door", 3)]
of_token = [("in, answered", "token 2\n", *known_then),
            ("in, fault 63", NOT_READ, *known_then),
            ("out, fault 63", NOT_READ, *unknown_then),
            ("out, not opened", NOT_OPENED, *unknown_then)]
trial("token", [], *the_token, of_token)
# One outcome isn't listed: whatever is told otherwise is counted.
trial("token_with_an_outcome_too_few", [], *the_token, of_token[:-1])

two_vouchers = imported([row("A1", item=1), row("A2", item=1)], ["A1 added", "A2 added"])
listed_vouchers = requests([(T, get("/vouchers/"), "")])
both = ended(listed("/vouchers/", 2, [voucher_row(1, "A1", item=1), voucher_row(2, "A2", item=1)]))
neither = ended(listed("/vouchers/", 0, []))
found_both = [both, "A1 same\nA2 same\n", both]
found_neither = [neither, "A1 added\nA2 added\n", both]
trial("import", [requests(setup(1))], two_vouchers, [listed_vouchers, two_vouchers, listed_vouchers],
      [("in, answered", "A1 added\nA2 added\n", *found_both),
       ("in, fault 63", NOT_READ, *found_both),
       ("out, fault 63", NOT_READ, *found_neither),
       ("out, not opened", NOT_OPENED, *found_neither)])



def migration(version):
    """What is found then: whether the file is of this version or still of the older one; that `migrate` takes it, which it wouldn't if an
    older one had a table of this version, or one of this version lacked one; and that it holds what it held."""
    again = requests(asked_again(version))
    whole = [NEWEST, again[2]]
    found_new, found_old = [NEWEST, *whole], [failed("61"), *whole]
    outcomes = [("in, answered", NEWEST, *found_new),
                ("in, fault 63", NOT_READ, *found_new),
                ("out, fault 63", NOT_READ, *found_old),
                ("out, not opened", NOT_OPENED, *found_old)]
    return f"migrate_from_{version}", [old_file(version)], migrated, [told("open", ""), migrated, again], outcomes


for older in OLDER:
    trial(*migration(older), new=False)

# Refused calls, while the shop stays open.

delivered_twice = [(T, the_order, ""), (T, get("/orders/"), ""), (T60, the_order, ""), (T60, get("/orders/"), "")]
refused_all = ended(*[UNANSWERED] * 4)


def found(tick):
    """What is told behind it, when the files are opened again."""
    return ended(told_order(tick), listed_order(tick))


trial("order_under_a_key", [requests(setup(1))],
      requests(delivered_twice, [T, T]),
      [requests([(T120, the_order, ""), (T180, get("/orders/"), "")], [T, T, T, T, T60, T60])],
      [("in, as without a refused call", ended(told_order(3), listed_order(3), told_order(3), listed_order(3)), found(3)),
       ("out, 503, nothing has changed, and the repeat is carried out", ended(UNANSWERED, listed_order(), told_order(5), listed_order(5)), found(5)),
       ("in, 503 until the files are opened again", refused_all, found(3)),
       ("out, 503 until the files are opened again", refused_all, found(7)),
       ("out, not read", NOT_READ, found(7)),
       ("out, not opened", NOT_OPENED, found(7))],
      kind="refusals")
for older in OLDER:
    trial(*migration(older), kind="refusals", new=False)


# How often each outcome came, and behind them how often something else did, where it did, as a run printed it.
COUNTS = {
    ("stops", "order_under_a_key", "log", "what wasn't synced is lost"): [26, 0, 6, 0, 28],
    ("stops", "order_under_a_key", "log", "what was written is kept"): [26, 1, 5, 0, 28],
    ("stops", "order_under_a_key", "database file", "what wasn't synced is lost"): [11, 0, 0, 0, 115],
    ("stops", "order_under_a_key", "database file", "what was written is kept"): [11, 0, 0, 0, 115],
    ("stops", "periodic_work", "log", "what wasn't synced is lost"): [20, 0, 6, 0, 28],
    ("stops", "periodic_work", "log", "what was written is kept"): [20, 1, 5, 0, 28],
    ("stops", "periodic_work", "database file", "what wasn't synced is lost"): [8, 0, 0, 0, 115],
    ("stops", "periodic_work", "database file", "what was written is kept"): [8, 0, 0, 0, 115],
    ("stops", "token", "log", "what wasn't synced is lost"): [14, 0, 6, 28],
    ("stops", "token", "log", "what was written is kept"): [14, 1, 5, 28],
    ("stops", "token", "database file", "what wasn't synced is lost"): [5, 0, 0, 115],
    ("stops", "token", "database file", "what was written is kept"): [5, 0, 0, 115],
    ("stops", "token_with_an_outcome_too_few", "log", "what wasn't synced is lost"): [14, 0, 6, 28],
    ("stops", "token_with_an_outcome_too_few", "log", "what was written is kept"): [14, 1, 5, 28],
    ("stops", "token_with_an_outcome_too_few", "database file", "what wasn't synced is lost"): [5, 0, 0, 115],
    ("stops", "token_with_an_outcome_too_few", "database file", "what was written is kept"): [5, 0, 0, 115],
    ("stops", "import", "log", "what wasn't synced is lost"): [16, 0, 6, 28],
    ("stops", "import", "log", "what was written is kept"): [16, 1, 5, 28],
    ("stops", "import", "database file", "what wasn't synced is lost"): [6, 0, 0, 115],
    ("stops", "import", "database file", "what was written is kept"): [6, 0, 0, 115],
    ("stops", "migrate_from_1", "log", "what wasn't synced is lost"): [24, 0, 6, 28],
    ("stops", "migrate_from_1", "log", "what was written is kept"): [24, 1, 5, 28],
    ("stops", "migrate_from_1", "database file", "what wasn't synced is lost"): [10, 0, 0, 100],
    ("stops", "migrate_from_1", "database file", "what was written is kept"): [10, 0, 0, 100],
    ("stops", "migrate_from_2", "log", "what wasn't synced is lost"): [20, 0, 6, 28],
    ("stops", "migrate_from_2", "log", "what was written is kept"): [20, 1, 5, 28],
    ("stops", "migrate_from_2", "database file", "what wasn't synced is lost"): [8, 0, 0, 106],
    ("stops", "migrate_from_2", "database file", "what was written is kept"): [8, 0, 0, 106],
    ("refusals", "order_under_a_key", "log", "the files stay"): [26, 3, 1, 2, 0, 28],
    ("refusals", "order_under_a_key", "database file", "the files stay"): [11, 0, 0, 0, 0, 115],
    ("refusals", "migrate_from_1", "log", "the files stay"): [24, 1, 5, 28],
    ("refusals", "migrate_from_1", "database file", "the files stay"): [10, 0, 0, 100],
    ("refusals", "migrate_from_2", "log", "the files stay"): [20, 1, 5, 28],
    ("refusals", "migrate_from_2", "database file", "the files stay"): [8, 0, 0, 106],
}


def trial_text(before, first, then, outcomes):
    """A trial as the program reads it."""
    parts = ["".join(map(deed_text, before)), deed_text(first)[1:], "".join(map(deed_text, then))]
    assert not any(set("%~") & set("".join(it)) for it in outcomes)
    return "~".join([*parts, "".join(f"%{name}\n{told}~{''.join(rest)}" for name, told, *rest in outcomes)])


def data():
    """The files that the program reads, by name."""
    return {
        **{kind: "".join(f"{name}\n" for of, name, *_ in trials if of == kind) for kind in ("stops", "refusals")},
        **{f"{name}.{kind}": trial_text(*rest) for kind, name, *rest in trials},
    }


WORDS = {
    "stops": ("the {file} stops at each of {calls} calls", "what wasn't synced is lost", "what was written is kept"),
    "refusals": ("each of {calls} calls of the {file} is refused once", "the files stay"),
}


def came(kind, name, outcomes):
    """What is printed of a trial. Where its counts are as many as its outcomes, nothing else came."""
    form, *ways = WORDS[kind]
    for file in ("log", "database file"):
        for way in ways:
            counts = COUNTS.get((kind, name, file, way), [0] * len(outcomes))
            ins, outs = (sum(count for it, count in zip(outcomes, counts) if it[0].startswith(which)) for which in ("in", "out"))
            otherwise = sum(counts[len(outcomes):])
            yield f"{name}, {form.format(file=file, calls=ins + outs + otherwise)}, {way}: in {ins}, out {outs}, otherwise {otherwise}\n"
            yield from (f"    {count} {it[0]}\n" for it, count in zip(outcomes, counts))


def output():
    """What the program prints of them."""
    found = ""
    for kind, title in ("stops", "== stops: each of both files at each call\n"), ("refusals", "== refused_calls: each of both files, each call in turn\n"):
        found += title + "".join("".join(came(of, name, rest[-1])) for of, name, *rest in trials if of == kind)
    return found
