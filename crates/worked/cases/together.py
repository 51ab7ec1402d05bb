"""Callers who are there at once, over memory, in every interleaving of what two of them do.

A party is a few callers, each with its requests, and with how many bytes each read from it gives and each write to it takes at most (0 is nothing
yet); and what happens, in words: `+` (the next caller comes, to the first place that is free), `0` (whoever is at that place has a turn) and `-0`
(whoever is there leaves); words that come first, two lists that happen in every interleaving of both, and words that come last. For each order of
the requests that may come of it the answers are written out. Each such order is a case of one connection alone, too. What each caller is told, and
how often each order comes, is reckoned here turn by turn. Nothing here comes from the program.
"""

from collections import Counter
from itertools import combinations

from forms import *
from keys import keyed
from orders import ONE, order_row, position_row

ANY = 1 << 64
parties = []


class Talk:
    """How far the conversation of a caller is."""

    def __init__(self, requests, reads=(), writes=()):
        self.ends = [len("".join(requests[: at + 1])) for at in range(len(requests))]
        self.size, self.came, self.waits, self.is_over = len("".join(requests)), 0, True, False
        self.reads, self.writes = [*reads], [*writes]
        self.unsent = self.told = ""

    def hear(self):
        most = self.reads.pop(0) if self.reads else ANY
        self.is_over = most > 0 and self.came == self.size
        self.waits = most == 0
        self.came = min(self.came + most, self.size)

    def reply(self, answer):
        if self.ends and self.ends[0] <= self.came:
            self.ends.pop(0)
            self.unsent = answer()
        else:
            self.waits = True

    def turn(self, answer):
        """What isn't sent yet goes on. Where nothing is left, it reads once if it waits, and one request that is whole is answered."""
        if not self.unsent and not self.is_over:
            if self.waits:
                self.hear()
            if not self.waits and not self.is_over:
                self.reply(answer)
        if self.unsent:
            most = self.writes.pop(0) if self.writes else ANY
            self.told, self.unsent = self.told + self.unsent[:most], self.unsent[most:]


class Hall:
    """A hall whose desk answers as it is written out for the order in which requests come."""

    def __init__(self, places, callers, orders):
        self.names, self.talks = [*callers], [Talk(*it) for it in callers.values()]
        self.places, self.comers, self.acts, self.orders = [None] * places, [*range(len(callers))], (), orders

    def answer(self, caller):
        self.acts += (self.names[caller],)
        at = len(self.acts)
        (found,) = {answers[at - 1] for order, answers in self.orders.items() if order[:at] == self.acts}
        return found

    def go(self, word):
        if word == "+":
            if None in self.places and self.comers:
                self.places[self.places.index(None)] = self.comers.pop(0)
        elif word.startswith("-"):
            self.places[int(word[1:])] = None
        elif (caller := self.places[int(word)]) is not None:
            self.talks[caller].turn(lambda: self.answer(caller))


def interleavings(one, other):
    """The words of two lists in every order, those of each in its own."""
    count = len(one) + len(other)
    for places in combinations(range(count), len(other)):
        ones, others = iter(one), iter(other)
        yield [next(others if at in places else ones) for at in range(count)]


def alone(name, callers, moments, order, answers):
    """The same requests on one connection, one after another."""
    rest = {who: iter(requests) for who, (requests, *_) in callers.items()}
    case(f"{name}_by_{title(order).replace(', ', '_')}", [(moment, next(rest[who]), told) for moment, who, told in zip(moments, order, answers)])


def party(name, callers, moments, orders, plan, lacks=""):
    """Callers in the order in which they come; the moments of their requests; the answers in each order of these; and what happens. What comes of
    an order that lacks isn't listed, so that it is counted as something else."""
    orders = {tuple(order.split()): answers for order, answers in orders.items()}
    first, one, other, last = map(str.split, plan)
    came, count = {}, Counter()
    for words in interleavings(one, other):
        hall = Hall(2, callers, orders)
        for word in [*first, *words, *last]:
            hall.go(word)
        told = tuple(it.told for it in hall.talks)
        assert came.setdefault(hall.acts, told) == told
        count[told] += 1
    assert came.keys() == orders.keys()
    titles = {came[it]: " or ".join(title(order) for order in orders if came[order] == came[it]) for it in orders}
    parties.append((name, callers, moments, plan, [(it, told, count[told]) for told, it in titles.items() if it != lacks], count.total()))
    if not lacks:
        for order, answers in orders.items():
            alone(name, callers, moments, order, answers)


def title(order):
    """An order without what comes first in all of them."""
    return ", ".join(it for it in order if it != "maker")


# ---- parties

MOMENTS = [f"2026-05-01T10:0{minute}:00Z" for minute in range(9)]


def makes(size):
    """Who makes the item and its quota, at the first two moments."""
    return [sent for _, sent, _ in setup(size)], [told for _, _, told in setup(size)]


def held(number, tick):
    """The cart position that the request of that tick is told."""
    return cart(number, tick, MOMENTS[tick - 1], f"2026-05-01T10:3{tick - 1}:00Z")


made, told_made = makes(2)
party("two_places_for_three", {
    "maker": (made,),
    # A request in two pieces, with nothing between, and a part of the next one behind it; then the rest. Its answer is taken in parts, or not yet.
    "first": ([hold, hold], [70, 0, 100, 200], [200, 0, 1000]),
    "second": ([hold], [50, 0, 1000]),
}, MOMENTS[:5], {
    "maker maker first first second": [*told_made, held(1, 3), held(2, 4), sold_out(1)],
    "maker maker first second first": [*told_made, held(1, 3), held(2, 4), sold_out(1)],
    "maker maker second first first": [*told_made, held(1, 3), held(2, 4), sold_out(1)],
}, ["+ 0 0 -0 + +", "0 0 0 0 0 0 0 0", "1 1 1", ""])

made, told_made = makes(1)
leaves = ({
    "maker": (made,),
    # It leaves within its second request, and within the answer to its first one.
    "leaver": ([ask, hold], [60, 150], [100]),
    "second": ([hold], [60, 1000]),
    "third": ([hold], [1000]),
}, MOMENTS[:5], {
    "maker maker leaver second third": [*told_made, availability(1, 1), held(1, 4), sold_out(1)],
    "maker maker leaver third second": [*told_made, availability(1, 1), held(1, 4), sold_out(1)],
    "maker maker second leaver third": [*told_made, held(1, 3), availability(1, 0, carts=1), sold_out(1)],
}, ["+ 0 0 -0 + +", "0 0 + -0 + 0", "1 1", ""])
party("whoever_leaves_leaves_nothing", *leaves)
party("whoever_leaves_with_an_outcome_too_few", *leaves, lacks="second, leaver, third")

the_order = keyed("/orders/", ONE, "k")
ordered = order_row([position_row(1, 3)], made=MOMENTS[2], expires="2026-05-15T10:02:00Z")
made, told_made = makes(2)
told_twice = [*told_made, answer(201, ordered), answer(201, ordered), listed("/orders/", 1, [ordered]), availability(2, 1, pending=1)]
party("one_order_by_two", {
    "maker": (made,),
    "first": ([the_order], [150, 1000], [1, 0, 1000]),
    "second": ([the_order], [200, 1000]),
    "reader": ([get("/orders/"), ask],),
}, MOMENTS[:6], {
    "maker maker first second reader reader": told_twice,
    "maker maker second first reader reader": told_twice,
}, ["+ 0 0 -0 + +", "0 0 0 0", "1 1 1", "-0 + 0 0"])


def party_text(callers, moments, plan, outcomes):
    """A party as the program reads it."""
    sent = [(" ".join(map(str, reads)), " ".join(map(str, writes)), "".join(requests)) for requests, reads, writes in ((*it, (), ())[:3] for it in callers.values())]
    told = [(name, "|".join(texts)) for name, texts, _ in outcomes]
    assert not any(set("%~|") & set("".join(it)) for it in [*sent, *(texts for _, texts, _ in outcomes)])
    parts = ["2", " ".join(moments), "".join(f"%{reads}|{writes}\n{bytes}" for reads, writes, bytes in sent), "\n".join(plan)]
    return "~".join([*parts, "".join(f"%{name}\n{texts}" for name, texts in told)])


def data():
    """The files that the program reads, by name."""
    return {"together": "".join(f"{name}\n" for name, *_ in parties)} | {f"{name}.together": party_text(*rest) for name, *rest, _ in parties}


def output():
    """What the program prints of them."""
    found = "== callers_at_once: two over memory, in every interleaving of what they do\n"
    for name, *_, outcomes, total in parties:
        count = sum(it[-1] for it in outcomes)
        found += f"{name}, {total} interleavings: as on one connection alone {count}, otherwise {total - count}\n"
        found += "".join(f"    {count} {order}\n" for order, _, count in outcomes)
    return found
