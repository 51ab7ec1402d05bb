"""Terms of clauses and definitions, read so far that two can be compared: which say the same, once words are put in by what defines them.

A term is a tuple that begins with its kind: ("name", N), ("of", F, X) for F applied to X, ("part", X, FIELD), ("fun", N, BODY),
("all", N, TYPE, BODY) and ("some", N, TYPE, BODY) for what is bound before → and ×, ("op", SIGN, A, B), ("if", A, B, C), ("tuple", ..),
("given", X) for an argument in braces, ("record", BASE or None, ((FIELD, X), ..)). What can't be read is no term (Unread).
"""
import re

TOKEN = re.compile(
    r"\s*(⟦[^⟧]*⟧|\"(?:[^\"\\]|\\.)*\"|[\w'«»]+(?:[.-][\w'«»]+)*(?:\{0\})?|\+\+|&&|\|\||==|∥₁|\[\]|\S)"
)
# How tightly a sign binds, and whether it groups to the right.
SIGNS = {"→": (1, True), "×": (2, True), "⊎": (3, True), "↔": (4, False), "||": (6, True), "&&": (7, True), "==": (8, False), "++": (9, True), "∷": (9, True)}
SIGNS |= {it: (5, False) for it in "≡≢≤<∈"} | {"+": (10, False), "-": (10, False), "*": (11, False), "/": (11, False), "%": (11, False), "^": (12, True)}
NOT = 4.5
STOPS = {"then", "else", "in", ")", "}", "]", ",", ";", ":", "=", "."}
# Signs whose grouping says nothing.
LISTED = {"×", "⊎"}
# Words of std that say of a result what others say by a function of what it holds.
CONSTANT = {"OnOk": "IfOk", "OnErr": "IfErr"}
# What a contract says of a parameter: when, or as what, it is taken.
GIVEN = {"now", "old", "new", "entry"}
# What stands between a word and the module that defines it.
OF = "§"
DEEP = 400


class Unread(Exception):
    """A text that isn't understood."""


class Reader:
    """Reads one term of a text, sign by sign."""

    def __init__(self, text):
        self.signs, self.at, end = [], 0, 0
        while found := TOKEN.match(text, end):
            self.signs.append(found[1])
            end = found.end()

    def sees(self, ahead=0):
        return self.signs[self.at + ahead] if self.at + ahead < len(self.signs) else None

    def take(self, wanted=None):
        sign = self.sees()
        if sign is None or wanted not in (None, sign):
            raise Unread(f"{sign} for {wanted}")
        self.at += 1
        return sign

    def until(self, end):
        """The signs before that one, which is taken too."""
        found = []
        while self.sees() != end:
            found.append(self.take())
        self.take()
        return found

    def term(self, least=0):
        begin = {"λ": self.function, "if": self.choice, "let": self.binding}.get(self.sees())
        if begin:
            return begin()
        bound = self.bound()
        if bound:
            sign = self.take()
            body = self.term(SIGNS[sign][0])
            for name, its in reversed(bound):
                body = ("all" if sign == "→" else "some", name, its, body)
            return body
        if self.sees() == "¬":
            self.take()
            left = ("of", ("name", "¬"), self.term(NOT))
        else:
            left = self.applied()
        while self.sees() in SIGNS and SIGNS[self.sees()][0] >= least:
            sign = self.take()
            rank, groups_right = SIGNS[sign]
            left = ("op", sign, left, self.term(rank if groups_right else rank + 0.1))
        return left

    def function(self):
        self.take("λ")
        names = []
        while self.sees() != ".":
            if self.sees() == "(":
                self.take()
                names += self.until(":")
                self.term()
                self.take(")")
            else:
                names.append(self.take())
        self.take(".")
        body = self.term()
        for name in reversed(names):
            body = ("fun", name, body)
        return body

    def choice(self):
        self.take("if")
        test = self.term()
        self.take("then")
        one = self.term()
        self.take("else")
        return ("if", test, one, self.term())

    def binding(self):
        self.take("let")
        name = self.take()
        if self.sees() == ":":
            self.take()
            self.term()
        self.take("=")
        given = self.term()
        self.take("in")
        return put(self.term(), {name: given})

    def bound(self):
        """The names of `(a b : T) (c : U)`, each with its type, where → or × comes next; or else None."""
        begun = self.at
        try:
            if self.sees() not in ("(", "{"):
                return None
            end = ")" if self.take() == "(" else "}"
            names = self.until(":")
            its = self.term()
            self.take(end)
            if not names or not all(re.fullmatch(r"[\w'«»]+", it) for it in names):
                raise Unread("no names")
            found = [(it, its) for it in names]
            if self.sees() in ("→", "×"):
                return found
            more = self.bound()
            if more:
                return found + more
        except Unread:
            pass
        self.at = begun
        return None

    def applied(self):
        made = self.atom()
        if made is None:
            raise Unread(f"nothing before {self.sees()}")
        while (more := self.atom()) is not None:
            made = ("of", made, more)
        return made

    def atom(self):
        sign = self.sees()
        if sign is None or sign in STOPS or sign in SIGNS or sign == "¬":
            return None
        if sign in ("λ", "if", "let"):
            return self.term()
        if sign == "(":
            return self.parts(self.bracket())
        if sign == "record":
            return self.parts(self.record())
        if sign in ("{", "∥"):
            self.take()
            inner = self.term()
            self.take("}" if sign == "{" else "∥₁")
            return ("given" if sign == "{" else "once", inner)
        self.take()
        dotted = re.fullmatch(r"([^\W\d][\w'«»]*|«\w+»)((?:\.[\w'«»-]+)+)", sign)
        return self.parts(along(("name", dotted[1]), dotted[2][1:]) if dotted else ("name", sign))

    def bracket(self):
        self.take("(")
        if self.sees() in SIGNS and self.sees(1) == ")":
            self.at += 2
            return ("name", self.signs[self.at - 2])
        inner = [self.term()]
        while self.sees() == ",":
            self.take()
            inner.append(self.term())
        self.take(")")
        return inner[0] if len(inner) == 1 else ("tuple", *inner)

    def record(self):
        self.take("record")
        base = None if self.sees() == "{" else self.atom()
        self.take("{")
        fields = []
        while self.sees() != "}":
            name = self.take()
            self.take("=")
            fields.append((name, self.term()))
            if self.sees() == ";":
                self.take()
        self.take("}")
        return ("record", base, tuple(sorted(fields)))

    def parts(self, made):
        """What fields are taken of it, right behind it."""
        while self.sees() == "." and re.fullmatch(r"[\w'«»]+(?:\.[\w'«»]+)*", self.sees(1) or ""):
            self.take()
            made = along(made, self.take())
        return made


def along(made, fields):
    for it in fields.split("."):
        made = ("part", made, it)
    return made


def read(text):
    """The term that a text is; what it binds has names that no word has."""
    reader = Reader(text)
    made = reader.term()
    if reader.sees() is not None:
        raise Unread(f"{reader.sees()} is left")
    return renamed(made)


def renamed(term):
    if term[0] not in ("fun", "all", "some"):
        return rebuilt(term, renamed)
    name = Fresh.name(term[1])
    return (term[0], name, *(renamed(it) for it in term[2:-1]), renamed(put(term[-1], {term[1]: ("name", name)})))


def inner(term):
    """The terms that a term is made of, those of a record's fields among them."""
    for it in term[2:] if term[0] in ("fun", "all", "some", "op", "record") else term[1:]:
        if isinstance(it, tuple) and term[0] == "record":
            yield from (value for _, value in it)
        elif isinstance(it, tuple):
            yield it
    if term[0] == "record" and term[1]:
        yield term[1]


def names_in(term):
    if term[0] == "name":
        return {term[1]}
    return set().union(*map(names_in, inner(term)))


def rebuilt(term, change):
    """The same kind of term over what `change` makes of its parts."""
    if term[0] == "record":
        return ("record", term[1] and change(term[1]), tuple((name, change(value)) for name, value in term[2]))
    return (term[0], *(change(it) if isinstance(it, tuple) else it for it in term[1:]))


class Fresh:
    """Names that no text has."""

    count = 0

    @classmethod
    def name(cls, near):
        cls.count += 1
        return f"{near.split('~')[0]}~{cls.count}"


def put(term, given):
    """A term with others in the place of names; what it binds keeps its own."""
    if not given:
        return term
    if term[0] == "name":
        return given.get(term[1], term)
    if term[0] not in ("fun", "all", "some"):
        return rebuilt(term, lambda it: put(it, given))
    name, inside = term[1], {it: value for it, value in given.items() if it != term[1]}
    body = term[-1]
    if any(name in names_in(it) for it in inside.values()):
        other = Fresh.name(name)
        name, body = other, put(body, {name: ("name", other)})
    return (term[0], name, *(put(it, given) for it in term[2:-1]), put(body, inside))


def spine(term):
    """What is applied, and to what, arguments in braces left out."""
    given = []
    while term[0] == "of":
        if term[2][0] != "given":
            given.append(term[2])
        term = term[1]
    return term, given[::-1]


def applied_to(made, given):
    for it in given:
        made = ("of", made, it)
    return made


class Words:
    """What names are defined as: by one equation over variables, or as records."""

    def __init__(self):
        self.equations, self.records = {}, {}

    def opened(self, term, depth=0):
        """A term with each word put in, functions applied, and parts taken of records."""
        if depth > DEEP:
            return term
        if term[0] in ("of", "name"):
            return self.opened_call(*spine(term), depth)
        if term[0] == "part":
            is_given = term[1][0] == "name" and term[2] in GIVEN
            return self.opened_part(term[1] if is_given else self.opened(term[1], depth + 1), term[2], depth)
        if term[0] in ("all", "some"):
            fields = self.fields_of(term[2])
            if fields:
                return self.opened(spread(term, fields), depth + 1)
        made = rebuilt(term, lambda it: self.opened(it, depth + 1))
        if made[0] == "fun" and made[2][0] == "of" and made[2][2] == ("name", made[1]) and made[1] not in names_in(made[2][1]):
            return made[2][1]
        return made

    def fields_of(self, its):
        """The fields of a type that is a record of these words, each with its type."""
        called, given = spine(its)
        names, fields = self.records.get(called[1], ((), ())) if called[0] == "name" else ((), ())
        return [(name, put(field, dict(zip(names, given)))) for name, field in fields] if len(names) == len(given) else []

    def opened_call(self, called, given, depth):
        if called[0] == "name" and called[1] in self.equations:
            names, body = self.equations[called[1]]
            if names and not given:
                return called
            left = [(it, Fresh.name(it)) for it in names[len(given) :]]
            body = put(body, dict(zip(names, given)) | {it: ("name", other) for it, other in left})
            for _, other in reversed(left):
                body = ("fun", other, body)
            return self.opened(applied_to(body, given[len(names) :]), depth + 1)
        if called[0] != "name":
            called, more = spine(self.opened(called, depth + 1))
            given = [*more, *given]
        if called[0] == "fun" and given:
            return self.opened(applied_to(put(called[2], {called[1]: given[0]}), given[1:]), depth + 1)
        return applied_to(called, [self.opened(it, depth + 1) for it in given])

    def opened_part(self, whole, field, depth):
        if whole[0] == "record":
            own = dict(whole[2]).get(field)
            if own or whole[1]:
                return own or self.opened(("part", whole[1], field), depth + 1)
        if whole[0] == "tuple" and field.isdigit() and int(field) + 1 < len(whole):
            return whole[int(field) + 1]
        return ("part", whole, field)


def homed(term, homes):
    """A term whose words are named with the module that `homes` gives for them."""
    return put(term, {it: ("name", homes[it]) for it in names_in(term) if it in homes})


def spread(term, fields):
    """A term that binds a record as one that binds each of its fields."""
    kind, name, _, body = term
    own = {field: ("name", Fresh.name(field)) for field, _ in fields}
    body = put(body, {name: ("record", None, tuple(sorted(own.items())))})
    for field, its in reversed(fields):
        body = (kind, own[field][1], put(its, {it: value for it, value in own.items() if it != field}), body)
    return body


def bare(name):
    return name.rpartition(OF)[2]


def plain(term, bound=(), depth=0):
    """A term without what says nothing: names of what is bound, the grouping of signs that are the same either way, a type parameter's
    trait in a member's name, the type in a case's."""
    if term[0] == "name":
        return ("name", dict(bound).get(term[1], bare(term[1])))
    if term[0] == "part" and term[2][:1].isupper() and term[1][0] == "name":
        return term[1] if len(term[1][1]) < 3 or term[1][1] == "Self" else ("name", term[2])
    if term[0] == "all" or term[:2] == ("op", "→"):
        return plain_promise(term, bound, depth)
    if term[0] in ("fun", "some"):
        more = (*bound, (term[1], f"#{depth}"))
        return (term[0], *(plain_type(it, bound, depth) for it in term[2:-1]), plain(term[-1], more, depth + 1))
    called, given = spine(term)
    if called[0] == "name" and bare(called[1]) in CONSTANT and len(given) == 2:
        return plain(applied_to(("name", CONSTANT[bare(called[1])]), [given[0], ("fun", "_", given[1])]), bound, depth)
    if term[0] == "op" and term[1] in LISTED:
        return (term[1], *(plain(it, bound, depth) for it in listed(term, term[1])))
    if term[0] == "op" and term[1] in ("++", "∷"):
        return ("++", *((kind, plain(it, bound, depth)) for kind, it in pieces(term)))
    return rebuilt(term, lambda it: plain(it, bound, depth))


def plain_promise(term, bound, depth):
    """What follows of which premises, for all of what: premises in any order, and what is bound in the order in which it is used."""
    names, premises = [], []
    while term[0] == "all" or term[:2] == ("op", "→"):
        if term[0] == "all" and term[1] in names_in(term[3]):
            names.append((term[1], term[2]))
        else:
            premises.append(term[2])
        term = term[3]
    blank = {name: ("name", "_") for name, _ in names}
    premises.sort(key=lambda it: shown(plain(put(it, blank), bound, depth)))
    used = [it for part in (term, *premises, *(its for _, its in names)) for it in sequence(part) if it in blank]
    order = list(dict.fromkeys([*used, *blank]))
    more = (*bound, *((name, f"#{depth + at}") for at, name in enumerate(order)))
    inside = depth + len(order)
    types = dict(names)
    made = sorted({shown(plain(it, more, inside)) for it in premises})
    return ("promise", *(plain_type(types[it], more, inside) for it in order), *(("name", it) for it in made), plain(term, more, inside))


def sequence(term):
    """The names of a term in the order in which they come."""
    if term[0] == "name":
        return [term[1]]
    return [name for it in inner(term) for name in sequence(it)]


def plain_type(its, bound, depth):
    """A type; one that is a parameter may have any name."""
    is_parameter = its[0] == "name" and (len(its[1]) < 3 or its[1] == "Self")
    return ("name", "_") if is_parameter else plain(its, bound, depth)


def listed(term, sign):
    """What a sign joins, however it is grouped."""
    if term[0] == "op" and term[1] == sign:
        return [*listed(term[2], sign), *listed(term[3], sign)]
    return [term]


def pieces(term):
    """What a list is put together from: lists and single entries."""
    if term[0] == "op" and term[1] == "++":
        return [*pieces(term[2]), *pieces(term[3])]
    if term[0] == "op" and term[1] == "∷":
        return [("one", term[2]), *pieces(term[3])]
    return [] if term == ("name", "[]") else [("list", term)]


def shown(term):
    """A term as a text for a person, with brackets wherever one might be wanted."""
    if not isinstance(term, tuple):
        return str(term)
    kind = term[0]
    if kind == "name":
        return term[1]
    if kind == "of":
        called, given = spine(term)
        return "(" + " ".join(map(shown, [called, *given])) + ")"
    if kind == "part":
        return f"{shown(term[1])}.{term[2]}"
    if kind == "op":
        return f"({shown(term[2])} {term[1]} {shown(term[3])})"
    if kind == "record":
        fields = " ".join(f"{name} = {shown(value)};" for name, value in term[2])
        return f"record {f'{shown(term[1])} ' if term[1] else ''}{{ {fields} }}"
    return f"{kind}(" + ", ".join(map(shown, term[1:])) + ")"
