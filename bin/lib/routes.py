"""From a route of the API on: what a request with its path and method leads to, as the sources' own matches say.

A path leads to a target, this with a method to the form of a body or to a query, a form to a command, a command to a function of the office, and
that to functions of decisions. Each step reads the arms of one match, by the names of its cases.
"""
import glob
import os
import re

TOP = os.path.dirname(os.path.dirname(os.path.dirname(os.path.abspath(__file__))))
API = "crates/web_api/src"
OFFICE = "crates/office_commands/src"
METHODS = ("GET", "POST", "PATCH", "DELETE")
ROUTE = re.compile(r'\badd\w*\(\s*router,\s*"([^"]+)",\s*(?:Route::)?(\w+)(?:::(\w+))?')


def text_of(path):
    with open(f"{TOP}/{path}", encoding="utf-8") as it:
        return it.read()


def line_of(text, at):
    return text.count("\n", 0, at) + 1


def function(path, name):
    """The place of a function in a file, and its text from the name on to the end of its body."""
    text = text_of(path)
    found = re.search(rf"^( *)(?:pub(?:\(crate\))? )?fn {name}\b", text, re.M)
    if not found:
        return None, ""
    end = re.search(rf"^{found[1]}\}}", text[found.end():], re.M)
    return f"{path}:{line_of(text, found.end())}", text[found.start():found.end() + (end.end() if end else 0)]


def arms(text, case):
    """What a match gives for a case: the text behind `=>` of each arm that names it."""
    for it in re.finditer(rf"^ *(?:[^\n=]*[^\w])?{re.escape(case)}\b[^\n=]*=>((?:.|\n(?! *(?:[\w(&]|_ )[^\n]*=>))*)", text, re.M):
        yield it[0].partition("=>")[0], it[1]


def case_in(text, enum):
    """The first case of an enum that a text names."""
    found = re.search(rf"\b{enum}::(\w+)", text)
    return found[1] if found else None


def routes():
    """Each path of the table with its case of `Route` and its place."""
    text = text_of(f"{API}/routes.rt")
    for it in ROUTE.finditer(text):
        yield it[1], "Move" if it[2] == "MoveName" else it[2], f"{API}/routes.rt:{line_of(text, it.start(1))}"


def asked(word):
    """A method and a path, where the word is such a pair, or a path alone."""
    first, _, rest = word.strip().partition(" ")
    method = first.upper() if first.upper() in METHODS else None
    return method, (rest if method else word).strip().lower()


def fits(path, said):
    """Whether a path of the table is the one that was said, with whatever stands in its places; or has that name."""
    names, own = [it for it in said.split("/") if it], [it for it in path.lower().split("/") if it]
    if "/" in said:
        return len(names) == len(own) and all(it.startswith("{") or it == name for name, it in zip(names, own))
    return len(names) == 1 and names[0] in own


def leads(route, method):
    """What a request of that route and method asks for: a case of `Command`, or of `Query`, or nothing."""
    target = "".join(it for _, it in arms(text_of(f"{API}/path.rt"), f"Route::{route}"))
    kind = "One" if "one_in(" in target else case_in(target, "Target")
    endpoints = text_of(f"{API}/endpoint.rt")
    given = "".join(rest for head, rest in arms(endpoints, f"Target::{kind}") if f"Verb::{method.title()}" in head)
    form = case_in(given, "Form")
    for name in ("new_form", "change_form", "drop_form", "move_order", "read_order"):
        if f"{name}(" in given:
            body = function(f"{API}/endpoint.rt", name)[1]
            resource = case_in(target, "Resource")
            of = "".join(rest for _, rest in arms(body, f"Resource::{resource}")) if name.endswith("_form") else body
            form = case_in(of, "Form")
            given = of if name == "read_order" else "" if not form else given
    if form:
        command = "".join(it for _, it in arms(text_of("crates/web_bodies/src/requests.rt"), f"Form::{form}"))
        return "Command", case_in(command, "Command")
    if "Endpoint::Page" in given:
        return "Query", "List"
    if "Endpoint::Redeem" in given:
        return "Command", "Redeem"
    return "Query", case_in(given, "Query")


def carried_out(kind, case):
    """The name, place and text of each function that a command or a query leads to: that of the office, and those of decisions that it calls."""
    path, name = ("deciding.rt", "decide_over") if kind == "Command" else ("office.rt", "ask")
    arm = "".join(it for _, it in arms(function(f"{OFFICE}/{path}", name)[1], f"{kind}::{case}"))
    called = re.search(r"\b(self)\.(\w+)\(|\b(\w+)::(\w+)\(", arm)
    if not called:
        return []
    home, name = (f"{OFFICE}/*.rt", called[2]) if called[1] else (f"crates/office_*/src/{called[3]}.rt", called[4])
    for file in files(home):
        place, text = function(file, name)
        if place:
            return [(name, place, text), *decisions(file, text)]
    return []


def files(form):
    return sorted(os.path.relpath(it, TOP) for it in glob.glob(f"{TOP}/{form}"))


def decisions(path, text):
    """The functions of the tower decide that a function calls, by what its file imports, or by their paths; those of private ones that it calls too."""
    whole, body = text_of(path), text.partition("{\n")[2]
    asked = set(re.findall(r"\b(decide_\w+)::(?:(\w+)::)?(\w+)\(", body))
    for crate, inner in re.findall(r"^use (decide_\w+)::(.*?);", whole, re.M | re.S):
        for name in re.findall(r"\w+", inner):
            if re.search(rf"(?<![\w:.]){name}(?:::<[^()]*>)?\(", body):
                asked.add((crate, "", name))
            asked |= {(crate, name, it) for it in re.findall(rf"(?<![\w:.]){name}::(\w+)\(", body)}
    for crate, module, name in sorted(asked, key=lambda it: body.find(f"{it[2]}(")):
        for file in files(f"crates/{crate}/src/{module or '*'}.rt"):
            place, its = function(file, name)
            if place and re.match(r" *pub ", its):
                yield name, place, its
                break
    for name in re.findall(r"^fn (\w+)", whole, re.M):
        if re.search(rf"(?<![\w:.]){name}\(", body) and not text.lstrip().startswith(f"fn {name}"):
            yield from decisions(path, function(path, name)[1])


def found(word):
    """Of each route that the word names, and of each method that it has: method and path, place, what it asks for, and its functions."""
    method, said = asked(word)
    for path, route, place in routes():
        if fits(path, said):
            for it in (method,) if method else METHODS:
                kind, case = leads(route, it)
                if case:
                    yield f"{it} {path}", place, f"{kind}::{case}", list(carried_out(kind, case))
