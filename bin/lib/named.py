"""The definitions that a function's contract names, each with its place."""
import os
import re

TOP = os.path.dirname(os.path.dirname(os.path.dirname(os.path.abspath(__file__))))
IMPORT = re.compile(r"^ *(?:pub |ghost )*use Rattle\.(\w+)\.specs\.([\w.]+?)\.\{([^}]*)\}", re.M)
DEFINES = r"^ *(?:(?:abbrev|unfoldable|pub|record|data|law) )+{}(?= |$)"


def text_of(path):
    with open(f"{TOP}/{path}", encoding="utf-8") as it:
        return it.read()


def imports(text):
    """Each name that a file brings in from definitions, with their file, and the name that it has there."""
    found = {}
    for crate, module, names in IMPORT.findall(text):
        path = f"crates/{crate}/specs/{module.replace('.', '/')}.antt"
        if os.path.isfile(f"{TOP}/{path}"):
            for it in names.split(","):
                own, _, alias = it.strip().partition(" as ")
                found[alias or own] = (path, own)
    return found


def place_of(path, name):
    """Where a definition stands that a module has, or gives on from another one."""
    text = text_of(path)
    found = re.search(DEFINES.format(re.escape(name)), text, re.M)
    if found:
        return f"{path}:{text.count(chr(10), 0, found.end()) + 1}"
    given = imports(text).get(name)
    return place_of(*given) if given and given[0] != path else None


def contract_of(text):
    """The clauses of a function, of which this is the text from its first line on."""
    end = re.search(r"^ *\{\}?$", text, re.M)
    head = text[:end.start()] if end else ""
    begin = re.search(r"^ *(?:requires|ensures)\b", head, re.M)
    return head[begin.start():] if begin else ""


def named(path, text):
    """The definitions that the contract of a function of that file names, in their order, each with its place."""
    brought = imports(text_of(path))
    for name in dict.fromkeys(re.findall(r"(?<![\w.])[A-Za-z]\w*", contract_of(text))):
        place = place_of(*brought[name]) if name in brought else None
        if place:
            yield name, place
