#!/usr/bin/env python3
"""Writes the case files under data/ and the file stdout, from the texts of the requests and of their answers.

A case file begins with a line of moments, one for each request, with a space between two. The rest are the bytes of the
stream. What stdout has of a case is its name, how it ends, and the bytes that are written. Behind the cases stand what clocks.py, together.py,
files.py and trials.py have, and `exports.txt` and `devices.txt`, which are written by hand: what comes of exports, and of command lines and devices
that fail.

Nothing here comes from the program: the answers are written out, or built from a status, a body and the form of a head.
"""

from pathlib import Path

from forms import cases
import first_path  # noqa: F401
import catalogue  # noqa: F401
import vouchers  # noqa: F401
import orders  # noqa: F401
import bulk  # noqa: F401
import budgets  # noqa: F401
import limits  # noqa: F401
import edges  # noqa: F401
import waiting  # noqa: F401
import doors  # noqa: F401
import keys  # noqa: F401
import together  # noqa: F401
import clocks
import files
import trials

HERE = Path(__file__).parent.parent


def main():
    data = HERE / "data"
    for old in data.iterdir():
        old.unlink()
    out = []
    for name, exchanges, ending in cases:
        moments = " ".join(moment for moment, _, _ in exchanges if moment)
        stream = "".join(sent for _, sent, _ in exchanges)
        (data / f"{name}.case").write_bytes(f"{moments}\n{stream}".encode())
        told = "".join(told for _, _, told in exchanges)
        out.append(f"== {name}: {ending}\n{told}\n")
    (data / "names").write_text("".join(f"{name}\n" for name, _, _ in cases))
    for name, text in [*together.data().items(), *files.data().items(), *trials.data().items()]:
        (data / name).write_bytes(text.encode())
    out += [clocks.output(), together.output(), files.output(), trials.output()]
    exports = b"== positions_are_exported: none, three orders of two, and to a writer that fails\n" + (HERE / "cases" / "exports.txt").read_bytes()
    devices = b"== devices_that_fail: each in turn, and lines\n" + (HERE / "cases" / "devices.txt").read_bytes()
    (HERE / "stdout").write_bytes("".join(out).encode() + exports + devices)


main()
