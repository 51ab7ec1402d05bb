"""What is read of a system's clock and its chance."""

DRAW = int.from_bytes(bytes(range(1, 17)), "big")
CLOCKS = [
    ("before 1970", 0), ("at the first moment", 0), ("at a moment", 1_777_629_600), ("at the last moment", 253_370_764_799),
    ("beyond the last moment", 253_370_764_799), ("unreadable", None), ("without chance", None),
]


def output():
    """What the program prints of them."""
    return "== clocks_of_a_system: what is read of each\n" + "".join(
        f"{name}: none\n" if moment is None else f"{name}: moment {moment}, draw {DRAW}\n" for name, moment in CLOCKS)
