"""Shops in a file: cases with the answers expected of them, statements that spoil one, and calls of the program `filed`.

Nothing here comes from the program: the answers are written out in crates/worked/cases, and here, from their forms.
"""
import os
import subprocess
import sys

sys.dont_write_bytecode = True
TOP = os.path.dirname(os.path.dirname(os.path.dirname(os.path.dirname(os.path.abspath(__file__)))))
sys.path[:0] = [f"{TOP}/bin/lib", f"{TOP}/crates/worked/cases"]
import unproved
from forms import *
import first_path, catalogue, vouchers, orders, bulk, budgets, limits, edges, waiting, doors, keys, together  # noqa: E401, F401 (they list their cases)
from files import TILL, some_rows, two_orders
from keys import LAST_SECOND, NEXT_DAY, keyed
from versions import OLDER, OLD_QUOTA, OLD_VOUCHER, THIS, made_by, rows_at  # noqa: F401 (tries/filed and tries/sqlite3 make older files of them)
from orders import ONE, order_row, position_row
from vouchers import half_past

MADE, DAY = 1777629600, 86400
# The cases of worked rows 12 and 13 by name, and the rest of those on keys.
ON_KEYS = [
    "a_refusal_is_told_again", "a_key_lasts_a_day", "a_repeat_may_ask_for_anything", "a_key_that_was_first_on_an_unknown_path",
    "keys_are_of_a_token", "a_method_that_is_not_allowed_is_told_again", "a_method_that_reads_has_no_key",
    "a_repeat_closes_where_it_asks_for_it", "a_fault_is_told_again", "a_read_has_no_key", "no_key_and_the_first_key",
    "a_repeat_changes_no_moment",
]
# Those on places that exits set free.
ON_EXITS = ["places_that_exits_set_free", "an_exit_by_another_list", "a_place_that_is_blocked_again"]
# Those on budgets.
ON_BUDGETS = ["a_budget_is_spent_in_turn", "a_given_price_spends_of_a_budget", "what_was_spent_without_a_budget_counts"]

each_has_its_own = ("each_token_has_keys_of_its_own", setup(2) + [
    (T, keyed("/cartpositions/", '{"item":1}', "k"), cart(1, 3, T, half_past)),
    (T, keyed("/cartpositions/", '{"item":1}', "k", token=TILL), cart(2, 4, T, half_past)),
    (T, keyed("/cartpositions/", '{"item":1}', "k"), cart(1, 3, T, half_past)),
    (T, keyed("/cartpositions/", '{"item":1}', "k", token=TILL), cart(2, 4, T, half_past)),
    (T, keyed("/cartpositions/", '{"item":1}', "other", token=TILL), sold_out(1)),
    (T, keyed("/cartpositions/", '{"item":1}', "other", token=TILL), sold_out(1)),
    (T, ask, left(2, 2)),
], "ended")

# Statements that spoil the file which the last case leaves, with the fault by which it isn't opened afterwards.
SPOILT = [
    ("0", "UPDATE items SET name = 'Stalls'"),
    ("0", "UPDATE waiting SET priority = -1000000"),
    ("0", "INSERT INTO quota_release VALUES (1)"),
    ("0", "UPDATE voucher_budget SET budget = 500"),
    ("0", "DELETE FROM voucher_budget"),
    ("0", "INSERT INTO voucher_budget VALUES (2, 0)"),
    ("0", "DELETE FROM position_discount; UPDATE voucher_spent SET spent = 0"),
    ("60", "DROP TABLE kept"),
    ("60", "DROP TABLE quota_count"),
    ("60", "DROP TABLE quota_release"),
    ("60", "DROP TABLE quota_exited"),
    ("60", "DROP TABLE voucher_budget"),
    ("60", "DROP TABLE voucher_spent"),
    ("60", "DROP TABLE position_discount"),
    ("60", "DROP TABLE shop"),
    ("61.9", "UPDATE shop SET version = 9"),
    ("61.4", "UPDATE shop SET version = 4"),
    ("61.2", "UPDATE shop SET version = 2"),
    ("61.1", "UPDATE shop SET version = 1"),
    ("61.0", "UPDATE shop SET version = 0"),
    ("61.-1", "UPDATE shop SET version = -1"),
    ("62.1", "UPDATE shop SET moment = -1"),
    ("62.1", "UPDATE shop SET organizer = ''"),
    ("62.1", "UPDATE shop SET event = 'a b'"),
    ("62.1", "UPDATE shop SET next_item = 0"),
    ("62.1", "DELETE FROM shop"),
    ("62.2", "UPDATE items SET name = CAST(x'5374610a6c6c73' AS TEXT) WHERE id = 1"),
    ("62.2", "UPDATE items SET default_price = -1 WHERE id = 1"),
    ("62.2", "UPDATE items SET name = CAST(x'ff' AS TEXT) WHERE id = 1"),
    ("62.2", "UPDATE vouchers SET max_usages = 0 WHERE id = 2"),
    ("62.2", "UPDATE vouchers SET price_mode = 'all' WHERE id = 2"),
    ("62.2", "UPDATE waiting SET priority = 1000001"),
    ("62.2", "UPDATE orders SET status = 'x' WHERE id = 3"),
    ("62.2", "UPDATE checkins SET kind = 'pass'"),
    ("62.2", "INSERT INTO items VALUES (0, 'None', 0, 1, 0)"),
    ("62.2", "UPDATE quotas SET size = 1000001 WHERE id = 1"),
    ("62.2", "UPDATE quota_exited SET exited = -1 WHERE quota_id = 1"),
    ("62.2", "UPDATE voucher_budget SET budget = -1"),
    ("62.2", "UPDATE voucher_budget SET budget = 10000000000"),
    ("62.2", "UPDATE voucher_spent SET spent = -1 WHERE voucher_id = 1"),
    ("62.2", "UPDATE position_discount SET discount = -1 WHERE position_id = 1"),
    ("62.2", "UPDATE position_discount SET discount = 10000000000 WHERE position_id = 1"),
    ("62.3", "UPDATE shop SET next_order = 3"),
    ("62.3", "UPDATE shop SET next_item = 3"),
    ("62.3", "UPDATE shop SET next_checkin = 1"),
    ("62.3", "UPDATE shop SET next_token = 2"),
    ("62.4", "UPDATE vouchers SET item_id = NULL WHERE id = 1"),
    ("62.4", "UPDATE order_positions SET voucher_id = 2 WHERE id = 1"),
    ("62.4", "UPDATE order_positions SET secret = '00000000000000000000000000000007z2z1' WHERE id = 1"),
    ("62.4", "UPDATE items SET varied = 0 WHERE id = 3"),
    ("62.4", "UPDATE waiting SET variation_id = NULL"),
    ("62.4", "UPDATE cart_positions SET variation_id = 1"),
    ("62.4", "UPDATE position_discount SET discount = 0 WHERE position_id = 1"),
    ("62.5", "DELETE FROM order_positions WHERE id = 3"),
    ("62.5", "UPDATE order_positions SET positionid = 2, secret = '00000000000000000000000000000009z3z2' WHERE id = 3"),
    ("62.6", "UPDATE vouchers SET max_usages = 1 WHERE id = 1"),
    ("62.7", "UPDATE quota_count SET paid = paid + 1 WHERE quota_id = 1"),
    ("62.7", "UPDATE quota_count SET carts = 0 WHERE quota_id = 1"),
    ("62.7", "UPDATE quota_count SET waiting = 0 WHERE quota_id = 3"),
    ("62.7", "DELETE FROM quota_count WHERE quota_id = 2"),
    ("62.7", "UPDATE quota_exited SET exited = 1 WHERE quota_id = 1"),
    ("62.7", "DELETE FROM quota_exited WHERE quota_id = 2"),
    ("62.7", "DELETE FROM quota_exited"),
    ("62.7", "INSERT INTO quota_release VALUES (1); UPDATE checkins SET kind = 'exit'"),
    ("0", "INSERT INTO quota_release VALUES (1); UPDATE checkins SET kind = 'exit'; UPDATE quota_exited SET exited = 1 WHERE quota_id = 1"),
    ("62.7", "UPDATE vouchers SET redeemed = 0 WHERE id = 1"),
    ("62.7", "UPDATE orders SET status = 'c' WHERE id = 3"),
    ("62.7", "UPDATE voucher_spent SET spent = 499 WHERE voucher_id = 1"),
    ("62.7", "UPDATE voucher_spent SET spent = 1 WHERE voucher_id = 2"),
    ("62.7", "DELETE FROM voucher_spent WHERE voucher_id = 2"),
    ("62.7", "DELETE FROM voucher_spent"),
    ("62.7", "DELETE FROM position_discount"),
    ("62.7", "UPDATE position_discount SET discount = 299 WHERE position_id = 1"),
    ("62.8", "UPDATE voucher_budget SET budget = 499"),
    # Where two fail, the first one is told.
    ("60", "DROP TABLE shop; UPDATE items SET default_price = -1"),
    ("61.9", "DROP TABLE kept; UPDATE shop SET version = 9"),
    ("61.9", "UPDATE shop SET version = 9, moment = -1"),
    ("60", "DROP TABLE kept; UPDATE shop SET moment = -1"),
    ("62.1", "UPDATE items SET default_price = -1; UPDATE shop SET moment = -1"),
    ("62.2", "UPDATE shop SET next_order = 3; UPDATE items SET default_price = -1"),
    ("62.3", "UPDATE order_positions SET voucher_id = 2 WHERE id = 1; UPDATE shop SET next_order = 3"),
    ("62.4", "DELETE FROM order_positions WHERE id = 3; UPDATE order_positions SET voucher_id = 2 WHERE id = 1"),
    ("62.5", "UPDATE vouchers SET max_usages = 1 WHERE id = 1; DELETE FROM order_positions WHERE id = 3"),
    ("62.6", "UPDATE quota_count SET paid = 0 WHERE quota_id = 1; UPDATE vouchers SET max_usages = 1 WHERE id = 1"),
    ("62.6", "UPDATE voucher_budget SET budget = 499; UPDATE vouchers SET max_usages = 1 WHERE id = 1"),
    ("62.7", "UPDATE voucher_budget SET budget = 499; UPDATE quota_count SET paid = 0 WHERE quota_id = 1"),
    ("62.7", "UPDATE voucher_budget SET budget = 499; DELETE FROM voucher_spent WHERE voucher_id = 2"),
    ("62.7", "UPDATE voucher_budget SET budget = 499; UPDATE voucher_spent SET spent = 499 WHERE voucher_id = 1"),
]
# The same of statements that the kit's crate doesn't know.
RENAMED = [
    ("60", "ALTER TABLE items RENAME TO things"),
    ("60", "ALTER TABLE waiting RENAME COLUMN priority TO rank"),
    ("60", "ALTER TABLE shop RENAME TO house"),
    ("60", "ALTER TABLE quota_exited RENAME COLUMN exited TO gone"),
    ("60", "ALTER TABLE voucher_spent RENAME COLUMN spent TO gone"),
    ("61.9", "UPDATE shop SET version = 9; ALTER TABLE kept RENAME COLUMN body TO text"),
    ("60", "ALTER TABLE kept RENAME COLUMN body TO text; UPDATE shop SET moment = -1"),
]


def text(exchanges):
    """A case as the program reads it."""
    return (" ".join(moment for moment, _, _ in exchanges if moment) + "\n" + "".join(sent for _, sent, _ in exchanges)).encode()


def told(exchanges, ending="ended"):
    """What the program prints of a case."""
    return (f"{ending}\n" + "".join(it for _, _, it in exchanges)).encode()


def named(name):
    return next(it for it in [*cases, each_has_its_own, two_orders, some_rows] if it[0] == name)


def shown(value, other):
    """A value, or of a long text what stands about where it begins to differ from another."""
    if not isinstance(value, bytes) or len(value) < 400 or not isinstance(other, bytes):
        return repr(value)[:2000]
    same = next((at for at, (one, two) in enumerate(zip(value, other)) if one != two), min(len(value), len(other)))
    return f".. from byte {same}: {value[max(0, same - 80) : same + 200]!r}"


class Tests:
    """Counts what is as expected. PLANT in the environment names a test that expects something else instead, so that it fails."""

    def __init__(self):
        self.passed = self.failed = 0

    def hold(self, name, said, want):
        """Compares what was said with what is expected."""
        if name == os.environ.get("PLANT"):
            want = [want, "planted"]
        if said == want:
            self.passed += 1
        else:
            self.failed += 1
            print(f"DIFFERS: {name}\n  said {shown(said, want)}\n  want {shown(want, said)}", flush=True)

    def end(self):
        print(f"{self.passed} passed, {self.failed} failed")
        return 1 if self.failed or not self.passed else 0


class Filed:
    """The program, in a folder. PROGRAM in the environment names one that is compiled already."""

    def __init__(self, room):
        self.room, self.program = room, os.environ.get("PROGRAM") or unproved.program("filed")

    def said(self, *words):
        """What it prints; where it fails, the end of what it says of that."""
        ran = subprocess.run([self.program, *words], cwd=self.room, stdin=subprocess.DEVNULL, capture_output=True)
        return ran.stdout if ran.returncode == 0 else ran.stdout + b"FAILED: %d " % ran.returncode + ran.stderr[-300:]

    def answers(self, how, exchanges, *file):
        """What it answers to a case, over a file of that name or none."""
        with open(f"{self.room}/it.case", "wb") as it:
            it.write(text(exchanges))
        return self.said(how, *file, "it.case")
