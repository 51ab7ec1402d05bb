"""Shops in files of versions 1 and 2: no command but `migrate` takes them, and that takes them to this program's version, or leaves them as they are.

The tables of such a file are made by the texts of its version, `version_1.sql` and behind it `version_2.sql`, which never change. Its rows are
written out here, and no program made them: a paid ticket at half the price that went out, a pending order, a voucher with a use that blocks a
place, a cart position, somebody who waits, and three answers that are kept under keys, in the forms that quotas and vouchers had then. The
quota of version 2 releases the places of tickets that went out.
"""

from hashlib import sha256
from pathlib import Path

from forms import *
from doors import new_list, scan
from files import HEADER, MADE, failed, requests, row, run, told
from keys import keyed
from orders import ONE, move, new_order, order_row, position_row
from vouchers import shown

THIS = 3
# The versions before it, each with what makes its tables.
OLDER = {}
for number in range(1, THIS):
    with open(Path(__file__).parent / f"version_{number}.sql", encoding="ascii") as it:
        OLDER[number] = OLDER.get(number - 1, "") + it.read()
# A quota as it was answered then, a voucher, and an order.
OLD_QUOTA = {1: '{"id":1,"items":[1],"name":"A","size":9,"variations":[]}', 2: quota_row(1, "A", 9, "1", releases="true")}
OLD_VOUCHER = ('{"allow_ignore_quota":false,"block_quota":true,"code":"CLUB","comment":"","id":1,"item":1,"max_usages":2,"price_mode":"percent",'
               '"quota":null,"redeemed":0,"tag":"","valid_until":null,"value":"50.00","variation":null}')
OLD_ORDER = order_row([position_row(2, 8, order=2, code="AAAAC")], code="AAAAC")


def rows_at(version, made):
    """The rows of a shop of a version in which all was done at a moment, table by table."""
    due = made + 14 * 86400
    kept = {"q": OLD_QUOTA[version], "v": OLD_VOUCHER, "o": OLD_ORDER}
    rows = {
        "shop": [(1, version, "house", "hall", made, 2, 1, 2, 2, 2, 3, 3, 2, 2, 3, 2)],
        "items": [(1, "Stalls", 2300, 1, 0)],
        "quotas": [(1, "A", 9)],
        "quota_items": [(1, 1)],
        "vouchers": [(1, "CLUB", 2, None, 1, 0, "percent", 5000, 1, None, None, "", "", 1)],
        "cart_positions": [(1, "c@api", 1, None, 2300, made, made + 1800, None)],
        "orders": [(1, "a@x", "p", made, due), (2, "a@x", "n", made, due)],
        "order_positions": [(1, 1, 1, 1, None, 1150, 1, f"{7:032x}z1z1"), (2, 2, 1, 1, None, 2300, None, f"{8:032x}z2z1")],
        "waiting": [(1, "w@x", 1, None, 0, made, None)],
        "checkin_lists": [(1, "Door", 1, 0, 0, 1)],
        "checkins": [(1, 1, 1, "entry", made, None), (2, 1, 1, "exit", made, None)],
        "quota_count": [(1, 1, 1, 1, 1, 1)],
        "tokens": [(1, sha256(b"feed").digest())],
        "kept": [(1, key.encode(), made, 201, "", body.encode()) for key, body in kept.items()],
    }
    return rows if version < 2 else {**rows, "quota_release": [(1,)], "quota_exited": [(1, 1)]}


def literal(value):
    """A value as SQL writes it."""
    if value is None:
        return "NULL"
    if isinstance(value, bytes):
        return f"x'{value.hex()}'"
    return str(value) if isinstance(value, int) else "'" + value.replace("'", "''") + "'"


def made_by(version, rows):
    """The statements that make a file of a version with these rows."""
    inserted = [f"INSERT INTO {table} VALUES ({', '.join(map(literal, it))});\n" for table, all_of in rows.items() for it in all_of]
    return f"BEGIN;\n{OLDER[version]}{''.join(inserted)}COMMIT;\n"


def altered(*statements):
    return "rows", "".join(f"{it};\n" for it in statements), ""


def old_file(version):
    return "rows", made_by(version, rows_at(version, MADE)), ""


NEWEST = f"version {THIS}\n"
migrated = told("migrate", NEWEST)
new_club = '{"code":"CLUB","max_usages":2,"block_quota":true,"price_mode":"percent","value":"50.00","item":1}'


def club(**given):
    """The voucher as it is shown now."""
    return shown(1, "CLUB", **{"max_usages": 2, "redeemed": 1, "block_quota": "true", "price_mode": '"percent"', "value": '"50.00"', "item": 1, **given})


def asked_again(version):
    """The kept answers, byte by byte, and the quota and the voucher as they are shown and counted now."""
    releases = version > 1
    return [
        (T, keyed("/quotas/", '{"name":"A","size":9,"items":[1]}', "q"), answer(201, OLD_QUOTA[version])),
        (T, keyed("/vouchers/", new_club, "v"), answer(201, OLD_VOUCHER)),
        (T, keyed("/orders/", ONE, "o"), answer(201, OLD_ORDER)),
        (T, get("/quotas/1/"), answer(200, quota_row(1, "A", 9, "1", releases="true" if releases else "false"))),
        (T, get("/vouchers/1/"), club()),
        (T, ask, availability(9, 5 if releases else 4, blocking=1, carts=1, paid=1, pending=1, waiting=1, exited=int(releases))),
    ]


# A quota that releases places counts at once that the paid ticket is out.
releasing = [
    (T, post("/quotas/", '{"name":"B","size":9,"items":[1],"release_after_exit":true}'), answer(201, quota_row(2, "B", 9, "1", releases="true"))),
    (T, get("/quotas/2/availability/"), availability(9, 5, blocking=1, carts=1, paid=1, pending=1, waiting=1, exited=1)),
]


def first_order(status):
    """The order at half the price, as it is shown."""
    return answer(200, order_row([position_row(1, 7, price="11.50", voucher=1)], status=status, total="11.50"))


def spending(tick):
    """Nothing is spent of the voucher by the order that was there, nor when that is revived. What a new one spends counts."""
    return [
        (T, patch("/vouchers/1/", '{"budget":"0.00"}'), club(budget='"0.00"')),
        (T, move("mark_pending"), first_order("n")),
        (T, move("mark_expired"), first_order("e")),
        (T, move("mark_paid"), first_order("p")),
        (T, patch("/vouchers/1/", '{"budget":"1.50"}'), club(budget='"1.50"')),
        (T, new_order('{"email":"a@x","positions":[{"item":1,"voucher":"CLUB"}]}'),
         answer(201, order_row([position_row(3, tick + 6, order=3, code="AAAAD", price="21.50", voucher=1)], code="AAAAD", total="21.50"))),
        (T, patch("/vouchers/1/", '{"budget":"1.49"}'), refused(34, "Voucher budget is spent.")),
    ]


def refused_with(number):
    """What each command but `migrate` tells of a file that it refuses."""
    fault = failed(number)
    yield from (told(it, fault) for it in ("open", "sales", "door", "token till"))
    yield "requests", f"| {T}\n{ask}", fault
    yield "import", f"{HEADER}\n{row('A1', item=1)}\n", fault


def left_alone(number, broken, mended):
    """A file that `migrate` refuses, and leaves as it is: once it is mended it is taken."""
    return [altered(*broken), told("migrate", failed(number)), altered(*mended)]


def left_as(version, number, other):
    """The same of a file that says that it is of another version."""
    return left_alone(number, [f"UPDATE shop SET version = {other}"], [f"UPDATE shop SET version = {version}"])


def refusals_of(version):
    """What is refused of a file of any older version."""
    yield from refused_with("61")
    for number, other in ("61", 0), ("61", THIS + 1), *(("60", it) for it in range(version + 1, THIS + 1)):
        yield from left_as(version, number, other)
    yield from left_alone("62.1", ["UPDATE shop SET moment = -1"], [f"UPDATE shop SET moment = {MADE}"])
    yield from left_alone("62.6", ["UPDATE vouchers SET max_usages = 1, redeemed = 2", "UPDATE order_positions SET voucher_id = 1"],
                          ["UPDATE vouchers SET max_usages = 2, redeemed = 1", "UPDATE order_positions SET voucher_id = NULL WHERE id = 2"])
    yield from left_alone("62.7", ["UPDATE quota_count SET paid = 2"], ["UPDATE quota_count SET paid = 1"])
    yield from left_alone("63", ["CREATE TABLE voucher_spent (voucher_id INTEGER PRIMARY KEY) STRICT"], ["DROP TABLE voucher_spent"])
    yield told("open", failed("61"))


def brought(version):
    """What a file holds that was brought to this version, and what of it is counted."""
    first = asked_again(version)
    return [
        migrated, migrated, told("open", NEWEST), requests(first),
        told("spoil UPDATE quota_exited SET exited = exited + 1", failed("62.7")),
        told("spoil UPDATE voucher_spent SET spent = 1", failed("62.7")),
        told("spoil INSERT INTO voucher_budget VALUES (1, 0)", NEWEST),
        told("spoil INSERT INTO position_discount VALUES (1, 1150)", failed("62.7")),
        told("spoil INSERT INTO position_discount VALUES (1, 1150); UPDATE voucher_spent SET spent = 1150", NEWEST),
        told("spoil INSERT INTO position_discount VALUES (1, 1150); UPDATE voucher_spent SET spent = 1150; INSERT INTO voucher_budget VALUES (1, 1149)",
             failed("62.8")),
        told("sales", "     1       1       1       0       0          11.50  Stalls\n total       1       1       0       0          11.50\n"),
        told("door", "     1         1         1         0  Stalls\n total         1         1         0\n"),
        requests(releasing + spending(len(first) + len(releasing)), [T] * len(first)),
        told("open", NEWEST),
    ]


run("a_file_of_version_1", [
    old_file(1), *refusals_of(1),
    *left_alone("63", ["CREATE TABLE quota_exited (quota_id INTEGER PRIMARY KEY) STRICT"], ["DROP TABLE quota_exited"]),
    *brought(1),
    told("spoil INSERT INTO quota_release VALUES (1)", failed("62.7")),
    told("spoil INSERT INTO quota_release VALUES (1); UPDATE quota_exited SET exited = 1", NEWEST),
], new=False)

run("a_file_of_version_2", [
    old_file(2), *refusals_of(2),
    *left_as(2, "63", 1),
    *left_alone("62.7", ["UPDATE quota_exited SET exited = 0"], ["UPDATE quota_exited SET exited = 1"]),
    *left_alone("62.7", ["DELETE FROM quota_exited"], ["INSERT INTO quota_exited VALUES (1, 1)"]),
    *left_alone("62.7", ["DELETE FROM quota_release"], ["INSERT INTO quota_release VALUES (1)"]),
    *brought(2),
    told("spoil DELETE FROM quota_release", failed("62.7")),
    told("spoil DELETE FROM quota_release; UPDATE quota_exited SET exited = 0", NEWEST),
], new=False)
