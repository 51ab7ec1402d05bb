"""Shops in files: what is done with them one after another, and what each deed tells.

A run is a list of deeds over the files of a shop, each with what it tells; `src/deeds.rt` has the verbs. Nothing here comes from the
program.
"""

from forms import *
from doors import admitted, list_row, new_list, scan
from keys import keyed
from orders import ONE, move, new_order, order_row, position_row
from vouchers import half_past, made, new_voucher, shown
from waiting import joined

TILL = "Authorization: Token till\r\n"
HEADER = "code,max_usages,valid_until,block_quota,allow_ignore_quota,price_mode,value,item,variation,quota,tag,comment"
LAST_ID = 9_007_199_254_740_991
ADVICE = {
    60: "This file is no shop's; init wants a name that no file has. Name another file.",
    61: "The file's tables are of another version. boxoffice --version names this program's.",
    62: "Another program wrote to this file: it breaks a rule, which docs/FILE.md has by this number. Keep it, and put the last copy back.",
    63: "The store refused the file. Does another program have it open? Is the disk full? Who may write there?",
}
runs = []


def requests(exchanges, before=()):
    """Requests over a file that is opened once, behind ticks that were told before."""
    moments = " ".join([*before, "|"] + [moment for moment, _, _ in exchanges])
    return "requests", f"{moments}\n" + "".join(sent for _, sent, _ in exchanges), "ended\n" + "".join(told for _, _, told in exchanges)


def reopened(exchanges):
    """Requests over a file that is closed and opened again between any two of them."""
    moments = [moment for moment, _, _ in exchanges]
    return [requests([it], moments[:at]) for at, it in enumerate(exchanges)]


def told(verb, text):
    return verb, "", text


def token(name, number):
    return told(f"token {name}", f"token {number}\n")


def imported(lines, told):
    return "import", "".join(f"{line}\n" for line in [HEADER, *lines]), "".join(f"{line}\n" for line in told)


def row(code, uses=1, item="", variation="", quota=""):
    return f"{code},{uses},,false,false,none,,{item},{variation},{quota},,"


def failed(number):
    return f"fault {number}: {ADVICE[int(number[:2])]}\n"


NEW = [told("init", "made\n"), token("feed", 1)]


def run(name, deeds, new=True):
    """A run over a new shop, or over no file."""
    runs.append((name, [*NEW, *deeds] if new else deeds))


# Keys.

for name, exchanges, _ in cases:
    if name in ("a_refusal_is_told_again", "a_key_lasts_a_day"):
        run(f"reopened_{name}", reopened(exchanges))

# Two tokens.


def order_body(two_tokens):
    return keyed("/orders/", ONE, "k", **({"token": TILL} if two_tokens else {}))


first_of_two = answer(201, order_row([position_row(1, 3)]))
second_of_two = answer(201, order_row([position_row(2, 4, order=2, code="AAAAC")], code="AAAAC"))
# The same order under the same key from two tokens.
two_orders = ("two_tokens_order_under_one_key", setup(2) + [
    (T, order_body(False), first_of_two),
    (T, order_body(True), second_of_two),
    (T, order_body(False), first_of_two),
    (T, order_body(True), second_of_two),
], "ended")

run(two_orders[0], [token("till", 2), *reopened(two_orders[1])])

# Vouchers of a file.

VERDICTS = [
    (row("A1", item=1), "added"),
    (row("A1", item=1), "same"),
    (row("A1", 2, item=1), "other"),
    (row("B1", item=9), "refused 10"),
    (row("B2", item=1, variation=9), "refused 11"),
    (row("B3", quota=9), "refused 13"),
    (row("C1", item=LAST_ID), "refused 10"),
    (row("C2", item=1, variation=LAST_ID), "refused 11"),
    (row("C3", quota=LAST_ID), "refused 13"),
]

of_club = {"max_usages": 3, "block_quota": "true", "price_mode": '"percent"', "value": '"33.33"', "quota": 1}

run("vouchers_of_a_file", [
    requests(setup(3)),
    imported([line for line, _ in VERDICTS], [f"{line.split(',')[0]} {verdict}" for line, verdict in VERDICTS]),
    imported(["CLUB,3,,true,false,percent,33.33,,,1,,"], ["CLUB added"]),
    imported(["CLUB,3,,true,false,percent,33.33,,,1,,"], ["CLUB same"]),
    imported(["CLUB,4,,true,false,percent,33.33,,,1,,"], ["CLUB other"]),
    requests([(T, get("/vouchers/2/"), shown(2, "CLUB", **of_club))]),
    # no file has a budget, nor is one compared
    requests([(T, patch("/vouchers/2/", '{"budget":"9.00"}'), shown(2, "CLUB", budget='"9.00"', **of_club))]),
    imported(["CLUB,3,,true,false,percent,33.33,,,1,,"], ["CLUB same"]),
    imported([row("A1", item=1), "C4,1,,maybe,false,none,,1,,,,"], [unread(2, 4)]),
    imported([row("D1", item=0)], [unread(1, 8)]),
    imported([row("D2", item=LAST_ID + 1)], [unread(1, 8)]),
    imported([row("D3", item=1, variation=0)], [unread(1, 9)]),
    imported([row("D4", item=1, variation=LAST_ID + 1)], [unread(1, 9)]),
    imported([row("D5", quota=0)], [unread(1, 10)]),
    imported([row("D6", quota=LAST_ID + 1)], [unread(1, 10)]),
    requests([(T, get("/vouchers/"), listed("/vouchers/", 2, [
        voucher_row(1, "A1", item=1),
        voucher_row(2, "CLUB", budget='"9.00"', **of_club)]))]),
])

# Reports.

two_paid = new_order('{"email":"a@x","status":"p","positions":[{"item":1},{"item":1}]}')
cancelled = answer(200, order_row([position_row(4, 5, order=3, code="AAAAD")], code="AAAAD", status="c"))

run("reports_on_a_file", [
    requests(setup(9) + [
        (T, two_paid, answer(201, order_row([position_row(1, 3), position_row(2, 3, place=2)], status="p", total="46.00"))),
        (T, new_order(ONE), answer(201, order_row([position_row(3, 4, order=2, code="AAAAC")], code="AAAAC"))),
        (T, new_order(ONE), answer(201, order_row([position_row(4, 5, order=3, code="AAAAD")], code="AAAAD"))),
        (T, move("mark_canceled", "AAAAD"), cancelled),
        (T, new_list(), answer(201, list_row(1))),
        (T, scan(), admitted()),
        (T, scan('{"type":"exit"}'), admitted()),
    ]),
    told("sales", "     1       2       1       0       1          46.00  Stalls\n total       2       1       0       1          46.00\n"),
    told("door", "     1         2         1         0  Stalls\n total         2         1         0\n"),
])

# Reports beside wide counts: 1,001 paid positions at the highest price, one of which entered.

PRICE = 9_999_999_999
ORDERS = (500, 500, 1)
MADE = 1_777_629_600


def statements():
    places = [(number, place) for number, count in enumerate(ORDERS, 1) for place in range(1, count + 1)]
    yield f"INSERT INTO items VALUES (1, 'Box', {PRICE}, 1, 0)"
    for number in range(1, len(ORDERS) + 1):
        yield f"INSERT INTO orders VALUES ({number}, NULL, 'p', {MADE}, {MADE})"
    for at, (number, place) in enumerate(places, 1):
        yield f"INSERT INTO order_positions VALUES ({at}, {number}, {place}, 1, NULL, {PRICE}, NULL, '{number:032x}z{number}z{place}')"
    yield "INSERT INTO checkin_lists VALUES (1, 'Door', 1, 0, 0, 0)"
    yield f"INSERT INTO checkins VALUES (1, 1, 1, 'entry', {MADE}, NULL)"
    yield f"UPDATE shop SET next_item = 2, next_order = {len(ORDERS) + 1}, next_position = {len(places) + 1}, next_list = 2, next_checkin = 2"


def sales(first, name=""):
    """The amount is wider than its column, and a blank stands before it."""
    paid = sum(ORDERS)
    return f"{first:>6} {paid:>7} {0:>7} {0:>7} {0:>7} {paid * PRICE // 100:>11}.{paid * PRICE % 100:02}{name}\n"


def door(first, name=""):
    return f"{first:>6} {sum(ORDERS):>9} {1:>9} {1:>9}{name}\n"


run("reports_beside_wide_counts", [
    ("rows", "BEGIN;\n" + "".join(f"{it};\n" for it in statements()) + "COMMIT;\n", ""),
    told("sales", sales(1, "  Box") + sales("total")),
    told("door", door(1, "  Box") + door("total")),
])

# Damaged files.


def paid(number, tick, code, price, voucher="null", item=1):
    """An order of one position that was paid when it was made, as it is shown."""
    row = position_row(number, tick, order=number, code=code, price=price, item=item, voucher=voucher)
    return answer(201, order_row([row], code=code, status="p", total=price))


def pay(item, voucher):
    return new_order(f'{{"email":"a@x","status":"p","positions":[{{"item":{item},"voucher":"{voucher}"}}]}}')


some_rows = ("a_shop_of_some_rows", setup(9) + [
    (T, post("/items/", '{"name":"Balcony","default_price":"23.00"}'), item(2, "Balcony", "23.00")),
    (T, post("/quotas/", '{"name":"B","size":9,"items":[2],"variations":[]}'), answer(201, quota_row(2, "B", 9, items="2"))),
    (T, new_voucher('{"code":"CLUB","max_usages":2,"block_quota":true,"price_mode":"subtract","value":"3.00","item":1,"budget":"5.00"}'),
     made(1, "CLUB", max_usages=2, block_quota="true", price_mode='"subtract"', value='"3.00"', item=1, budget='"5.00"')),
    (T, new_voucher('{"code":"HIGH","item":2}'), made(2, "HIGH", item=2)),
    (T, pay(1, "CLUB"), paid(1, 7, "AAAAB", "20.00", voucher=1)),
    (T, pay(1, "CLUB"), paid(2, 8, "AAAAC", "21.00", voucher=1)),
    (T, keyed("/orders/", ONE, "k"), answer(201, order_row([position_row(3, 9, order=3, code="AAAAD")], code="AAAAD"))),
    (T, hold, cart(1, 10, T, half_past)),
    (T, new_list(), answer(201, list_row(1))),
    (T, scan('{"nonce":"n1"}'), admitted(position_row(1, 7, price="20.00", voucher=1))),
    (T, post("/items/", '{"name":"Box","default_price":"40.00","variations":[{"value":"Left"}]}'),
     answer(201, item_row(3, "Box", "40.00", variations=[variation_row(1, "Left", "40.00")]))),
    (T, post("/quotas/", '{"name":"C","size":0,"items":[3],"variations":[1]}'), answer(201, quota_row(3, "C", 0, items="3", variations="1"))),
    (T, post("/waitinglistentries/", '{"email":"w@x","item":3,"variation":1}'), joined(1, "w@x", item=3, variation=1)),
], "ended")

run("damaged_files", [
    requests(some_rows[1]),
    told("open", "version 3\n"),
    told("spoil UPDATE items SET name = 'Stalls'", "version 3\n"),
    told("spoil DROP TABLE kept", failed("60")),
    told("spoil UPDATE shop SET version = 9", failed("61")),
    told("spoil UPDATE shop SET moment = -1", failed("62.1")),
    told("spoil UPDATE items SET name = CAST(x'5374610a6c6c73' AS TEXT) WHERE id = 1", failed("62.2")),
    told("spoil UPDATE shop SET next_order = 3", failed("62.3")),
    told("spoil UPDATE vouchers SET item_id = NULL WHERE id = 1", failed("62.4")),
    told("spoil UPDATE order_positions SET voucher_id = 2 WHERE id = 1", failed("62.4")),
    told("spoil DELETE FROM order_positions WHERE id = 3", failed("62.5")),
    told("spoil UPDATE vouchers SET max_usages = 1 WHERE id = 1", failed("62.6")),
    told("spoil UPDATE quota_count SET paid = paid + 1 WHERE quota_id = 1", failed("62.7")),
    told("spoil UPDATE quota_exited SET exited = exited + 1 WHERE quota_id = 1", failed("62.7")),
    told("spoil DELETE FROM quota_exited WHERE quota_id = 1", failed("62.7")),
    told("spoil INSERT INTO quota_release VALUES (1)", "version 3\n"),
    told("spoil DROP TABLE quota_exited", failed("60")),
    told("spoil UPDATE voucher_spent SET spent = spent + 1 WHERE voucher_id = 1", failed("62.7")),
    told("spoil DELETE FROM voucher_spent WHERE voucher_id = 2", failed("62.7")),
    told("spoil UPDATE position_discount SET discount = discount + 1 WHERE position_id = 1", failed("62.7")),
    told("spoil DELETE FROM position_discount", failed("62.7")),
    told("spoil UPDATE voucher_budget SET budget = -1", failed("62.2")),
    told("spoil UPDATE position_discount SET discount = 10000000000", failed("62.2")),
    told("spoil UPDATE voucher_budget SET budget = budget - 1", failed("62.8")),
    told("spoil UPDATE voucher_budget SET budget = budget - 1; UPDATE voucher_spent SET spent = spent - 1 WHERE voucher_id = 1", failed("62.7")),
    told("spoil INSERT INTO voucher_budget VALUES (2, 0)", "version 3\n"),
    told("spoil DELETE FROM voucher_budget", "version 3\n"),
    told("spoil DELETE FROM position_discount; UPDATE voucher_spent SET spent = 0", "version 3\n"),
    *(told(f"spoil DROP TABLE {it}", failed("60")) for it in ("voucher_budget", "voucher_spent", "position_discount")),
    told("open", "version 3\n"),
])


def deed_text(deed):
    verb, text, _ = deed
    assert not set("%~") & set(verb + text)
    return f"%{verb}\n{text}"


def data():
    """The files that the program reads, by name."""
    return {
        "runs": "".join(f"{name}\n" for name, _ in runs),
        **{f"{name}.run": "".join(map(deed_text, deeds)) for name, deeds in runs},
    }


def output():
    """What the program prints of the runs."""
    return "".join(f"== {name}: over files in memory\n" + "".join(f"-- {verb}\n{told}\n" for verb, _, told in deeds) for name, deeds in runs)
