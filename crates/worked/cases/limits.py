"""Requests as great as they may be: long lists, long texts, deep and long bodies, many uses. Their long parts are made here."""

from bulk import BULK, added, results
from forms import *
from orders import in_14_days, new_order, order_row, position_row

half_past = "2026-05-01T10:30:00Z"


def in_cart(number, cart_id):
    return (f'{{"cart_id":"{cart_id}","datetime":"{T}","expires":"{half_past}","id":{number},"item":1,"price":"23.00",'
            '"variation":null,"voucher":null}')


def entry(cart_id):
    return f'{{"item":1,"cart_id":"{cart_id}"}}'


def many(entries):
    return post(BULK, "[" + ",".join(entries) + "]")


# 500 cart positions in one cart, 100 in another, 400 in a third and one more in a cart of its own.
first_rows = [in_cart(number, "c@api") for number in range(1, 501)]
further_rows = [in_cart(number, "d@api" if number <= 600 else "e@api") for number in range(501, 1001)]
last_row = cart_row(1001, 5, T, half_past)

case("an_order_of_500_positions_consumes_600_of_1001_cart_positions", setup(1001) + [
    (T, many([entry("c@api")] * 500), results(*map(added, first_rows))),
    (T, many([entry("d@api")] * 100 + [entry("e@api")] * 400), results(*map(added, further_rows))),
    (T, hold, answer(201, last_row)),
    (T, hold, sold_out(1)),
    (T, get("/cartpositions/?page=20"), listed("/cartpositions/", 1001, further_rows[-50:], following=21, previous=19)),
    (T, get("/cartpositions/?page=21"), listed("/cartpositions/", 1001, [last_row], previous=20)),
    (T, get("/cartpositions/?page=22"), INVALID_PAGE),
    (T, new_order('{"positions":[' + ",".join(['{"item":1}'] * 500) + '],"consume_carts":["d@api","c@api"]}'),
     answer(201, order_row([position_row(number, 10, place=number) for number in range(1, 501)], total="11500.00", email="null"))),
    (T, ask, availability(1001, 100, carts=401, pending=500)),
    (T, get("/cartpositions/?page=9"), listed("/cartpositions/", 401, [last_row], previous=8)),
    (T, get("/cartpositions/600/"), NOT_FOUND),
    (T, get("/cartpositions/601/"), answer(200, further_rows[100])),
])

letters = [variation_row(number, f"v{number}", "1.00") for number in range(1, 151)]
rising = ",".join(str(number) for number in range(1, 151))
falling = ",".join(str(number) for number in range(150, 0, -1))

case("a_quota_of_150_variations", [
    (T, post("/items/", '{"name":"X","default_price":"1","variations":[' + ",".join(f'{{"value":"v{number}"}}' for number in range(1, 151)) + "]}"),
     answer(201, item_row(1, "X", "1.00", variations=letters))),
    (T, post("/quotas/", f'{{"name":"A","size":2,"items":[1],"variations":[{falling},75,150]}}'), answer(201, quota_row(1, "A", 2, "1", rising))),
    (T, post("/quotas/", f'{{"name":"B","size":2,"items":[1],"variations":[{falling},151]}}'), refused(11, "Variation not found.")),
    (T, post("/cartpositions/", '{"item":1,"variation":150}'), answer(201, cart_row(1, 4, T, half_past, "1.00", variation=150))),
    (T, post("/cartpositions/", '{"item":1,"variation":1}'), answer(201, cart_row(2, 5, T, half_past, "1.00", variation=1))),
    (T, post("/cartpositions/", '{"item":1,"variation":75}'), sold_out(1)),
])

front, back = '{"name":"Stalls","default_price":"23.00","x":"', '"}'

case("a_body_of_120_000_bytes", [
    (T, post("/items/", front + "a" * (120_000 - len(front + back)) + back), item(1, "Stalls", "23.00")),
    (T, get("/items/1/"), answer(200, item_row(1, "Stalls", "23.00"))),
])


def ordered_by(email):
    return new_order(f'{{"email":"{email}","positions":[{{"item":1}}]}}')


case("an_email_of_254_bytes", setup(9) + [
    (T, ordered_by("a" * 254), answer(201, order_row([position_row(1, 3)], email='"' + "a" * 254 + '"'))),
    (T, ordered_by("a" * 255), fault("email", TEXT)),
    (T, ordered_by("ä" * 127), answer(201, order_row([position_row(2, 5, order=2, code="AAAAC")], code="AAAAC", email='"' + "ä" * 127 + '"'))),
    (T, ordered_by("ä" * 127 + "a"), fault("email", TEXT)),
])

million = dict(max_usages=1000000, block_quota="true", allow_ignore_quota="true", quota=1)
asked = '"max_usages":1000000,"block_quota":true,"allow_ignore_quota":true,"quota":1'

case("two_vouchers_block_a_million_places_each", setup(1) + [
    (T, post("/vouchers/", f'{{"code":"A",{asked}}}'), answer(201, voucher_row(1, "A", **million))),
    (T, post("/vouchers/", f'{{"code":"B",{asked}}}'), answer(201, voucher_row(2, "B", **million))),
    (T, ask, availability(1, 0, blocking=2000000)),
    (T, hold, sold_out(1)),
    (T, post("/cartpositions/", '{"item":1,"voucher":"A"}'), answer(201, cart_row(1, 7, T, half_past, voucher=1))),
    (T, ask, availability(1, 0, blocking=2000000)),
    (T, new_order('{"positions":[{"item":1,"voucher":"B"}]}'), answer(201, order_row([position_row(1, 9, voucher=2)], email="null"))),
    (T, ask, availability(1, 0, blocking=1999999, pending=1)),
    (T, patch("/vouchers/1/", '{"max_usages":1}'), answer(200, voucher_row(1, "A", **{**million, "max_usages": 1}))),
    (T, ask, availability(1, 0, blocking=1000000, pending=1)),
])


def nested(depth):
    return "[" * depth + "]" * depth


NOT_JSON = detail(400, "JSON parse error.")

case("json_nested_127_deep", [
    (T, post("/items/", '{"name":"Stalls","default_price":"23.00","x":' + nested(126) + "}"), item(1, "Stalls", "23.00")),
    (T, post("/items/", '{"name":"Stalls","default_price":"23.00","x":' + nested(127) + "}"), NOT_JSON),
    (T, new_quota(1), quota(1, "A", 1)),
    (T, post(BULK, '[{"item":1,"x":' + nested(126) + "}]"), NOT_JSON),
    (T, post(BULK, '[{"item":1,"x":' + nested(125) + "}]"), results(added(cart_row(1, 5, T, half_past)))),
])
