"""Keys: a write is carried out once for each key of a token, and what it was told is told again for a day."""

from forms import *
from orders import ONE, move, new_order, one, order_row, position_row

NEXT_DAY = "2026-05-02T10:00:00Z"
LAST_SECOND = "2026-05-02T09:59:59Z"


def key(text):
    return f"X-Idempotency-Key: {text}\r\n"


def keyed(path, body, text, **more):
    return post(path, body, fields=key(text), **more)


ordered_one = answer(201, order_row([position_row(1, 3)]))

case("a_refusal_is_told_again", setup(1) + [
    (T, move("mark_paid", fields=key("k1")), NOT_FOUND),
    (T, new_order(ONE), answer(201, order_row([position_row(1, 4)]))),
    (T, move("mark_paid", fields=key("k1")), NOT_FOUND),
    (T, move("mark_paid", fields=key("k2")), one("p", tick=4)),
    (T, move("mark_paid", fields=key("k2")), one("p", tick=4)),
])

case("a_key_lasts_a_day", setup(1) + [
    (T, keyed("/orders/", ONE, "k"), ordered_one),
    (LAST_SECOND, keyed("/orders/", ONE, "k"), ordered_one),
    (LAST_SECOND, get("/orders/"), listed("/orders/", 1, [order_row([position_row(1, 3)])])),
    (NEXT_DAY, keyed("/orders/", ONE, "k"), sold_out(1)),
    (NEXT_DAY, patch("/quotas/1/", '{"size":2}'), answer(200, quota_row(1, "A", 2, items="1"))),
    ("2026-05-03T09:59:59Z", keyed("/orders/", ONE, "k"), sold_out(1)),
    ("2026-05-03T10:00:00Z", keyed("/orders/", ONE, "k"),
     answer(201, order_row([position_row(2, 9, order=2, code="AAAAC")], code="AAAAC", made="2026-05-03T10:00:00Z", expires="2026-05-17T10:00:00Z"))),
])

case("a_repeat_may_ask_for_anything", setup(1) + [
    (T, keyed("/cartpositions/", '{"item":1}', "k"), cart(1, 3, T, "2026-05-01T10:30:00Z")),
    (T, keyed("/cartpositions/", '{"item":9}', "k"), cart(1, 3, T, "2026-05-01T10:30:00Z")),
    (T, keyed("/cartpositions/", "{", "k"), cart(1, 3, T, "2026-05-01T10:30:00Z")),
    (T, delete("/cartpositions/1/", fields=key("k")), cart(1, 3, T, "2026-05-01T10:30:00Z")),
    (T, keyed("/items/", "{}", "k"), cart(1, 3, T, "2026-05-01T10:30:00Z")),
    (T, keyed("/nowhere/", "", "k"), cart(1, 3, T, "2026-05-01T10:30:00Z")),
    (T, ask, left(1, 1)),
])

case("a_key_that_was_first_on_an_unknown_path", [
    (T, keyed("/nowhere/", "{}", "k"), NOT_FOUND),
    (T, keyed("/items/", '{"name":"Stalls","default_price":"23.00"}', "k"), NOT_FOUND),
    (T, get("/items/1/"), NOT_FOUND),
    (T, new_item, item(1, "Stalls", "23.00")),
])

case("keys_are_of_a_token", [
    (T, keyed("/items/", '{"name":"Stalls","default_price":"23.00"}', "k", token="Authorization: Token other\r\n"), detail(401, "Invalid token.")),
    (T, keyed("/items/", '{"name":"Stalls","default_price":"23.00"}', "k"), item(1, "Stalls", "23.00")),
    (T, keyed("/items/", '{"name":"Stalls","default_price":"23.00"}', "k", token="Authorization: Token other\r\n"), detail(401, "Invalid token.")),
    (T, keyed("/items/", "{}", "k", token=""), detail(401, "Authentication credentials were not provided.")),
    (T, keyed("/items/", "{}", "k"), item(1, "Stalls", "23.00")),
])

not_allowed = detail(405, 'Method \\"POST\\" not allowed.', allow="GET")
case("a_method_that_is_not_allowed_is_told_again", [
    (T, keyed("/quotas/1/availability/", "{}", "k"), not_allowed),
    (T, keyed("/items/", '{"name":"Stalls","default_price":"23.00"}', "k"), not_allowed),
    (T, get("/items/1/"), NOT_FOUND),
])

case("a_method_that_reads_has_no_key", [
    (T, request("PUT", PATH + "/items/", fields=key("k")), detail(405, 'Method \\"PUT\\" not allowed.', allow="GET, POST")),
    (T, keyed("/items/", '{"name":"Stalls","default_price":"23.00"}', "k"), item(1, "Stalls", "23.00")),
    (T, request("PUT", PATH + "/items/", fields=key("k")), detail(405, 'Method \\"PUT\\" not allowed.', allow="GET, POST")),
])

case("a_repeat_closes_where_it_asks_for_it", [
    (T, keyed("/items/", '{"name":"Stalls","default_price":"23.00"}', "k"), item(1, "Stalls", "23.00")),
    (T, post("/items/", "{}", fields=key("k") + "Connection: close\r\n"), item(1, "Stalls", "23.00").replace("\r\n\r\n", "\r\nConnection: close\r\n\r\n", 1)),
    ("", new_item, ""),
])

case("a_fault_is_told_again", [
    (T, keyed("/items/", "{", "k"), detail(400, "JSON parse error.")),
    (T, keyed("/items/", '{"name":"Stalls","default_price":"23.00"}', "k"), detail(400, "JSON parse error.")),
    (T, keyed("/items/", "{}", "other"), fault("name", REQUIRED)),
    (T, keyed("/items/", '{"name":"Stalls","default_price":"23.00"}', "other"), fault("name", REQUIRED)),
    (T, new_item, item(1, "Stalls", "23.00")),
])

case("a_read_has_no_key", setup(1) + [
    (T, get("/quotas/1/availability/", fields=key("k")), left(1, 0)),
    (T, keyed("/cartpositions/", '{"item":1}', "k"), cart(1, 4, T, "2026-05-01T10:30:00Z")),
    (T, get("/quotas/1/availability/", fields=key("k")), left(1, 1)),
    (T, get("/quotas/9/availability/", fields=key("k")), NOT_FOUND),
    (T, keyed("/cartpositions/", '{"item":1}', "k"), cart(1, 4, T, "2026-05-01T10:30:00Z")),
])

case("no_key_and_the_first_key", setup(3) + [
    (T, keyed("/cartpositions/", '{"item":1}', ""), cart(1, 3, T, "2026-05-01T10:30:00Z")),
    (T, keyed("/cartpositions/", '{"item":1}', ""), cart(2, 4, T, "2026-05-01T10:30:00Z")),
    (T, post("/cartpositions/", '{"item":1}', fields=key("a") + key("b")), cart(3, 5, T, "2026-05-01T10:30:00Z")),
    (T, keyed("/cartpositions/", '{"item":1}', "a"), cart(3, 5, T, "2026-05-01T10:30:00Z")),
    (T, keyed("/cartpositions/", '{"item":1}', "b"), sold_out(1)),
    (T, post("/cartpositions/", '{"item":1}', fields="x-idempotency-key: a\r\n"), cart(3, 5, T, "2026-05-01T10:30:00Z")),
    (T, keyed("/cartpositions/", '{"item":1}', "A"), sold_out(1)),
])

case("a_repeat_changes_no_moment", setup(1) + [
    (T, keyed("/cartpositions/", '{"item":1}', "k"), cart(1, 3, T, "2026-05-01T10:30:00Z")),
    ("2026-05-01T10:30:01Z", keyed("/cartpositions/", '{"item":1}', "k"), cart(1, 3, T, "2026-05-01T10:30:00Z")),
    ("2026-05-01T10:29:10Z", ask, left(1, 1)),
])
