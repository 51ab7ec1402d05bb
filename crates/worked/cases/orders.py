"""Orders: made out of carts, moved, extended, and refused."""

from forms import *

half_past = "2026-05-01T10:30:00Z"
in_14_days = "2026-05-15T10:00:00Z"
ONE = '{"email":"a@x","positions":[{"item":1}]}'
NO_USES = refused(25, "Voucher has no uses left.")


def position_row(number, tick, order=1, code="AAAAB", place=1, price="23.00", item=1, variation="null", voucher="null"):
    return (f'{{"id":{number},"item":{item},"order":"{code}","positionid":{place},"price":"{price}",'
            f'"secret":"{tick:032x}z{order}z{place}","variation":{variation},"voucher":{voucher}}}')


def order_row(positions, code="AAAAB", made=T, expires=in_14_days, status="n", total="23.00", email='"a@x"'):
    return (f'{{"code":"{code}","datetime":"{made}","email":{email},"expires":"{expires}",'
            f'"positions":[{",".join(positions)}],"status":"{status}","total":"{total}"}}')


def new_order(body):
    return post("/orders/", body)


def move(name, code="AAAAB", body="", **more):
    return post(f"/orders/{code}/{name}/", body, **more)


def extend(end, code="AAAAB"):
    return move("extend", code, f'{{"expires":"{end}"}}')


def wrong_status(letter):
    return answer(400, f'{{"code":42,"detail":"Not possible in this status.","status":"{letter}"}}')


def one(status="n", tick=3, **more):
    """The order of one position that request 3 made, as it is shown."""
    return answer(200, order_row([position_row(1, tick)], status=status, **more))


def ordered(size, tick=3):
    """An item, a quota of that size, and an order of one position."""
    return setup(size) + [(T, new_order(ONE), answer(201, order_row([position_row(1, tick)])))]


case("an_order_is_made_and_paid", setup(1) + [
    (T, move("mark_paid"), NOT_FOUND),
    (T, new_order(ONE), answer(201, order_row([position_row(1, 4)]))),
    (T, ask, availability(1, 0, pending=1)),
    (T, new_order(ONE), sold_out(1)),
    (T, hold, sold_out(1)),
    (T, move("mark_paid"), one("p", tick=4)),
    (T, ask, availability(1, 0, paid=1)),
    (T, get("/orders/AAAAB/"), one("p", tick=4)),
    (T, get("/orders/"), listed("/orders/", 1, [order_row([position_row(1, 4)], status="p")])),
])

case("an_order_is_made_as_paid", setup(2) + [
    (T, new_order('{"email":null,"status":"p","expires":"2026-05-02T00:00:00+02:00","positions":[{"item":1},{"item":1,"price":"7.5"}]}'),
     answer(201, order_row([position_row(1, 3), position_row(2, 3, place=2, price="7.50")],
                           expires="2026-05-01T22:00:00Z", status="p", total="30.50", email="null"))),
    (T, ask, availability(2, 0, paid=2)),
    (T, move("mark_pending"), answer(200, order_row([position_row(1, 3), position_row(2, 3, place=2, price="7.50")],
                                                    expires="2026-05-01T22:00:00Z", status="n", total="30.50", email="null"))),
    (T, ask, availability(2, 0, pending=2)),
    (T, patch("/quotas/1/", '{"size":3}'), answer(200, quota_row(1, "A", 3, items="1"))),
    (T, hold, cart(1, 8, T, half_past)),
    (T, delete("/cartpositions/1/"), gone()),
    (T, ask, availability(3, 1, pending=2)),
])

case("blocked_places_are_for_the_voucher", setup(3) + [
    (T, post("/vouchers/", '{"code":"CLUB","max_usages":3,"block_quota":true,"quota":1}'),
     answer(201, voucher_row(1, "CLUB", max_usages=3, block_quota="true", quota=1))),
    (T, new_order(ONE), sold_out(1)),
    (T, new_order('{"positions":[{"item":1,"voucher":"CLUB"}]}'),
     answer(201, order_row([position_row(1, 5, voucher=1)], email="null"))),
    (T, ask, availability(3, 0, blocking=2, pending=1)),
    (T, new_order('{"positions":[{"item":1,"voucher":"CLUB"}]}'),
     answer(201, order_row([position_row(2, 7, order=2, code="AAAAC", voucher=1)], code="AAAAC", email="null"))),
    (T, new_order('{"positions":[{"item":1,"voucher":"CLUB"}]}'),
     answer(201, order_row([position_row(3, 8, order=3, code="AAAAD", voucher=1)], code="AAAAD", email="null"))),
    (T, new_order('{"positions":[{"item":1,"voucher":"CLUB"}]}'), NO_USES),
    (T, get("/vouchers/1/"), answer(200, voucher_row(1, "CLUB", max_usages=3, block_quota="true", quota=1, redeemed=3))),
    (T, move("mark_canceled", "AAAAC"),
     answer(200, order_row([position_row(2, 7, order=2, code="AAAAC", voucher=1)], code="AAAAC", status="c", email="null"))),
    (T, ask, availability(3, 0, blocking=1, pending=2)),
    (T, new_order(ONE), sold_out(1)),
])

in_cart = '{"item":1,"cart_id":"c@api"}'
taken = '{"email":"a@x","positions":[{"item":1}],"consume_carts":["c@api"]}'


def cart_named(number, name, made=T, expires=half_past, voucher="null"):
    return answer(201, f'{{"cart_id":"{name}","datetime":"{made}","expires":"{expires}","id":{number},'
                       f'"item":1,"price":"23.00","variation":null,"voucher":{voucher}}}')


case("an_order_takes_the_place_of_its_cart", setup(1) + [
    (T, post("/cartpositions/", in_cart), cart_named(1, "c@api")),
    (T, new_order(ONE), sold_out(1)),
    (T, new_order(taken), answer(201, order_row([position_row(1, 5)]))),
    (T, get("/cartpositions/1/"), NOT_FOUND),
    (T, get("/cartpositions/"), listed("/cartpositions/", 0, [])),
    (T, ask, availability(1, 0, pending=1)),
])

late = "2026-05-01T10:30:01Z"
case("a_refused_order_keeps_its_carts", setup(1) + [
    (T, post("/cartpositions/", in_cart), cart_named(1, "c@api")),
    (late, hold, cart(2, 4, late, "2026-05-01T11:00:01Z")),
    (late, new_order(taken), sold_out(1)),
    (late, get("/cartpositions/"), listed("/cartpositions/", 2, [
        f'{{"cart_id":"c@api","datetime":"{T}","expires":"{half_past}","id":1,"item":1,"price":"23.00","variation":null,"voucher":null}}',
        cart_row(2, 4, late, "2026-05-01T11:00:01Z")])),
    (late, get("/orders/"), listed("/orders/", 0, [])),
])

case("carts_that_are_consumed", setup(9) + [
    (T, post("/vouchers/", '{"code":"V","max_usages":2}'), answer(201, voucher_row(1, "V", max_usages=2))),
    (T, post("/cartpositions/", '{"item":1,"cart_id":"c@api","voucher":"V"}'), cart_named(1, "c@api", voucher=1)),
    (T, post("/cartpositions/", '{"item":1,"cart_id":"c@api","voucher":"V"}'), cart_named(2, "c@api", voucher=1)),
    (T, post("/cartpositions/", '{"item":1,"cart_id":"d@api","expires":"2026-05-01T09:00:00Z"}'),
     cart_named(3, "d@api", expires="2026-05-01T09:00:00Z")),
    (T, hold, cart(4, 7, T, half_past)),
    (T, new_order('{"positions":[{"item":1,"voucher":"V"}]}'), NO_USES),
    (T, new_order('{"positions":[{"item":1,"voucher":"V"},{"item":1,"voucher":"V"}],"consume_carts":["c@api","d@api","c@api","nobody"]}'),
     answer(201, order_row([position_row(1, 9, voucher=1), position_row(2, 9, place=2, voucher=1)], total="46.00", email="null"))),
    (T, get("/cartpositions/"), listed("/cartpositions/", 1, [cart_row(4, 7, T, half_past)])),
    (T, get("/vouchers/1/"), answer(200, voucher_row(1, "V", max_usages=2, redeemed=2))),
    (T, ask, availability(9, 6, carts=1, pending=2)),
])

case("an_expired_order_whose_use_was_taken", setup(1) + [
    (T, post("/vouchers/", '{"code":"V"}'), answer(201, voucher_row(1, "V"))),
    (T, new_order('{"email":"a@x","positions":[{"item":1,"voucher":"V"}]}'), answer(201, order_row([position_row(1, 4, voucher=1)]))),
    (T, move("mark_expired"), answer(200, order_row([position_row(1, 4, voucher=1)], status="e"))),
    (T, get("/vouchers/1/"), answer(200, voucher_row(1, "V"))),
    (T, new_order('{"email":"b@x","positions":[{"item":1,"voucher":"V"}]}'),
     answer(201, order_row([position_row(2, 7, order=2, code="AAAAC", voucher=1)], code="AAAAC", email='"b@x"'))),
    (T, move("mark_paid"), NO_USES),
    (T, extend("2026-06-01"), NO_USES),
    (T, move("mark_canceled", "AAAAC"),
     answer(200, order_row([position_row(2, 7, order=2, code="AAAAC", voucher=1)], code="AAAAC", email='"b@x"', status="c"))),
    (T, move("mark_paid"), answer(200, order_row([position_row(1, 4, voucher=1)], status="p"))),
    (T, get("/vouchers/1/"), answer(200, voucher_row(1, "V", redeemed=1))),
])

case("an_expired_order_whose_place_was_taken", ordered(1) + [
    (T, move("mark_expired"), one("e")),
    (T, ask, availability(1, 1)),
    (T, hold, cart(1, 6, T, half_past)),
    (T, move("mark_paid"), sold_out(1)),
    (T, extend("2026-06-01"), sold_out(1)),
    (T, get("/orders/AAAAB/"), one("e")),
    ("2026-05-01T10:30:01Z", move("mark_paid"), one("p")),
    (T, ask, availability(1, 0, paid=1)),
])

case("uses_of_an_expired_order_come_back_once", setup(9) + [
    (T, post("/vouchers/", '{"code":"V","max_usages":2,"block_quota":true,"quota":1}'),
     answer(201, voucher_row(1, "V", max_usages=2, block_quota="true", quota=1))),
    (T, new_order('{"email":"a@x","positions":[{"item":1,"voucher":"V"}]}'), answer(201, order_row([position_row(1, 4, voucher=1)]))),
    (T, new_order('{"email":"b@x","positions":[{"item":1,"voucher":"V"}]}'),
     answer(201, order_row([position_row(2, 5, order=2, code="AAAAC", voucher=1)], code="AAAAC", email='"b@x"'))),
    (T, get("/vouchers/1/"), answer(200, voucher_row(1, "V", max_usages=2, block_quota="true", quota=1, redeemed=2))),
    (T, move("mark_expired"), answer(200, order_row([position_row(1, 4, voucher=1)], status="e"))),
    (T, get("/vouchers/1/"), answer(200, voucher_row(1, "V", max_usages=2, block_quota="true", quota=1, redeemed=1))),
    (T, ask, availability(9, 7, blocking=1, pending=1)),
    (T, move("mark_canceled"), answer(200, order_row([position_row(1, 4, voucher=1)], status="c"))),
    (T, get("/vouchers/1/"), answer(200, voucher_row(1, "V", max_usages=2, block_quota="true", quota=1, redeemed=1))),
    (T, ask, availability(9, 7, blocking=1, pending=1)),
])

case("a_voucher_of_a_paid_order", setup(9) + [
    (T, post("/vouchers/", '{"code":"V","max_usages":2}'), answer(201, voucher_row(1, "V", max_usages=2))),
    (T, new_order('{"email":"a@x","status":"p","positions":[{"item":1,"voucher":"V"}]}'),
     answer(201, order_row([position_row(1, 4, voucher=1)], status="p"))),
    (T, post("/cartpositions/", '{"item":1,"voucher":"V"}'), answer(201, cart_row(1, 5, T, half_past, voucher=1))),
    (T, patch("/vouchers/1/", '{"max_usages":1}'), NO_USES),
    (T, patch("/vouchers/1/", '{"code":"W"}'), forbidden(27, "In use.")),
    (T, delete("/vouchers/1/"), forbidden(27, "In use.")),
    (T, get("/vouchers/1/"), answer(200, voucher_row(1, "V", max_usages=2, redeemed=1))),
    (T, delete("/cartpositions/1/"), gone()),
    (T, move("mark_canceled"), answer(200, order_row([position_row(1, 4, voucher=1)], status="c"))),
    (T, delete("/vouchers/1/"), forbidden(27, "In use.")),
])

case("moves_of_a_pending_order", ordered(4) + [
    (T, move("mark_pending"), wrong_status("n")),
    (T, extend("2026-06-01"), one(expires="2026-06-01T23:59:59Z")),
    (T, extend("2026-06-01T12:00:00.9+02:00"), one(expires="2026-06-01T10:00:00Z")),
    (T, extend("2026-04-01"), one(expires="2026-04-01T23:59:59Z")),
    (T, move("mark_expired"), one("e", expires="2026-04-01T23:59:59Z")),
    (T, ask, availability(4, 4)),
])

case("moves_of_a_paid_order", ordered(4) + [
    (T, move("mark_paid"), one("p")),
    (T, move("mark_paid"), wrong_status("p")),
    (T, move("mark_expired"), wrong_status("p")),
    (T, extend("2026-06-01"), wrong_status("p")),
    (T, move("mark_pending"), one("n")),
    (T, move("mark_paid"), one("p")),
    (T, move("mark_canceled"), one("c")),
    (T, ask, availability(4, 4)),
])

case("moves_of_an_expired_order", ordered(4) + [
    (T, move("mark_expired"), one("e")),
    (T, move("mark_pending"), wrong_status("e")),
    (T, move("mark_expired"), wrong_status("e")),
    (T, extend("2026-06-01"), one("n", expires="2026-06-01T23:59:59Z")),
    (T, ask, availability(4, 3, pending=1)),
    (T, move("mark_expired"), one("e", expires="2026-06-01T23:59:59Z")),
    (T, move("mark_paid"), one("p", expires="2026-06-01T23:59:59Z")),
    (T, ask, availability(4, 3, paid=1)),
])

case("moves_of_a_cancelled_order", ordered(4) + [
    (T, move("mark_canceled"), one("c")),
    (T, move("mark_paid"), wrong_status("c")),
    (T, move("mark_pending"), wrong_status("c")),
    (T, move("mark_expired"), wrong_status("c")),
    (T, move("mark_canceled"), wrong_status("c")),
    (T, extend("2026-06-01"), wrong_status("c")),
    (T, get("/orders/AAAAB/"), one("c")),
])

case("an_expired_order_is_cancelled", ordered(4) + [
    (T, move("mark_expired"), one("e")),
    (T, move("mark_canceled"), one("c")),
    (T, ask, availability(4, 4)),
])

case("too_few_and_too_many", setup("null") + [
    (T, new_order('{"positions":[]}'), refused(43, "No positions.")),
    (T, new_order('{"positions":[' + ",".join(['{"item":1}'] * 501) + "]}"), refused(44, "Too many.")),
    (T, new_order('{"positions":[{"item":1}],"consume_carts":[' + ",".join(['"c@api"'] * 501) + "]}"), refused(44, "Too many.")),
    (T, new_order('{"positions":[],"consume_carts":[' + ",".join(['"c@api"'] * 501) + "]}"), refused(43, "No positions.")),
    (T, new_order('{"positions":[' + ",".join(['{"item":9}'] * 501) + "]}"), refused(44, "Too many.")),
    (T, post("/cartpositions/bulk_create/", "[" + ",".join(['{"item":1}'] * 500 + ["7"]) + "]"), refused(44, "Too many.")),
    (T, get("/orders/"), listed("/orders/", 0, [])),
    (T, get("/cartpositions/"), listed("/cartpositions/", 0, [])),
])

case("what_an_order_is_refused_for", setup(2) + [
    (T, post("/items/", '{"name":"Pit","default_price":"5","active":false}'), answer(201, item_row(2, "Pit", "5.00", active="false"))),
    (T, post("/items/", '{"name":"Box","default_price":"5","variations":[{"value":"L"}]}'),
     answer(201, item_row(3, "Box", "5.00", variations=[variation_row(1, "L", "5.00")]))),
    (T, post("/vouchers/", '{"code":"ONE"}'), answer(201, voucher_row(1, "ONE"))),
    (T, post("/vouchers/", '{"code":"OLD","valid_until":"2026-05-01T09:59:59Z"}'),
     answer(201, voucher_row(2, "OLD", valid_until='"2026-05-01T09:59:59Z"'))),
    (T, post("/vouchers/", '{"code":"PIT","item":2}'), answer(201, voucher_row(3, "PIT", item=2))),
    (T, new_order('{"positions":[{"item":1},{"item":9}]}'), refused(10, "Item not found.")),
    (T, new_order('{"positions":[{"item":3,"variation":9}]}'), refused(11, "Variation not found.")),
    (T, new_order('{"positions":[{"item":3}]}'), refused(12, "Variation needed.")),
    (T, new_order('{"positions":[{"item":2}]}'), refused(15, "Not active.")),
    (T, new_order('{"positions":[{"item":3,"variation":1}]}'), refused(18, "In no quota.")),
    (T, new_order('{"positions":[{"item":1,"voucher":"NONE"}]}'), refused(23, "Voucher not found.")),
    (T, new_order('{"positions":[{"item":1,"voucher":""}]}'), refused(23, "Voucher not found.")),
    (T, new_order('{"positions":[{"item":1,"voucher":"OLD"}]}'), refused(24, "Voucher is expired.")),
    (T, new_order('{"positions":[{"item":1,"voucher":"PIT"}]}'), refused(26, "Voucher does not fit.")),
    (T, new_order('{"positions":[{"item":1,"voucher":"ONE"},{"item":1,"voucher":"ONE"}]}'), NO_USES),
    (T, new_order('{"positions":[{"item":1,"voucher":"ONE"},{"item":1,"voucher":"ONE"},{"item":9}]}'), refused(10, "Item not found.")),
    (T, new_order('{"positions":[{"item":1},{"item":1},{"item":1}]}'), sold_out(1)),
    (T, new_order('{"positions":[{"item":1},{"item":1}]}'),
     answer(201, order_row([position_row(1, 20), position_row(2, 20, place=2)], total="46.00", email="null"))),
    (T, get("/vouchers/1/"), answer(200, voucher_row(1, "ONE"))),
])

case("an_order_of_guests", setup(1) + [
    (T, post("/vouchers/", '{"code":"GUEST","max_usages":9,"allow_ignore_quota":true,"price_mode":"percent","value":"50"}'),
     answer(201, voucher_row(1, "GUEST", max_usages=9, allow_ignore_quota="true", price_mode='"percent"', value='"50.00"'))),
    (T, new_order('{"positions":[{"item":1,"voucher":"GUEST"},{"item":1,"voucher":"GUEST"}]}'),
     answer(201, order_row([position_row(1, 4, price="11.50", voucher=1), position_row(2, 4, place=2, price="11.50", voucher=1)], email="null"))),
    (T, ask, availability(1, 0, pending=2)),
    (T, new_order('{"positions":[{"item":1,"voucher":"GUEST"},{"item":1}]}'), sold_out(1)),
    (T, move("mark_expired"), answer(200, order_row([position_row(1, 4, price="11.50", voucher=1), position_row(2, 4, place=2, price="11.50", voucher=1)], email="null", status="e"))),
    (T, new_order(ONE), answer(201, order_row([position_row(3, 8, order=2, code="AAAAC")], code="AAAAC"))),
    (T, move("mark_paid"), answer(200, order_row([position_row(1, 4, price="11.50", voucher=1), position_row(2, 4, place=2, price="11.50", voucher=1)], email="null", status="p"))),
    (T, ask, availability(1, 0, paid=2, pending=1)),
])

case("a_total_beyond_one_price", setup("null") + [
    (T, new_order('{"positions":[{"item":1,"price":99999999},{"item":1,"price":"99999999.99"},{"item":1,"price":0}]}'),
     answer(201, order_row([position_row(1, 3, price="99999999.00"), position_row(2, 3, place=2, price="99999999.99"),
                            position_row(3, 3, place=3, price="0.00")], total="199999998.99", email="null"))),
])

case("order_fields", setup("null") + [
    (T, new_order("{}"), fault("positions", REQUIRED)),
    (T, new_order('{"positions":null}'), fault("positions", NULL)),
    (T, new_order('{"positions":{}}'), fault("positions", INVALID)),
    (T, new_order('{"positions":[null]}'), fault("positions", NULL)),
    (T, new_order('{"positions":[7]}'), fault("positions", INVALID)),
    (T, new_order('{"positions":[{}]}'), fault("positions", REQUIRED)),
    (T, new_order('{"positions":[{"item":1},{"item":0}]}'), fault("positions", RANGE)),
    (T, new_order('{"positions":[{"item":1,"price":"x"}]}'), fault("positions", INVALID)),
    (T, new_order('{"positions":[{"item":1,"voucher":"\\u0007"}]}'), fault("positions", TEXT)),
    (T, new_order('{"email":"","positions":[{"item":1}]}'), fault("email", BLANK)),
    (T, new_order('{"email":7,"positions":[{"item":1}]}'), fault("email", INVALID)),
    (T, new_order('{"email":"' + "a" * 255 + '","positions":[{"item":1}]}'), fault("email", TEXT)),
    (T, new_order('{"status":"e","positions":[{"item":1}]}'), fault("status", INVALID)),
    (T, new_order('{"status":null,"positions":[{"item":1}]}'), fault("status", NULL)),
    (T, new_order('{"expires":"2026-06-01","positions":[{"item":1}]}'), fault("expires", INVALID)),
    (T, new_order('{"expires":"9999-01-01T00:00:00Z","positions":[{"item":1}]}'), fault("expires", RANGE)),
    (T, new_order('{"consume_carts":"c@api","positions":[{"item":1}]}'), fault("consume_carts", INVALID)),
    (T, new_order('{"consume_carts":null,"positions":[{"item":1}]}'), fault("consume_carts", NULL)),
    (T, new_order('{"consume_carts":[""],"positions":[{"item":1}]}'), fault("consume_carts", BLANK)),
    (T, new_order('{"consume_carts":["c@api",null],"positions":[{"item":1}]}'), fault("consume_carts", NULL)),
    (T, new_order('{"email":"","status":"x"}'), fault("email", BLANK)),
    (T, new_order("[]"), detail(400, "Invalid data.")),
    (T, get("/orders/"), listed("/orders/", 0, [])),
])

case("ends_of_orders", ordered("null") + [
    (T, move("extend"), fault("expires", REQUIRED)),
    (T, move("extend", body='{"expires":null}'), fault("expires", NULL)),
    (T, move("extend", body='{"expires":7}'), fault("expires", INVALID)),
    (T, extend("2026-02-30"), fault("expires", INVALID)),
    (T, extend("2026-2-3"), fault("expires", INVALID)),
    (T, extend("1969-12-31"), fault("expires", RANGE)),
    (T, extend("9998-12-31"), one(expires="9998-12-31T23:59:59Z")),
    (T, extend("9999-01-01"), fault("expires", RANGE)),
    (T, extend("1970-01-01"), one(expires="1970-01-01T23:59:59Z")),
])

case("paths_of_orders", ordered("null") + [
    (T, get("/orders/AAAAC/"), NOT_FOUND),
    (T, get("/orders/1/"), NOT_FOUND),
    (T, get("/orders/AAAA0/"), NOT_FOUND),
    (T, get("/orders/aaaab/"), NOT_FOUND),
    (T, delete("/orders/AAAAB/"), detail(405, 'Method \\"DELETE\\" not allowed.', allow="GET")),
    (T, delete("/orders/AAAA0/"), detail(405, 'Method \\"DELETE\\" not allowed.', allow="GET")),
    (T, delete("/orders/"), detail(405, 'Method \\"DELETE\\" not allowed.', allow="GET, POST")),
    (T, get("/orders/AAAAB/mark_paid/"), detail(405, 'Method \\"GET\\" not allowed.', allow="POST")),
    (T, get("/orders/AAAA0/extend/"), detail(405, 'Method \\"GET\\" not allowed.', allow="POST")),
    (T, move("mark_sold"), NOT_FOUND),
    (T, post("/orders/AAAAB/mark_paid", ""), NOT_FOUND),
    (T, move("mark_paid", "AAAA0"), NOT_FOUND),
    (T, move("mark_paid", "AAAAC"), NOT_FOUND),
    (T, move("mark_paid", body="{"), detail(400, "JSON parse error.")),
    (T, move("mark_paid", body="[]"), detail(400, "Invalid data.")),
    (T, move("mark_paid", "AAAA0", body="["), detail(400, "JSON parse error.")),
    (T, move("mark_paid", "AAAA0", body="7"), detail(400, "Invalid data.")),
    (T, move("extend", "AAAA0"), fault("expires", REQUIRED)),
    (T, move("extend", "AAAA0", body='{"expires":"2026-06-01"}'), NOT_FOUND),
    (T, move("mark_paid", body='{"expires":7}'), one("p")),
    (T, get("/orders/?page=2"), INVALID_PAGE),
    (T, request("PUT", PATH + "/cartpositions/bulk_create/"), detail(405, 'Method \\"PUT\\" not allowed.', allow="POST")),
    (T, get("/cartpositions/bulk_create/"), detail(405, 'Method \\"GET\\" not allowed.', allow="POST")),
])

CODES = "ABCDEFGHJKLMNPQRSTUVWXYZ3789"


def code(number):
    return "".join(CODES[number // 28 ** place % 28] for place in (4, 3, 2, 1, 0))


def nth(number):
    """The order of one position that the request after two others made."""
    return order_row([position_row(number, number + 2, order=number, code=code(number))], code=code(number), email="null")


case("pages_of_orders", setup("null") + [
    (T, new_order('{"positions":[{"item":1}]}'), answer(201, nth(number))) for number in range(1, 52)
] + [
    (T, get("/orders/"), listed("/orders/", 51, [nth(number) for number in range(1, 51)], following=2)),
    (T, get("/orders/?page=2"), listed("/orders/", 51, [nth(51)], previous=1)),
    (T, get("/orders/AAABA/"), answer(200, nth(28))),
])
