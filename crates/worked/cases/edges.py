"""Answers just at the edge of a rule, where a neighbouring rule would answer otherwise."""

from bulk import BULK, added, results
from forms import *
from orders import new_order

half_past = "2026-05-01T10:30:00Z"


def held(body, told):
    return (T, post("/cartpositions/", body), told)


case("half_a_cent_is_rounded_up", [
    (T, post("/items/", '{"name":"Badge","default_price":"0.03"}'), item(1, "Badge", "0.03")),
    (T, new_quota(9), quota(1, "A", 9)),
    (T, post("/vouchers/", '{"code":"HALF","max_usages":9,"price_mode":"percent","value":50}'),
     answer(201, voucher_row(1, "HALF", max_usages=9, price_mode='"percent"', value='"50.00"'))),
    held('{"item":1,"voucher":"HALF"}', answer(201, cart_row(1, 4, T, half_past, "0.02", voucher=1))),
    (T, patch("/items/1/", '{"default_price":"0.01"}'), answer(200, item_row(1, "Badge", "0.01"))),
    held('{"item":1,"voucher":"HALF"}', answer(201, cart_row(2, 6, T, half_past, "0.01", voucher=1))),
    (T, patch("/vouchers/1/", '{"value":"50.01"}'),
     answer(200, voucher_row(1, "HALF", max_usages=9, price_mode='"percent"', value='"50.01"'))),
    held('{"item":1,"voucher":"HALF"}', answer(201, cart_row(3, 8, T, half_past, "0.00", voucher=1))),
])

first, last = "1970-01-01T00:00:00Z", "9998-12-31T23:59:59Z"

case("the_first_and_the_last_moment", setup(9) + [
    held('{"item":1,"expires":"1969-12-31T23:59:59Z"}', fault("expires", RANGE)),
    held('{"item":1,"expires":"1969-12-31T23:59:59.999999999Z"}', fault("expires", RANGE)),
    held(f'{{"item":1,"expires":"{first}"}}', answer(201, cart_row(1, 5, T, first))),
    held('{"item":1,"expires":"9998-12-31T23:59:59.999999999Z"}', answer(201, cart_row(2, 6, T, last))),
    held('{"item":1,"expires":"9998-12-31T23:59:59-00:01"}', fault("expires", RANGE)),
    (T, post("/vouchers/", '{"valid_until":"1969-12-31T23:59:59Z"}'), fault("valid_until", RANGE)),
    (last, hold, cart(3, 9, last, last)),
])

case("ids_of_carts_end_in_at_api", setup(9) + [
    held('{"item":1,"cart_id":"capi"}', refused(45, "Wrong cart.")),
    held('{"item":1,"cart_id":"c@ap"}', refused(45, "Wrong cart.")),
    held('{"item":1,"cart_id":"c@API"}', refused(45, "Wrong cart.")),
    held('{"item":1,"cart_id":"c@api "}', refused(45, "Wrong cart.")),
    held('{"item":1,"cart_id":"@api"}',
         answer(201, f'{{"cart_id":"@api","datetime":"{T}","expires":"{half_past}","id":1,"item":1,"price":"23.00",'
                     '"variation":null,"voucher":null}')),
])

case("bytes_of_texts", [(T, post("/items/", body), told) for body, told in [
    ('{"name":"a\\u001f","default_price":1}', fault("name", TEXT)),
    ('{"name":"a\\u007f","default_price":1}', fault("name", TEXT)),
    ('{"name":" ","default_price":1}', item(1, " ", "1.00")),
    ('{"name":"~\\u0080ä","default_price":1}', item(2, "~\x80ä", "1.00")),
]])

# 50 cart positions in one cart, and one more in a cart of its own.
full = [f'{{"cart_id":"c@api","datetime":"{T}","expires":"{half_past}","id":{number},"item":1,"price":"23.00",'
        '"variation":null,"voucher":null}' for number in range(1, 51)]

case("a_list_that_fills_its_page", setup(99) + [
    (T, post(BULK, "[" + ",".join(['{"item":1,"cart_id":"c@api"}'] * 50) + "]"), results(*map(added, full))),
    (T, get("/cartpositions/"), listed("/cartpositions/", 50, full)),
    (T, get("/cartpositions/?page=2"), INVALID_PAGE),
    (T, hold, cart(51, 6, T, half_past)),
    (T, get("/cartpositions/?page=2"), listed("/cartpositions/", 51, [cart_row(51, 6, T, half_past)], previous=1)),
])

case("an_expired_voucher_that_does_not_fit", setup(9) + [
    (T, post("/items/", '{"name":"Pit","default_price":5}'), item(2, "Pit", "5.00")),
    (T, post("/vouchers/", '{"code":"PIT","item":2,"valid_until":"2026-05-01T09:59:59Z"}'),
     answer(201, voucher_row(1, "PIT", item=2, valid_until='"2026-05-01T09:59:59Z"'))),
    held('{"item":1,"voucher":"PIT"}', refused(24, "Voucher is expired.")),
    (T, new_order('{"positions":[{"item":1,"voucher":"PIT"}]}'), refused(24, "Voucher is expired.")),
    (T, patch("/vouchers/1/", '{"valid_until":"2026-05-01T10:00:00Z"}'),
     answer(200, voucher_row(1, "PIT", item=2, valid_until=f'"{T}"'))),
    held('{"item":1,"voucher":"PIT"}', refused(26, "Voucher does not fit.")),
])

case("words_of_a_connection", [
    (T, get("/quotas/1/", fields="Connection: closed, keep-alive\r\n"), NOT_FOUND),
    (T, get("/quotas/1/", fields="connection: keep-alive,\t CLOSE \r\n"), detail(404, "Not found.", closes=True)),
    ("", new_item, ""),
])

case("the_first_authorization_counts", [
    (T, get("/quotas/1/", token="Authorization: Token fee\r\nAuthorization: Token feed\r\n"), detail(401, "Invalid token.")),
    (T, get("/quotas/1/", token="authorization: Token feed\r\nAuthorization: Basic feed\r\n"), NOT_FOUND),
    (T, get("/quotas/1/", token="Authorization: Token  feed\r\n"), detail(401, "Invalid token.")),
])
