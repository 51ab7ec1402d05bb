"""The first path: items, quotas, cart positions, what is left; framing, tokens, paths, bodies, fields."""

from forms import *

case("empty_stream", [])

case("a_hold_is_counted", [
    (T, new_item, item(1, "Stalls", "23.00")),
    ("2026-05-01T10:01:00Z", new_quota(2), quota(1, "A", 2)),
    ("2026-05-01T10:02:00Z", hold, cart(1, 3, "2026-05-01T10:02:00Z", "2026-05-01T10:32:00Z")),
    ("2026-05-01T10:03:00Z", ask, left(2, 1)),
])

case("least_quota_over", setup(2) + [
    (T, new_quota(1, "B"), quota(2, "B", 1)),
    (T, hold, cart(1, 4, T, "2026-05-01T10:30:00Z")),
    (T, hold, sold_out(2)),
    (T, ask, left(2, 1)),
])

case("item_in_no_quota", [
    (T, new_item, item(1, "Stalls", "23.00")),
    (T, hold, refused(18, "In no quota.")),
])

case("hold_ends_after_its_second", setup(1) + [
    (T, hold, cart(1, 3, T, "2026-05-01T10:30:00Z")),
    ("2026-05-01T10:30:00Z", hold, sold_out(1)),
    ("2026-05-01T10:30:01Z", hold, cart(2, 5, "2026-05-01T10:30:01Z", "2026-05-01T11:00:01Z")),
])

case("clock_that_goes_back", setup(1) + [
    (T, hold, cart(1, 3, T, "2026-05-01T10:30:00Z")),
    ("2026-05-01T10:30:01Z", post("/items/", '{"name":"Pit","default_price":5}'), item(2, "Pit", "5.00")),
    ("2026-05-01T10:29:10Z", ask, left(1, 0)),
])

case("refused_write_stores_its_moment", setup(1) + [
    (T, hold, cart(1, 3, T, "2026-05-01T10:30:00Z")),
    ("2026-05-01T10:30:01Z", post("/items/", "{}"), fault("name", REQUIRED)),
    ("2026-05-01T10:29:10Z", ask, left(1, 0)),
])

case("read_stores_no_moment", setup(1) + [
    (T, hold, cart(1, 3, T, "2026-05-01T10:30:00Z")),
    ("2026-05-01T10:30:01Z", ask, left(1, 0)),
    ("2026-05-01T10:29:10Z", ask, left(1, 1)),
])

case("given_price_cart_and_end", setup(1) + [
    (T, post("/cartpositions/", '{"item":1,"price":"7.5","cart_id":"c@api","expires":"2026-05-01T12:00:00+02:00"}'),
     answer(201, '{"cart_id":"c@api","datetime":"2026-05-01T10:00:00Z","expires":"2026-05-01T10:00:00Z",'
                 '"id":1,"item":1,"price":"7.50","variation":null,"voucher":null}')),
    (T, hold, sold_out(1)),
    ("2026-05-01T10:00:01Z", hold, cart(2, 5, "2026-05-01T10:00:01Z", "2026-05-01T10:30:01Z")),
])

case("quota_without_a_size", [
    (T, new_item, item(1, "Stalls", "23.00")),
    (T, new_quota("null"), quota(1, "A", "null")),
    (T, hold, cart(1, 3, T, "2026-05-01T10:30:00Z")),
    (T, ask, answer(200, '{"available":true,"available_number":null,"blocking_vouchers":0,"cart_positions":1,'
                         '"exited_orders":0,"paid_orders":0,"pending_orders":0,"total_size":null,"waiting_list":0}')),
])

case("quota_members_rise", [
    (T, new_item, item(1, "Stalls", "23.00")),
    (T, post("/items/", '{"name":"Pit","default_price":"5"}'), item(2, "Pit", "5.00")),
    (T, post("/quotas/", '{"name":"A","size":null,"items":[2,1,2]}'), answer(201, quota_row(1, "A", "null", "1,2"))),
    (T, post("/cartpositions/", '{"item":2}'), cart(1, 4, T, "2026-05-01T10:30:00Z", "5.00", 2)),
])

case("inactive_item", [
    (T, post("/items/", '{"name":"Stalls","default_price":"1","active":false}'),
     answer(201, '{"active":false,"default_price":"1.00","has_variations":false,"id":1,"name":"Stalls","variations":[]}')),
    (T, hold, refused(15, "Not active.")),
    (T, new_quota(1), quota(1, "A", 1)),
    (T, hold, refused(15, "Not active.")),
])

short = post("/items/", "x" * 20)
case("short_body_is_no_answer", [(T, short[:-13], "")])

case("two_requests_in_one_piece", setup(1))

case("body_too_large", [
    ("", request("POST", PATH + "/items/", fields="Content-Length: 1048577\r\n"), detail(413, "Body too large.", closes=True)),
])

case("bad_head_ends_the_connection", [
    (T, new_item, item(1, "Stalls", "23.00")),
    ("", "GET \x01 HTTP/1.1\r\n\r\n", detail(400, "Bad request head.", closes=True)),
    ("", new_item, ""),
])

case("head_of_65_fields", [
    ("", get("/items/", fields="x: y\r\n" * 63), detail(431, "Request head too large.", closes=True)),
])

case("chunked_body", [
    ("", get("/items/", fields="Transfer-Encoding: chunked\r\n"), detail(501, "Transfer-Encoding is not supported.", closes=True)),
])

case("connection_closes_after_the_answer", [
    (T, get("/quotas/1/availability/", fields="Connection: close\r\n"), detail(404, "Not found.", closes=True)),
    ("", new_item, ""),
])

case("older_version_closes", [
    (T, get("/quotas/1/availability/", version="1.0"), detail(404, "Not found.", closes=True)),
    ("", new_item, ""),
])

case("clock_that_fails", [
    (T, new_item, item(1, "Stalls", "23.00")),
    ("", new_quota(1), ""),
], "fault 85")

case("tokens", [
    (T, get("/quotas/1/availability/", token=""), detail(401, "Authentication credentials were not provided.")),
    (T, get("/quotas/1/availability/", token="Authorization: Basic feed\r\n"), detail(401, "Authentication credentials were not provided.")),
    (T, get("/quotas/1/availability/", token="Authorization: Token\r\n"), detail(401, "Authentication credentials were not provided.")),
    (T, get("/quotas/1/availability/", token="Authorization: Token fee\r\n"), detail(401, "Invalid token.")),
    (T, get("/quotas/1/availability/", token="Authorization: tOKEN feed\r\n"), detail(404, "Not found.")),
    (T, post("/nowhere/", "{", token=""), detail(401, "Authentication credentials were not provided.")),
])

case("paths", [
    (T, get("/nowhere/"), detail(404, "Not found.")),
    (T, get("/items"), detail(404, "Not found.")),
    (T, get("/quotas/x/availability/"), detail(404, "Not found.")),
    (T, get("/quotas/0000000000000000001/availability/"), detail(404, "Not found.")),
    (T, request("DELETE", PATH + "/quotas/x/availability/"), detail(404, "Not found.")),
    (T, get("/quotas/7/availability/?page=2"), detail(404, "Not found.")),
    (T, request("GET", "http://h" + PATH + "/quotas/1/availability/"), detail(404, "Not found.")),
    (T, get("/%69tems/"), detail(404, "Not found.")),
    (T, get("/quotas/1/availability/"), detail(404, "Not found.")),
    (T, request("GET", "/api/v1/organizers/other/events/hall/quotas/1/availability/"), detail(404, "Not found.")),
    (T, request("POST", "/api/v1/organizers/house/events/pit/items/", "{}"), detail(404, "Not found.")),
    (T, post("/items/?page=2", "{}"), fault("name", REQUIRED)),
    (T, post("/quotas/1/availability/", "{"), detail(405, 'Method \\"POST\\" not allowed.', allow="GET")),
    (T, request("PATCH", PATH + "/quotas/7/availability/", "{"), detail(405, 'Method \\"PATCH\\" not allowed.', allow="GET")),
    (T, request("PUT", PATH + "/items/"), detail(405, 'Method \\"PUT\\" not allowed.', allow="GET, POST")),
    (T, request("HEAD", PATH + "/quotas/1/availability/"), detail(405, 'Method \\"HEAD\\" not allowed.', allow="GET")),
    (T, request("get", PATH + "/quotas/1/availability/"), detail(405, 'Method \\"get\\" not allowed.', allow="GET")),
])

case("bodies", [
    (T, post("/items/", "{"), detail(400, "JSON parse error.")),
    (T, post("/items/", "[]"), detail(400, "Invalid data.")),
    (T, post("/items/", "null"), detail(400, "Invalid data.")),
    (T, post("/items/", ""), fault("name", REQUIRED)),
    (T, post("/items/", '{"x":1e999}'), detail(400, "JSON parse error.")),
    (T, post("/items/", '{"name":"A","name":"B","default_price":1}'), item(1, "B", "1.00")),
])

case("item_fields", [(T, post("/items/", body), told) for body, told in [
    ('{"default_price":"1.00"}', fault("name", REQUIRED)),
    ('{"name":null,"default_price":"x"}', fault("name", NULL)),
    ('{"name":""}', fault("name", BLANK)),
    ('{"name":5}', fault("name", INVALID)),
    ('{"name":{}}', fault("name", BLANK)),
    ('{"name":{"de":null,"en":"X"}}', fault("name", INVALID)),
    ('{"name":{"de":"","en":"X"}}', fault("name", BLANK)),
    ('{"name":"' + "a" * 255 + '"}', fault("name", TEXT)),
    ('{"name":"a\\u0007"}', fault("name", TEXT)),
    ('{"name":"A"}', fault("default_price", REQUIRED)),
    ('{"name":"A","default_price":"1.234"}', fault("default_price", INVALID)),
    ('{"name":"A","default_price":"100000000"}', fault("default_price", RANGE)),
    ('{"name":"A","default_price":"123456789.55"}', fault("default_price", RANGE)),
    ('{"name":"A","default_price":"123456789.555"}', fault("default_price", INVALID)),
    ('{"name":"A","default_price":""}', fault("default_price", INVALID)),
    ('{"name":"A","default_price":1.5}', fault("default_price", INVALID)),
    ('{"name":"A","default_price":-1}', fault("default_price", INVALID)),
    ('{"name":"A","default_price":100000000}', fault("default_price", RANGE)),
    ('{"name":"A","default_price":"1","active":1}', fault("active", INVALID)),
    ('{"name":"A","default_price":"1","active":null}', fault("active", NULL)),
    ('{"name":"A","default_price":"1","variations":null}', fault("variations", NULL)),
    ('{"name":"A","default_price":"1","variations":{}}', fault("variations", INVALID)),
    ('{"name":"A","default_price":"1","variations":[1]}', fault("variations", INVALID)),
    ('{"name":{"en":"B","de":"A"},"default_price":"99999999.99"}', item(1, "A", "99999999.99")),
    ('{"name":"C","default_price":23,"variations":[],"x":1.5}', item(2, "C", "23.00")),
]])

case("quota_fields", [(T, post("/quotas/", body), told) for body, told in [
    ('{"name":"Q"}', fault("size", REQUIRED)),
    ('{"name":"Q","size":-1}', fault("size", RANGE)),
    ('{"name":"Q","size":1000001}', fault("size", RANGE)),
    ('{"name":"Q","size":1.5}', fault("size", INVALID)),
    ('{"name":"Q","size":"1"}', fault("size", INVALID)),
    ('{"name":"Q","size":1,"items":{}}', fault("items", INVALID)),
    ('{"name":"Q","size":1,"items":[0]}', fault("items", RANGE)),
    ('{"name":"Q","size":1,"items":[null]}', fault("items", NULL)),
    ('{"name":"Q","size":1,"items":[1.5]}', fault("items", INVALID)),
    ('{"name":"Q","size":1,"items":[9007199254740992]}', fault("items", RANGE)),
    ('{"name":"Q","size":1,"items":null}', fault("items", NULL)),
    ('{"name":"Q","size":1,"variations":[1]}', refused(11, "Variation not found.")),
    ('{"name":"Q","size":1,"items":[1]}', refused(10, "Item not found.")),
    ('{"name":"Q","size":1000000}', answer(201, quota_row(1, "Q", 1000000))),
    ('{"name":"Q","size":1,"release_after_exit":null}', fault("release_after_exit", NULL)),
    ('{"name":"Q","size":1,"release_after_exit":1}', fault("release_after_exit", INVALID)),
    ('{"name":"Q","size":1,"variations":{},"release_after_exit":1}', fault("variations", INVALID)),
    ('{"name":"Q","size":1,"items":[1],"release_after_exit":"true"}', fault("release_after_exit", INVALID)),
    ('{"name":"Q","size":1,"release_after_exit":false}', answer(201, quota_row(2, "Q", 1))),
    ('{"release_after_exit":true,"size":1,"name":"Q"}', answer(201, quota_row(3, "Q", 1, releases="true"))),
]] + [
    (T, patch("/quotas/3/", '{"release_after_exit":false,"size":2}'), answer(200, quota_row(3, "Q", 2, releases="true"))),
    (T, patch("/quotas/2/", '{"release_after_exit":1}'), answer(200, quota_row(2, "Q", 1))),
    (T, get("/quotas/3/"), answer(200, quota_row(3, "Q", 2, releases="true"))),
])

case("cart_fields", setup(1) + [(T, post("/cartpositions/", body), told) for body, told in [
    ("{}", fault("item", REQUIRED)),
    ('{"item":0}', fault("item", RANGE)),
    ('{"item":9007199254740992}', fault("item", RANGE)),
    ('{"item":"1"}', fault("item", INVALID)),
    ('{"item":null}', fault("item", NULL)),
    ('{"item":1.0}', fault("item", INVALID)),
    ('{"item":1,"variation":"x"}', fault("variation", INVALID)),
    ('{"item":1,"price":"x"}', fault("price", INVALID)),
    ('{"item":1,"price":2.5}', fault("price", INVALID)),
    ('{"item":1,"cart_id":""}', fault("cart_id", BLANK)),
    ('{"item":1,"cart_id":"c"}', refused(45, "Wrong cart.")),
    ('{"item":1,"expires":"tomorrow"}', fault("expires", INVALID)),
    ('{"item":1,"expires":"2026-05-01"}', fault("expires", INVALID)),
    ('{"item":1,"expires":7}', fault("expires", INVALID)),
    ('{"item":1,"voucher":"X"}', refused(23, "Voucher not found.")),
    ('{"item":1,"expires":"9999-01-01T00:00:00Z"}', fault("expires", RANGE)),
    ('{"item":9}', refused(10, "Item not found.")),
    ('{"item":1,"variation":1}', refused(11, "Variation not found.")),
    ('{"item":1,"variation":null,"price":null,"cart_id":null,"expires":null,"voucher":null}', cart(1, 21, T, "2026-05-01T10:30:00Z")),
]])
