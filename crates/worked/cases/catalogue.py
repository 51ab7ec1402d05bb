"""The whole catalogue: variations, changes of items, sizes of quotas, lists and their pages, deleted cart positions."""

from forms import *

stalls = item_row(1, "Stalls", "23.00")
varied = post("/items/", '{"name":"X","default_price":"10.00","variations":[{"value":"a"},{"value":"b","default_price":"6.00"}]}')
a, b = variation_row(1, "a", "10.00"), variation_row(2, "b", "6.00", "6.00")
made_varied = answer(201, item_row(1, "X", "10.00", variations=[a, b]))
half_past = "2026-05-01T10:30:00Z"


case("variations_have_prices_of_their_own", [
    (T, varied, made_varied),
    (T, post("/quotas/", '{"name":"A","size":9,"items":[1],"variations":[]}'), refused(14, "Wrong members.")),
    (T, post("/quotas/", '{"name":"A","size":9,"items":[],"variations":[1]}'), refused(14, "Wrong members.")),
    (T, post("/quotas/", '{"name":"A","size":9,"items":[1],"variations":[2,1,2]}'), answer(201, quota_row(1, "A", 9, "1", "1,2"))),
    (T, post("/cartpositions/", '{"item":1}'), refused(12, "Variation needed.")),
    (T, post("/cartpositions/", '{"item":1,"variation":9}'), refused(11, "Variation not found.")),
    (T, post("/cartpositions/", '{"item":1,"variation":1}'), answer(201, cart_row(1, 7, T, half_past, "10.00", variation=1))),
    (T, post("/cartpositions/", '{"item":1,"variation":2}'), answer(201, cart_row(2, 8, T, half_past, "6.00", variation=2))),
])

case("variations_are_added", [
    (T, new_item, answer(201, stalls)),
    (T, post("/items/1/variations/", '{"value":"a"}'), refused(17, "Item has no variations.")),
    (T, post("/items/9/variations/", '{"value":"a"}'), NOT_FOUND),
    (T, post("/items/", '{"name":"X","default_price":"10","variations":[{"value":{"en":"b","de":"a"},"active":false}]}'),
     answer(201, item_row(2, "X", "10.00", variations=[variation_row(1, "a", "10.00", active="false")]))),
    (T, post("/items/2/variations/", '{"value":"b","default_price":6}'), answer(201, variation_row(2, "b", "6.00", "6.00"))),
    (T, get("/items/2/"), answer(200, item_row(2, "X", "10.00", variations=[variation_row(1, "a", "10.00", active="false"), variation_row(2, "b", "6.00", "6.00")]))),
    (T, post("/quotas/", '{"name":"A","size":null,"items":[2],"variations":[1]}'), answer(201, quota_row(1, "A", "null", "2", "1"))),
    (T, post("/cartpositions/", '{"item":2,"variation":1}'), refused(15, "Not active.")),
    (T, post("/cartpositions/", '{"item":2,"variation":2}'), refused(18, "In no quota.")),
    (T, request("GET", PATH + "/items/2/variations/"), detail(405, 'Method \\"GET\\" not allowed.', allow="POST")),
])

case("variation_fields", [
    (T, varied, made_varied)] + [(T, post("/items/1/variations/", body), told) for body, told in [
    ("{}", fault("value", REQUIRED)),
    ('{"value":null}', fault("value", NULL)),
    ('{"value":""}', fault("value", BLANK)),
    ('{"value":1}', fault("value", INVALID)),
    ('{"value":"c","default_price":"x"}', fault("default_price", INVALID)),
    ('{"value":"c","active":null}', fault("active", NULL)),
    ("[]", detail(400, "Invalid data.")),
    ('{"value":"c","default_price":null,"active":true}', answer(201, variation_row(3, "c", "10.00"))),
]] + [(T, post("/items/", '{"name":"Y","default_price":"1","variations":' + body + "}"), told) for body, told in [
    ("[null]", fault("variations", NULL)),
    ("[{}]", fault("variations", REQUIRED)),
    ('[{"value":""}]', fault("variations", BLANK)),
    ('[{"value":"a"},{"value":"b","default_price":"100000000"}]', fault("variations", RANGE)),
    ('[{"value":"a\\u0001"}]', fault("variations", TEXT)),
    ('[{"value":"d"}]', answer(201, item_row(2, "Y", "1.00", variations=[variation_row(4, "d", "1.00")]))),
]])

case("items_are_changed", [
    (T, varied, made_varied),
    (T, patch("/items/1/", "{}"), answer(200, item_row(1, "X", "10.00", variations=[a, b]))),
    (T, patch("/items/1/", '{"active":false}'), answer(200, item_row(1, "X", "10.00", active="false", variations=[a, b]))),
    (T, patch("/items/1/", '{"default_price":"12.5","variations":[]}'),
     answer(200, item_row(1, "X", "12.50", active="false", variations=[variation_row(1, "a", "12.50"), b]))),
    (T, patch("/items/1/", '{"name":{"de":"Y"}}'),
     answer(200, item_row(1, "Y", "12.50", active="false", variations=[variation_row(1, "a", "12.50"), b]))),
    (T, patch("/items/1/", '{"name":""}'), fault("name", BLANK)),
    (T, patch("/items/1/", '{"name":null}'), fault("name", NULL)),
    (T, patch("/items/1/", '{"default_price":null}'), fault("default_price", NULL)),
    (T, patch("/items/1/", '{"active":1}'), fault("active", INVALID)),
    (T, patch("/items/1/", "{"), detail(400, "JSON parse error.")),
    (T, patch("/items/1/", "[]"), detail(400, "Invalid data.")),
    (T, patch("/items/2/", '{"active":true}'), NOT_FOUND),
    (T, patch("/items/2/", '{"active":1}'), fault("active", INVALID)),
    (T, patch("/items/x/", "{"), NOT_FOUND),
    (T, get("/items/1/"), answer(200, item_row(1, "Y", "12.50", active="false", variations=[variation_row(1, "a", "12.50"), b]))),
    (T, get("/items/2/"), NOT_FOUND),
    (T, delete("/items/1/"), detail(405, 'Method \\"DELETE\\" not allowed.', allow="GET, PATCH")),
])

case("quotas_are_resized", setup(1) + [
    (T, hold, cart(1, 3, T, half_past)),
    (T, hold, sold_out(1)),
    (T, patch("/quotas/1/", '{"size":2,"name":"B","items":[]}'), answer(200, quota_row(1, "A", 2, "1"))),
    (T, hold, cart(2, 6, T, half_past)),
    (T, delete("/cartpositions/2/"), gone()),
    (T, ask, availability(2, 1, carts=1)),
    (T, patch("/quotas/1/", '{"size":0}'), answer(200, quota_row(1, "A", 0, "1"))),
    (T, ask, availability(0, 0, carts=1)),
    (T, patch("/quotas/1/", "{}"), answer(200, quota_row(1, "A", 0, "1"))),
    (T, patch("/quotas/1/", '{"size":null}'), answer(200, quota_row(1, "A", "null", "1"))),
    (T, ask, availability("null", "null", carts=1)),
    (T, patch("/quotas/1/", '{"size":1000001}'), fault("size", RANGE)),
    (T, patch("/quotas/1/", '{"size":"1"}'), fault("size", INVALID)),
    (T, patch("/quotas/2/", '{"size":1}'), NOT_FOUND),
    (T, get("/quotas/1/"), answer(200, quota_row(1, "A", "null", "1"))),
    (T, get("/quotas/2/"), NOT_FOUND),
    (T, get("/quotas/"), listed("/quotas/", 1, [quota_row(1, "A", "null", "1")])),
])

case("cart_positions_are_listed_and_deleted", setup(9) + [
    (T, get("/cartpositions/"), listed("/cartpositions/", 0, [])),
    (T, hold, cart(1, 4, T, half_past)),
    (T, hold, cart(2, 5, T, half_past)),
    ("2026-05-01T10:30:01Z", get("/cartpositions/"), listed("/cartpositions/", 2, [cart_row(1, 4, T, half_past), cart_row(2, 5, T, half_past)])),
    (T, get("/cartpositions/2/"), answer(200, cart_row(2, 5, T, half_past))),
    (T, delete("/cartpositions/1/", "{"), detail(400, "JSON parse error.")),
    (T, delete("/cartpositions/1/", "[]"), detail(400, "Invalid data.")),
    (T, delete("/cartpositions/1/", '{"x":1}'), gone()),
    (T, delete("/cartpositions/1/"), NOT_FOUND),
    (T, get("/cartpositions/1/"), NOT_FOUND),
    (T, hold, cart(3, 13, T, half_past)),
    (T, patch("/cartpositions/3/", "{}"), detail(405, 'Method \\"PATCH\\" not allowed.', allow="GET, DELETE")),
])

names = [f"I{n}" for n in range(1, 52)]
rows = [item_row(n, name, "1.00") for n, name in enumerate(names, 1)]
case("pages_of_a_list", [
    (T, get("/items/"), listed("/items/", 0, [])),
    (T, get("/items/?page=2"), INVALID_PAGE)] + [
    (T, post("/items/", f'{{"name":"{name}","default_price":1}}'), answer(201, row)) for name, row in zip(names, rows)] + [
    (T, get("/items/"), listed("/items/", 51, rows[:50], following=2)),
    (T, get("/items/?page=2"), listed("/items/", 51, rows[50:], previous=1)),
    (T, get("/items/?page=002"), listed("/items/", 51, rows[50:], previous=1)),
    (T, get("/items/?page=3"), INVALID_PAGE),
    (T, get("/items/?page=0"), INVALID_PAGE),
    (T, get("/items/?page="), INVALID_PAGE),
    (T, get("/items/?page=-1"), INVALID_PAGE),
    (T, get("/items/?page=1.0"), INVALID_PAGE),
    (T, get("/items/?page=0000000000000000001"), INVALID_PAGE),
    (T, get("/items/?page=2&page=9&x=1"), listed("/items/", 51, rows[50:], previous=1)),
    (T, get("/items/?x=page&p%61ge=%32"), listed("/items/", 51, rows[50:], previous=1)),
    (T, get("/items/?pages=9"), listed("/items/", 51, rows[:50], following=2)),
    (T, get("/items/1/?page=9"), answer(200, rows[0])),
])
