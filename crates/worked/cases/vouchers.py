"""Vouchers of every kind, and cart positions that name one."""

from forms import *

half_past = "2026-05-01T10:30:00Z"
MADE_AT_3 = f"W{3:032x}z1"
MADE_AT_23 = f"W{23:032x}z1"


def new_voucher(body):
    return post("/vouchers/", body)


def made(number, code, **given):
    return answer(201, voucher_row(number, code, **given))


def shown(number, code, **given):
    return answer(200, voucher_row(number, code, **given))


case("a_blocking_voucher_takes_places", setup(3) + [
    (T, new_voucher('{"code":"CLUB","max_usages":3,"block_quota":true,"quota":1}'), made(1, "CLUB", max_usages=3, block_quota="true", quota=1)),
    (T, new_voucher('{"code":"MORE","block_quota":true,"quota":1}'), sold_out(1)),
    (T, hold, sold_out(1)),
    (T, ask, availability(3, 0, blocking=3)),
    (T, post("/cartpositions/", '{"item":1,"voucher":"CLUB"}'), answer(201, cart_row(1, 7, T, half_past, voucher=1))),
    (T, ask, availability(3, 0, blocking=3)),
    (T, delete("/vouchers/1/"), forbidden(27, "In use.")),
    (T, delete("/cartpositions/1/"), gone()),
    (T, delete("/vouchers/1/"), gone()),
    (T, delete("/vouchers/1/"), NOT_FOUND),
    (T, ask, availability(3, 3)),
    (T, hold, cart(2, 14, T, half_past)),
])

case("a_voucher_that_ignores_quotas", setup(1) + [
    (T, new_voucher('{"code":"V","max_usages":5,"block_quota":true,"allow_ignore_quota":true,"quota":1}'),
     made(1, "V", max_usages=5, block_quota="true", allow_ignore_quota="true", quota=1)),
    (T, ask, availability(1, 0, blocking=5)),
    (T, patch("/vouchers/1/", '{"allow_ignore_quota":false}'), shown(1, "V", max_usages=5, block_quota="true", quota=1)),
    (T, patch("/vouchers/1/", '{"max_usages":6}'), sold_out(1)),
    (T, patch("/vouchers/1/", '{"max_usages":4}'), shown(1, "V", max_usages=4, block_quota="true", quota=1)),
])

case("its_own_position_passes", setup(1) + [
    (T, new_voucher('{"code":"GUEST","allow_ignore_quota":true}'), made(1, "GUEST", allow_ignore_quota="true")),
    (T, hold, cart(1, 4, T, half_past)),
    (T, hold, sold_out(1)),
    (T, post("/cartpositions/", '{"item":1,"voucher":"GUEST"}'), answer(201, cart_row(2, 6, T, half_past, voucher=1))),
    (T, ask, availability(1, 0, carts=2)),
])

case("a_voucher_in_use_keeps_what_it_names", setup(9) + [
    (T, new_voucher('{"code":"V","max_usages":2,"comment":"c","tag":"t"}'), made(1, "V", max_usages=2, comment='"c"', tag='"t"')),
    (T, post("/cartpositions/", '{"item":1,"voucher":"V"}'), answer(201, cart_row(1, 4, T, half_past, voucher=1))),
    (T, post("/cartpositions/", '{"item":1,"voucher":"V"}'), answer(201, cart_row(2, 5, T, half_past, voucher=1))),
    (T, post("/cartpositions/", '{"item":1,"voucher":"V"}'), refused(25, "Voucher has no uses left.")),
    (T, patch("/vouchers/1/", '{"max_usages":1}'), refused(25, "Voucher has no uses left.")),
    (T, patch("/vouchers/1/", '{"code":"W"}'), forbidden(27, "In use.")),
    (T, patch("/vouchers/1/", '{"item":1}'), forbidden(27, "In use.")),
    (T, patch("/vouchers/1/", '{"quota":1}'), forbidden(27, "In use.")),
    (T, patch("/vouchers/1/", '{"code":"V","item":null,"quota":null,"max_usages":3}'), shown(1, "V", max_usages=3, comment='"c"', tag='"t"')),
    (T, delete("/vouchers/1/"), forbidden(27, "In use.")),
    (T, post("/cartpositions/", '{"item":1,"voucher":"V"}'), answer(201, cart_row(3, 13, T, half_past, voucher=1))),
])

case("a_dead_position_takes_no_use", setup(1) + [
    (T, new_voucher('{"code":"V","block_quota":true,"quota":1}'), made(1, "V", block_quota="true", quota=1)),
    (T, post("/cartpositions/", '{"item":1,"voucher":"V","expires":"2026-05-01T09:00:00Z"}'),
     answer(201, cart_row(1, 4, T, "2026-05-01T09:00:00Z", voucher=1))),
    (T, ask, availability(1, 0, blocking=1)),
    (T, post("/cartpositions/", '{"item":1,"voucher":"V"}'), answer(201, cart_row(2, 6, T, half_past, voucher=1))),
    (T, post("/cartpositions/", '{"item":1,"voucher":"V"}'), refused(25, "Voucher has no uses left.")),
    (T, post("/cartpositions/", '{"item":1,"voucher":"V","expires":"2026-05-01T09:59:59Z"}'),
     answer(201, cart_row(3, 8, T, "2026-05-01T09:59:59Z", voucher=1))),
    (T, delete("/cartpositions/2/"), gone()),
    (T, delete("/cartpositions/3/"), gone()),
    (T, delete("/vouchers/1/"), forbidden(27, "In use.")),
    (T, delete("/cartpositions/1/"), gone()),
    (T, delete("/vouchers/1/"), gone()),
])

case("covered_positions_count_after_their_voucher", setup(5) + [
    (T, new_voucher('{"code":"V","max_usages":2,"block_quota":true,"quota":1,"valid_until":"2026-05-01T10:10:00Z"}'),
     made(1, "V", max_usages=2, block_quota="true", quota=1, valid_until='"2026-05-01T10:10:00Z"')),
    (T, post("/cartpositions/", '{"item":1,"voucher":"V"}'), answer(201, cart_row(1, 4, T, half_past, voucher=1))),
    ("2026-05-01T10:10:00Z", ask, availability(5, 3, blocking=2)),
    ("2026-05-01T10:10:01Z", ask, availability(5, 4, carts=1)),
    ("2026-05-01T10:10:01Z", post("/cartpositions/", '{"item":1,"voucher":"V"}'), refused(24, "Voucher is expired.")),
    (T, patch("/vouchers/1/", '{"valid_until":null}'), shown(1, "V", max_usages=2, block_quota="true", quota=1)),
    (T, ask, availability(5, 3, blocking=2)),
])

case("a_quota_of_the_product_that_isnt_blocked", setup(5) + [
    (T, new_quota(1, "B"), quota(2, "B", 1)),
    (T, hold, cart(1, 4, T, half_past)),
    (T, new_voucher('{"code":"V","block_quota":true,"quota":1}'), made(1, "V", block_quota="true", quota=1)),
    (T, post("/cartpositions/", '{"item":1,"voucher":"V"}'), sold_out(2)),
    (T, ask, availability(5, 3, blocking=1, carts=1)),
    (T, get("/quotas/2/availability/"), availability(1, 0, carts=1)),
])

case("a_voucher_for_an_item_blocks_in_each_of_its_quotas", setup(5) + [
    (T, new_quota(2, "B"), quota(2, "B", 2)),
    (T, new_voucher('{"code":"V","max_usages":3,"block_quota":true,"item":1}'), sold_out(2)),
    (T, new_voucher('{"code":"V","max_usages":2,"block_quota":true,"item":1}'), made(1, "V", max_usages=2, block_quota="true", item=1)),
    (T, ask, availability(5, 3, blocking=2)),
    (T, get("/quotas/2/availability/"), availability(2, 0, blocking=2)),
    (T, post("/cartpositions/", '{"item":1,"voucher":"V"}'), answer(201, cart_row(1, 8, T, half_past, voucher=1))),
    (T, ask, availability(5, 3, blocking=2)),
    (T, patch("/vouchers/1/", '{"block_quota":false}'), shown(1, "V", max_usages=2, item=1)),
    (T, ask, availability(5, 4, carts=1)),
])

case("prices_by_mode", setup(9) + [
    (T, new_voucher('{"code":"P","max_usages":9,"price_mode":"percent","value":"33.33"}'), made(1, "P", max_usages=9, price_mode='"percent"', value='"33.33"')),
    (T, new_voucher('{"code":"S","max_usages":9,"price_mode":"set","value":"150.00"}'), made(2, "S", max_usages=9, price_mode='"set"', value='"150.00"')),
    (T, new_voucher('{"code":"T","max_usages":9,"price_mode":"subtract","value":25}'), made(3, "T", max_usages=9, price_mode='"subtract"', value='"25.00"')),
    (T, new_voucher('{"code":"N","max_usages":9,"value":"5"}'), made(4, "N", max_usages=9, value='"5.00"')),
    (T, post("/cartpositions/", '{"item":1,"voucher":"P"}'), answer(201, cart_row(1, 7, T, half_past, "15.33", voucher=1))),
    (T, post("/cartpositions/", '{"item":1,"voucher":"S"}'), answer(201, cart_row(2, 8, T, half_past, "150.00", voucher=2))),
    (T, post("/cartpositions/", '{"item":1,"voucher":"T"}'), answer(201, cart_row(3, 9, T, half_past, "0.00", voucher=3))),
    (T, post("/cartpositions/", '{"item":1,"voucher":"N"}'), answer(201, cart_row(4, 10, T, half_past, voucher=4))),
    (T, post("/cartpositions/", '{"item":1,"voucher":"P","price":"9.99"}'), answer(201, cart_row(5, 11, T, half_past, "9.99", voucher=1))),
    (T, patch("/vouchers/2/", '{"price_mode":"percent"}'), fault("value", RANGE)),
    (T, patch("/vouchers/2/", '{"price_mode":"percent","value":"100.00"}'), shown(2, "S", max_usages=9, price_mode='"percent"', value='"100.00"')),
    (T, patch("/vouchers/2/", '{"value":"100.01"}'), fault("value", RANGE)),
    (T, post("/cartpositions/", '{"item":1,"voucher":"S"}'), answer(201, cart_row(6, 15, T, half_past, "0.00", voucher=2))),
])

case("codes_of_vouchers", setup(9) + [
    (T, new_voucher("{}"), made(1, MADE_AT_3)),
    (T, new_voucher(f'{{"code":"{MADE_AT_3}"}}'), refused(33, "Code is reserved.")),
    (T, new_voucher(f'{{"code":"W{3:032x}z007"}}'), refused(33, "Code is reserved.")),
    (T, new_voucher(f'{{"code":"W{3:032x}z"}}'), made(2, f"W{3:032x}z")),
    (T, new_voucher(f'{{"code":"W{3:031x}z1"}}'), made(3, f"W{3:031x}z1")),
    (T, new_voucher(f'{{"code":"W{10:032X}z1"}}'), made(4, f"W{10:032X}z1")),
    (T, new_voucher('{"code":"a"}'), made(5, "a")),
    (T, new_voucher('{"code":"a"}'), refused(20, "Code is taken.")),
    (T, new_voucher('{"code":"A"}'), made(6, "A")),
    (T, patch("/vouchers/6/", '{"code":"a"}'), refused(20, "Code is taken.")),
    (T, patch("/vouchers/6/", '{"code":"A"}'), shown(6, "A")),
    (T, patch("/vouchers/1/", f'{{"code":"{MADE_AT_3}","tag":"x"}}'), shown(1, MADE_AT_3, tag='"x"')),
    (T, patch("/vouchers/6/", f'{{"code":"W{3:032x}z9"}}'), refused(33, "Code is reserved.")),
    (T, post("/cartpositions/", f'{{"item":1,"voucher":"{MADE_AT_3}"}}'), answer(201, cart_row(1, 16, T, half_past, voucher=1))),
    (T, post("/cartpositions/", '{"item":1,"voucher":""}'), refused(23, "Voucher not found.")),
    (T, get("/vouchers/6/"), shown(6, "A")),
    (T, get("/vouchers/7/"), NOT_FOUND),
    (T, patch("/vouchers/7/", '{"tag":"x"}'), NOT_FOUND),
])

case("what_a_voucher_names", [
    (T, post("/items/", '{"name":"X","default_price":"1","variations":[{"value":"a"},{"value":"b"}]}'),
     answer(201, item_row(1, "X", "1.00", variations=[variation_row(1, "a", "1.00"), variation_row(2, "b", "1.00")]))),
    (T, post("/items/", '{"name":"Y","default_price":"2"}'), answer(201, item_row(2, "Y", "2.00"))),
    (T, post("/quotas/", '{"name":"A","size":9,"items":[1],"variations":[1]}'), answer(201, quota_row(1, "A", 9, "1", "1"))),
    (T, post("/quotas/", '{"name":"B","size":9,"items":[1,2],"variations":[2]}'), answer(201, quota_row(2, "B", 9, "1,2", "2")))] + [
    (T, new_voucher(body), told) for body, told in [
    ('{"item":3}', refused(10, "Item not found.")),
    ('{"item":1,"variation":3}', refused(11, "Variation not found.")),
    ('{"item":2,"variation":1}', refused(11, "Variation not found.")),
    ('{"variation":3}', refused(11, "Variation not found.")),
    ('{"variation":1}', refused(21, "Wrong target.")),
    ('{"quota":3}', refused(13, "Quota not found.")),
    ('{"item":1,"quota":1}', refused(21, "Wrong target.")),
    ('{"block_quota":true}', refused(22, "Cannot block.")),
    ('{"block_quota":true,"item":1}', refused(22, "Cannot block.")),
    ('{"code":"I","item":1,"max_usages":9}', made(1, "I", item=1, max_usages=9)),
    ('{"code":"V","item":1,"variation":2,"block_quota":true}', made(2, "V", item=1, variation=2, block_quota="true")),
    ('{"code":"Q","quota":1}', made(3, "Q", quota=1)),
    ('{"code":"Y","item":2,"block_quota":true}', made(4, "Y", item=2, block_quota="true")),
    ]] + [(T, post("/cartpositions/", body), told) for body, told in [
    ('{"item":2,"voucher":"I"}', refused(26, "Voucher does not fit.")),
    ('{"item":1,"variation":1,"voucher":"V"}', refused(26, "Voucher does not fit.")),
    ('{"item":1,"variation":2,"voucher":"Q"}', refused(26, "Voucher does not fit.")),
    ('{"item":1,"variation":1,"voucher":"I"}', answer(201, cart_row(1, 21, T, half_past, "1.00", variation=1, voucher=1))),
    ('{"item":1,"variation":2,"voucher":"V"}', answer(201, cart_row(2, 22, T, half_past, "1.00", variation=2, voucher=2))),
    ]] + [
    (T, get("/quotas/1/availability/"), availability(9, 8, carts=1)),
    (T, get("/quotas/2/availability/"), availability(9, 7, blocking=2)),
    (T, get("/vouchers/"), listed("/vouchers/", 4, [
        voucher_row(1, "I", item=1, max_usages=9), voucher_row(2, "V", item=1, variation=2, block_quota="true"),
        voucher_row(3, "Q", quota=1), voucher_row(4, "Y", item=2, block_quota="true")])),
])

case("voucher_fields", [(T, new_voucher(body), told) for body, told in [
    ('{"code":""}', fault("code", BLANK)),
    ('{"code":5}', fault("code", INVALID)),
    ('{"code":"' + "a" * 255 + '"}', fault("code", TEXT)),
    ('{"max_usages":0}', fault("max_usages", RANGE)),
    ('{"max_usages":1000001}', fault("max_usages", RANGE)),
    ('{"max_usages":null}', fault("max_usages", NULL)),
    ('{"max_usages":1.5}', fault("max_usages", INVALID)),
    ('{"valid_until":"soon"}', fault("valid_until", INVALID)),
    ('{"block_quota":null}', fault("block_quota", NULL)),
    ('{"allow_ignore_quota":0}', fault("allow_ignore_quota", INVALID)),
    ('{"price_mode":"free"}', fault("price_mode", INVALID)),
    ('{"price_mode":null}', fault("price_mode", NULL)),
    ('{"value":1.5}', fault("value", INVALID)),
    ('{"value":"100000000"}', fault("value", RANGE)),
    ('{"price_mode":"percent","value":"100.01"}', fault("value", RANGE)),
    ('{"item":0}', fault("item", RANGE)),
    ('{"variation":"1"}', fault("variation", INVALID)),
    ('{"quota":9007199254740992}', fault("quota", RANGE)),
    ('{"tag":null}', fault("tag", NULL)),
    ('{"tag":"a\\n"}', fault("tag", TEXT)),
    ('{"comment":1}', fault("comment", INVALID)),
    ('{"max_usages":0,"code":""}', fault("code", BLANK)),
    ('{"code":null,"valid_until":null,"value":null,"item":null,"variation":null,"quota":null,"tag":"","comment":""}',
     made(1, MADE_AT_23)),
    ]] + [(T, patch("/vouchers/1/", body), told) for body, told in [
    ('{"code":null}', fault("code", NULL)),
    ('{"code":""}', fault("code", BLANK)),
    ('{"max_usages":null}', fault("max_usages", NULL)),
    ('{"tag":null}', fault("tag", NULL)),
    ('{"tag":"t","comment":"c","max_usages":4,"price_mode":"set","value":"1"}',
     shown(1, MADE_AT_23, tag='"t"', comment='"c"', max_usages=4, price_mode='"set"', value='"1.00"')),
    ("{}", shown(1, MADE_AT_23, tag='"t"', comment='"c"', max_usages=4, price_mode='"set"', value='"1.00"')),
    ('{"value":null,"comment":""}', shown(1, MADE_AT_23, tag='"t"', max_usages=4, price_mode='"set"')),
    ]])
