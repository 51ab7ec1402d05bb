"""Many cart positions in one call."""

from forms import *

half_past = "2026-05-01T10:30:00Z"
BULK = "/cartpositions/bulk_create/"


def added(row):
    return f'{{"data":{row},"errors":null,"success":true}}'


def failed(body):
    return f'{{"data":null,"errors":{body},"success":false}}'


def results(*entries):
    return answer(200, f'{{"results":[{",".join(entries)}]}}')


SOLD_OUT = '{"code":28,"detail":"Sold out.","quota":1}'

case("each_entry_after_those_before_it", setup(1) + [
    (T, post(BULK, '[{"item":1},{"item":1}]'), results(added(cart_row(1, 3, T, half_past)), failed(SOLD_OUT))),
    (T, ask, availability(1, 0, carts=1)),
    (T, get("/cartpositions/"), listed("/cartpositions/", 1, [cart_row(1, 3, T, half_past)])),
])

case("a_refused_entry_stops_no_other", setup(2) + [
    (T, post("/vouchers/", '{"code":"V","max_usages":1}'), answer(201, voucher_row(1, "V"))),
    (T, post(BULK, '[{"item":9},{"item":1,"voucher":"V"},{"item":1,"voucher":"V"},{"item":1,"cart_id":"c"},{"item":1,"voucher":"W"},'
                   '{"item":1,"cart_id":"c@api","price":1,"expires":"2026-05-01T10:00:01Z"},{"item":1}]'),
     results(
         failed('{"code":10,"detail":"Item not found."}'),
         added(cart_row(1, 4, T, half_past, voucher=1)),
         failed('{"code":25,"detail":"Voucher has no uses left."}'),
         failed('{"code":45,"detail":"Wrong cart."}'),
         failed('{"code":23,"detail":"Voucher not found."}'),
         added('{"cart_id":"c@api","datetime":"2026-05-01T10:00:00Z","expires":"2026-05-01T10:00:01Z","id":2,"item":1,'
               '"price":"1.00","variation":null,"voucher":null}'),
         failed(SOLD_OUT),
     )),
    (T, ask, availability(2, 0, carts=2)),
])

case("faults_of_entries", setup(9) + [
    (T, post(BULK, '[{},{"item":1},7,null,[],{"item":"1"},{"item":1,"cart_id":""},{"item":1,"voucher":null}]'),
     results(
         failed('{"item":["This field is required."]}'),
         added(cart_row(1, 3, T, half_past)),
         failed('{"detail":"Invalid data."}'),
         failed('{"detail":"Invalid data."}'),
         failed('{"detail":"Invalid data."}'),
         failed('{"item":["A valid value is required."]}'),
         failed('{"cart_id":["This field may not be blank."]}'),
         added(cart_row(2, 3, T, half_past)),
     )),
    (T, post(BULK, "[]"), results()),
    (T, post(BULK, "{}"), detail(400, "Invalid data.")),
    (T, post(BULK, ""), detail(400, "Invalid data.")),
    (T, post(BULK, "7"), detail(400, "Invalid data.")),
    (T, post(BULK, "[{]"), detail(400, "JSON parse error.")),
    (T, ask, availability(9, 7, carts=2)),
])
