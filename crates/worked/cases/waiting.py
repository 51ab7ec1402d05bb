"""The waiting list and periodic work."""

from forms import *
from orders import ONE, move, new_order, one, order_row, position_row

half_past = "2026-05-01T10:30:00Z"
in_two_days = "2026-05-03T10:00:00Z"
after_two_days = "2026-05-03T10:00:01Z"
work = post("/periodic/", "")


def join(email, priority=None, item=1):
    more = "" if priority is None else f',"priority":{priority}'
    return post("/waitinglistentries/", f'{{"email":"{email}","item":{item}{more}}}')


def entry_row(number, email, priority=0, item=1, made=T, variation="null", voucher="null"):
    return (f'{{"created":"{made}","email":"{email}","id":{number},"item":{item},"priority":{priority},'
            f'"variation":{variation},"voucher":{voucher}}}')


def joined(number, email, priority=0, **more):
    return answer(201, entry_row(number, email, priority, **more))


def entry(number, email, priority=0, **more):
    return answer(200, entry_row(number, email, priority, **more))


def send(number):
    return post(f"/waitinglistentries/{number}/send_voucher/", "")


def worked(deleted=0, expired=0, sent=0):
    return answer(200, f'{{"deleted":{deleted},"expired":{expired},"sent":{sent}}}')


def sent_row(number, tick, item=1, until=in_two_days, **more):
    """The voucher of an entry that was served at that tick."""
    return voucher_row(number, f"W{tick:032x}z{number}", block_quota="true", item=item, tag='"waiting-list"',
                       valid_until=f'"{until}"', **more)


STILL = refused(29, "Still available.")
WAITS = refused(30, "Already waiting.")
SENT = "Already sent."

# One place, which an order gives back. Three wait for it: b and c before a, and b before c.
queue = setup(1) + [
    (T, new_order(ONE), answer(201, order_row([position_row(1, 3)]))),
    (T, join("a", 0), joined(1, "a")),
    (T, join("b", 5), joined(2, "b", 5)),
    (T, join("c", 5), joined(3, "c", 5)),
    (T, move("mark_canceled"), one("c")),
    (T, hold, sold_out(1)),
    (T, work, worked(sent=1)),
    (T, send(3), sold_out(1)),
]

case("a_place_goes_to_the_one_whose_turn_it_is", queue + [
    (T, get("/waitinglistentries/2/"), entry(2, "b", 5, voucher=1)),
    (T, get("/vouchers/1/"), answer(200, sent_row(1, 9))),
    (T, ask, availability(1, 0, blocking=1, waiting=2)),
    (T, get("/waitinglistentries/"), listed("/waitinglistentries/", 3, [
        entry_row(1, "a"), entry_row(2, "b", 5, voucher=1), entry_row(3, "c", 5)])),
    (in_two_days, work, worked()),
    (after_two_days, work, worked(sent=1)),
    (T, get("/waitinglistentries/3/"), entry(3, "c", 5, voucher=2)),
    (T, get("/vouchers/2/"), answer(200, sent_row(2, 16, until="2026-05-05T10:00:01Z"))),
    (T, ask, availability(1, 0, blocking=1, waiting=1)),
])

case("what_is_not_active_is_not_served", queue + [
    (T, patch("/items/1/", '{"active":false}'), answer(200, item_row(1, "Stalls", "23.00", active="false"))),
    (after_two_days, work, worked()),
    (T, send(3), refused(15, "Not active.")),
    (T, get("/waitinglistentries/3/"), entry(3, "c", 5)),
])

case("an_entry_for_another_quota_is_not_held_up", setup(1) + [
    (T, post("/items/", '{"name":"Box","default_price":"50.00"}'), item(2, "Box", "50.00")),
    (T, post("/quotas/", '{"name":"B","size":0,"items":[2]}'), answer(201, quota_row(2, "B", 0, "2"))),
    (T, new_order(ONE), answer(201, order_row([position_row(1, 5)]))),
    (T, join("a", 5), joined(1, "a", 5)),
    (T, join("b", 0, item=2), joined(2, "b", item=2)),
    (T, patch("/quotas/2/", '{"size":1}'), answer(200, quota_row(2, "B", 1, "2"))),
    (T, work, worked(sent=1)),
    (T, get("/waitinglistentries/"), listed("/waitinglistentries/", 2, [
        entry_row(1, "a", 5), entry_row(2, "b", item=2, voucher=1)])),
    (T, get("/vouchers/1/"), answer(200, sent_row(1, 9, item=2))),
])

case("an_entry_is_changed_and_deleted", setup(1) + [
    (T, new_order('{"email":"a@x","status":"p","positions":[{"item":1}]}'), answer(201, order_row([position_row(1, 3)], status="p"))),
    (T, move("mark_pending"), one("n")),
    (T, join("a"), joined(1, "a")),
    (T, patch("/waitinglistentries/1/", '{"priority":2}'), entry(1, "a", 2)),
    (T, delete("/waitinglistentries/1/"), gone()),
    (T, patch("/quotas/1/", '{"size":2}'), answer(200, quota_row(1, "A", 2, "1"))),
    (T, hold, cart(1, 9, T, half_past)),
    (T, delete("/cartpositions/1/"), gone()),
    (T, ask, availability(2, 1, pending=1)),
    (T, get("/waitinglistentries/1/"), NOT_FOUND),
    (T, get("/waitinglistentries/"), listed("/waitinglistentries/", 0, [])),
])

case("who_may_join", setup(1) + [
    (T, join("a"), STILL),
    (T, hold, cart(1, 4, T, half_past)),
    (T, join("a", item=9), refused(10, "Item not found.")),
    (T, join("a", -3), joined(1, "a", -3)),
    (T, join("a", 4), WAITS),
    (T, join("A"), joined(2, "A")),
    (T, patch("/quotas/1/", '{"size":9}'), answer(200, quota_row(1, "A", 9, "1"))),
    (T, join("a"), WAITS),
    (T, join("b"), STILL),
    (T, patch("/items/1/", '{"active":false}'), answer(200, item_row(1, "Stalls", "23.00", active="false"))),
    (T, join("a"), refused(15, "Not active.")),
    (T, post("/items/", '{"name":"Box","default_price":"50.00"}'), item(2, "Box", "50.00")),
    (T, join("a", item=2), joined(3, "a", item=2)),
    (T, send(3), refused(18, "In no quota.")),
])

case("an_entry_that_was_sent_a_voucher", setup(1) + [
    (T, hold, cart(1, 3, T, half_past)),
    (T, join("a"), joined(1, "a")),
    (T, send(1), sold_out(1)),
    (T, delete("/cartpositions/1/"), gone()),
    (T, send(1), gone()),
    (T, get("/waitinglistentries/1/"), entry(1, "a", voucher=1)),
    (T, send(1), refused(31, SENT)),
    (T, patch("/waitinglistentries/1/", '{"priority":1}'), forbidden(31, SENT)),
    (T, delete("/waitinglistentries/1/"), forbidden(31, SENT)),
    (T, delete("/vouchers/1/"), forbidden(27, "In use.")),
    (T, post("/cartpositions/", f'{{"item":1,"voucher":"W{7:032x}z1"}}'), answer(201, cart_row(2, 13, T, half_past, voucher=1))),
    (T, ask, availability(1, 0, blocking=1)),
    (T, join("a"), joined(2, "a")),
    (T, send(9), NOT_FOUND),
    (T, patch("/waitinglistentries/9/", '{"priority":1}'), NOT_FOUND),
    (T, delete("/waitinglistentries/9/"), NOT_FOUND),
])

ten_past = "2026-05-01T10:10:00Z"
after_ten_past = "2026-05-01T10:10:01Z"
until_ten_past = '{"email":"a@x","expires":"2026-05-01T10:10:00Z","positions":[{"item":1}]}'


def second_row(status):
    return order_row([position_row(2, 4, order=2, code="AAAAC")], code="AAAAC", expires=ten_past, status=status)


case("what_is_overdue_ends_after_its_second", setup(5) + [
    (T, new_order(until_ten_past), answer(201, order_row([position_row(1, 3)], expires=ten_past))),
    (T, new_order(until_ten_past.replace('"positions"', '"status":"p","positions"')), answer(201, second_row("p"))),
    (T, post("/cartpositions/", '{"item":1,"expires":"2026-05-01T10:10:00Z"}'), cart(1, 5, T, ten_past)),
    (T, hold, cart(2, 6, T, half_past)),
    (ten_past, work, worked()),
    (ten_past, get("/orders/AAAAB/"), one("n", expires=ten_past)),
    (after_ten_past, work, worked(deleted=1, expired=1)),
    (after_ten_past, get("/orders/"), listed("/orders/", 2, [
        order_row([position_row(1, 3)], expires=ten_past, status="e"), second_row("p")])),
    (after_ten_past, get("/cartpositions/"), listed("/cartpositions/", 1, [cart_row(2, 6, T, half_past)])),
    (after_ten_past, work, worked()),
])

case("a_place_of_an_expired_order_is_served_at_once", setup(1) + [
    (T, new_order(until_ten_past), answer(201, order_row([position_row(1, 3)], expires=ten_past))),
    (T, join("a"), joined(1, "a")),
    (ten_past, work, worked()),
    (after_ten_past, work, worked(expired=1, sent=1)),
    (T, get("/waitinglistentries/1/"), entry(1, "a", voucher=1)),
    (T, ask, availability(1, 0, blocking=1)),
])
