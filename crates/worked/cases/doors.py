"""The doors: check-in lists, scans and their nonces."""

from forms import *
from orders import ONE, extend, move, new_order, one, order_row, position_row

half_past = "2026-05-01T10:30:00Z"
PAID = '{"email":"a@x","status":"p","positions":[{"item":1}]}'
ticket = position_row(1, 3)


def list_row(number, name="Door", all_products="true", limit="", pending="false", multiple="false", after_exit="false"):
    return (f'{{"all_products":{all_products},"allow_entry_after_exit":{after_exit},"allow_multiple_entries":{multiple},'
            f'"id":{number},"include_pending":{pending},"limit_products":[{limit}],"name":"{name}"}}')


def new_list(more=""):
    return post("/checkinlists/", f'{{"name":"Door","all_products":true{more}}}')


def scan(body="", list=1, position=1):
    return post(f"/checkinlists/{list}/positions/{position}/redeem/", body)


def admitted(position=ticket):
    return answer(201, f'{{"position":{position},"status":"ok"}}')


def turned_away(reason, status=400):
    return answer(status, f'{{"reason":"{reason}","status":"error"}}')


def checkin(number, kind="entry", nonce="null", at=T):
    return f'{{"datetime":"{at}","id":{number},"nonce":{nonce},"type":"{kind}"}}'


def listed_ticket(position=ticket, checkins=()):
    return f'{{"checkins":[{",".join(checkins)}],{position[1:]}'


def tickets(rows, list=1):
    return listed(f"/checkinlists/{list}/positions/", len(rows), rows)


def numbers(entered, inside, positions):
    return answer(200, f'{{"checkin_count":{entered},"inside_count":{inside},"position_count":{positions}}}')


def show_tickets(list=1):
    return get(f"/checkinlists/{list}/positions/")


def show_numbers(list=1):
    return get(f"/checkinlists/{list}/status/")


def house(order=PAID, status="p"):
    """An item in a quota without a size, and an order of one position."""
    return [(T, new_item, item(1, "Stalls", "23.00")), (T, new_quota("null"), quota(1, "A", "null")),
            (T, new_order(order), answer(201, order_row([ticket], status=status)))]


TWICE = turned_away("already_redeemed")

case("a_ticket_is_admitted_once", house() + [
    (T, new_list(), answer(201, list_row(1))),
    (T, scan('{"nonce":"n1"}'), admitted()),
    (T, scan('{"nonce":"n1"}'), admitted()),
    (T, show_tickets(), tickets([listed_ticket(checkins=[checkin(1, nonce='"n1"')])])),
    (T, scan('{"nonce":"n2"}'), TWICE),
    (T, scan('{"type":"exit","nonce":"n3"}'), admitted()),
    (T, scan('{"nonce":"n4"}'), TWICE),
    (T, new_list(',"allow_entry_after_exit":true'), answer(201, list_row(2, after_exit="true"))),
    (T, scan('{"nonce":"n1"}', list=2), admitted()),
    (T, scan('{"nonce":"n4"}', list=2), TWICE),
    (T, scan('{"type":"exit","nonce":"n3"}', list=2), admitted()),
    (T, scan('{"nonce":"n4"}', list=2), admitted()),
    (T, scan(position=9), turned_away("invalid", 404)),
    (T, show_tickets(), tickets([listed_ticket(checkins=[checkin(1, nonce='"n1"'), checkin(2, "exit", '"n3"')])])),
    (T, show_tickets(2), tickets([listed_ticket(checkins=[
        checkin(3, nonce='"n1"'), checkin(4, "exit", '"n3"'), checkin(5, nonce='"n4"')])], 2)),
    (T, show_numbers(), numbers(1, 0, 1)),
    (T, show_numbers(2), numbers(1, 1, 1)),
    (T, ask, answer(200, '{"available":true,"available_number":null,"blocking_vouchers":0,"cart_positions":0,"exited_orders":0,"paid_orders":1,"pending_orders":0,"total_size":null,"waiting_list":0}')),
])

case("the_last_check_in_is_the_latest", house() + [
    (T, new_list(), answer(201, list_row(1))),
    (T, show_numbers(), numbers(0, 0, 1)),
    (T, scan('{"datetime":"2026-05-01T10:01:40Z"}'), admitted()),
    (T, scan('{"type":"exit","datetime":"2026-05-01T10:00:50Z"}'), admitted()),
    (T, show_numbers(), numbers(1, 1, 1)),
    (T, show_tickets(), tickets([listed_ticket(checkins=[
        checkin(1, at="2026-05-01T10:01:40Z"), checkin(2, "exit", at="2026-05-01T10:00:50Z")])])),
    (T, scan('{"type":"exit","datetime":"2026-05-01T10:01:40Z"}'), admitted()),
    (T, show_numbers(), numbers(1, 0, 1)),
    (T, scan(), TWICE),
])

case("an_exit_before_any_entry", house() + [
    (T, new_list(), answer(201, list_row(1))),
    (T, scan('{"type":"exit"}'), admitted()),
    (T, show_numbers(), numbers(0, 0, 1)),
    (T, scan(), admitted()),
    (T, show_numbers(), numbers(1, 1, 1)),
    (T, scan('{"type":"exit"}'), admitted()),
    (T, scan(), TWICE),
    (T, show_numbers(), numbers(1, 0, 1)),
])

case("who_has_not_paid", house(ONE, "n") + [
    (T, new_list(), answer(201, list_row(1))),
    (T, new_list(',"include_pending":true'), answer(201, list_row(2, pending="true"))),
    (T, scan(list=2), turned_away("unpaid")),
    (T, scan('{"ignore_unpaid":true}'), turned_away("unpaid")),
    (T, show_numbers(), numbers(0, 0, 0)),
    (T, show_tickets(), tickets([])),
    (T, show_tickets(2), tickets([listed_ticket()], 2)),
    (T, scan('{"ignore_unpaid":true}', list=2), admitted()),
    (T, scan('{"force":true}'), admitted()),
    (T, show_numbers(), numbers(0, 0, 0)),
    (T, show_numbers(2), numbers(1, 1, 1)),
    (T, move("mark_paid"), one("p")),
    (T, show_numbers(), numbers(1, 1, 1)),
])

case("a_nonce_is_of_one_list", house() + [
    (T, new_list(), answer(201, list_row(1))),
    (T, new_list(), answer(201, list_row(2))),
    (T, scan('{"nonce":"n"}'), admitted()),
    (T, scan('{"nonce":"n"}', list=2), admitted()),
    (T, show_tickets(2), tickets([listed_ticket(checkins=[checkin(2, nonce='"n"')])], 2)),
    ("2026-05-02T10:00:00Z", scan('{"nonce":"n"}'), admitted()),
    (T, show_tickets(), tickets([listed_ticket(checkins=[checkin(1, nonce='"n"')])])),
    (T, move("mark_canceled"), one("c")),
    (T, scan('{"nonce":"n"}'), turned_away("canceled")),
    (T, show_numbers(), numbers(0, 0, 0)),
])

case("forced_entries", house() + [
    (T, new_list(), answer(201, list_row(1))),
    (T, new_list(',"allow_multiple_entries":true'), answer(201, list_row(2, multiple="true"))),
    (T, scan(), admitted()),
    (T, scan(), TWICE),
    (T, scan('{"force":true}'), admitted()),
    (T, show_tickets(), tickets([listed_ticket(checkins=[checkin(1), checkin(2)])])),
    (T, scan(list=2), admitted()),
    (T, scan(list=2), admitted()),
    (T, show_numbers(2), numbers(1, 1, 1)),
])

case("what_a_list_is_for", house() + [
    (T, post("/items/", '{"name":"Box","default_price":"50.00"}'), item(2, "Box", "50.00")),
    (T, post("/checkinlists/", '{"name":"Boxes","limit_products":[2]}'), answer(201, list_row(1, "Boxes", "false", "2"))),
    (T, post("/checkinlists/", '{"name":"Both","limit_products":[2,1,2]}'), answer(201, list_row(2, "Both", "false", "1,2"))),
    (T, post("/checkinlists/", '{"name":"None","limit_products":[1,3]}'), refused(10, "Item not found.")),
    (T, scan(), turned_away("product")),
    (T, scan('{"force":true}'), turned_away("product")),
    (T, scan(list=2, position=f"{3:032x}z1z1"), admitted()),
    (T, scan(list=2, position=f"{3:032x}z1z2"), turned_away("invalid", 404)),
    (T, scan(list=3), NOT_FOUND),
    (T, show_numbers(), numbers(0, 0, 0)),
    (T, show_numbers(2), numbers(1, 1, 1)),
    (T, get("/checkinlists/"), listed("/checkinlists/", 2, [list_row(1, "Boxes", "false", "2"), list_row(2, "Both", "false", "1,2")])),
    (T, get("/checkinlists/2/"), answer(200, list_row(2, "Both", "false", "1,2"))),
    (T, get("/checkinlists/3/"), NOT_FOUND),
    (T, show_numbers(3), NOT_FOUND),
    (T, get("/checkinlists/3/positions/?page=x"), INVALID_PAGE),
    (T, get("/checkinlists/3/positions/?page=9"), NOT_FOUND),
    (T, get("/checkinlists/2/positions/?page=2"), INVALID_PAGE),
])


def releasing_house(more=()):
    """An item in a quota of one place, which releases it, what comes then, and a list that admits again who went out."""
    return [(T, new_item, item(1, "Stalls", "23.00")),
            (T, post("/quotas/", '{"name":"A","size":1,"items":[1],"release_after_exit":true}'), answer(201, quota_row(1, "A", 1, "1", releases="true"))),
            *more, (T, new_list(',"allow_entry_after_exit":true'), answer(201, list_row(1, after_exit="true")))]


paid = (T, new_order(PAID), answer(201, order_row([ticket], status="p")))

case("places_that_exits_set_free", releasing_house([paid]) + [
    (T, scan(), admitted()),
    (T, ask, availability(1, 0, paid=1)),
    (T, hold, sold_out(1)),
    (T, scan('{"type":"exit"}'), admitted()),
    (T, ask, availability(1, 1, paid=1, exited=1)),
    (T, hold, cart(1, 10, T, half_past)),
    (T, ask, availability(1, 0, carts=1, paid=1, exited=1)),
    (T, scan(), admitted()),
    (T, ask, availability(1, 0, carts=1, paid=1)),
    (T, hold, sold_out(1)),
    (T, scan('{"type":"exit","datetime":"2026-05-01T09:59:59Z"}'), admitted()),
    (T, ask, availability(1, 0, carts=1, paid=1)),
])

case("an_exit_by_another_list", releasing_house([paid]) + [
    (T, new_list(), answer(201, list_row(2))),
    (T, new_quota(9, "B"), quota(2, "B", 9)),
    (T, scan('{"datetime":"2026-05-01T10:00:10Z"}'), admitted()),
    (T, scan('{"type":"exit","datetime":"2026-05-01T10:00:20Z"}', list=2), admitted()),
    (T, ask, availability(1, 1, paid=1, exited=1)),
    (T, get("/quotas/2/availability/"), availability(9, 8, paid=1)),
    (T, move("mark_pending"), one()),
    (T, ask, availability(1, 0, pending=1)),
    (T, move("mark_paid"), one("p")),
    (T, ask, availability(1, 1, paid=1, exited=1)),
])

covered = position_row(1, 4, voucher=1)

case("a_place_that_is_blocked_again", releasing_house([
    (T, post("/vouchers/", '{"code":"V","block_quota":true,"quota":1}'), answer(201, voucher_row(1, "V", block_quota="true", quota=1))),
    (T, new_order('{"email":"a@x","status":"p","positions":[{"item":1,"voucher":"V"}]}'), answer(201, order_row([covered], status="p"))),
]) + [
    (T, scan(), admitted(covered)),
    (T, ask, availability(1, 0, paid=1)),
    (T, scan('{"type":"exit"}'), admitted(covered)),
    (T, ask, availability(1, 1, paid=1, exited=1)),
    (T, move("mark_canceled"), answer(200, order_row([covered], status="c"))),
    (T, ask, availability(1, 0, blocking=1)),
])

# It takes none where its order is paid again, and one where that is pending.
case("a_ticket_that_is_out_takes_no_place", releasing_house([paid]) + [
    (T, scan(), admitted()),
    (T, scan('{"type":"exit"}'), admitted()),
    (T, move("mark_pending"), one()),
    (T, move("mark_expired"), one("e")),
    (T, ask, availability(1, 1)),
    (T, hold, cart(1, 10, T, half_past)),
    (T, extend("2026-05-15T10:00:00Z"), sold_out(1)),
    (T, move("mark_paid"), one("p")),
    (T, ask, availability(1, 0, carts=1, paid=1, exited=1)),
    (T, move("mark_pending"), one()),
    (T, ask, availability(1, 0, carts=1, pending=1)),
])
