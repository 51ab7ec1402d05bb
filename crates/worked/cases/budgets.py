"""Vouchers with a budget: prices within what is left of it, position by position, and what is refused once it is spent."""

from forms import *
from bulk import BULK, added, results
from orders import NO_USES, extend, move, new_order, order_row, position_row
from vouchers import half_past, made, new_voucher, shown

SPENT = refused(34, "Voucher budget is spent.")
CODES = {1: "AAAAB", 2: "AAAAC", 3: "AAAAD", 4: "AAAAE", 5: "AAAAF"}


def half(**given):
    """With what a voucher of half the price is shown."""
    return {"max_usages": 5, "price_mode": '"percent"', "value": '"50.00"', "budget": '"20.00"', **given}


def new_half(code="HALF", budget='"20.00"', uses=5):
    return new_voucher(f'{{"code":"{code}","max_usages":{uses},"price_mode":"percent","value":"50.00","budget":{budget}}}')


def entry(code, price=None):
    """A position of an order, with its voucher and the price given, where there are such."""
    return '{"item":1' + (f',"voucher":"{code}"' if code else "") + (f',"price":"{price}"' if price else "") + "}"


def asked(*positions):
    """An order of positions of the item, each by its voucher's code, or by that and the price given."""
    return new_order(f'{{"email":"a@x","positions":[{",".join(entry(*it) if isinstance(it, tuple) else entry(it) for it in positions)}]}}')


def sold(number, tick, first, *prices, status="n", voucher=1, total=None, answered=201):
    """An order that was made at that tick: its positions count from the first, and each has its price."""
    code = CODES[number]
    rows = [position_row(first + at, tick, order=number, code=code, place=at + 1, price=it, voucher=voucher) for at, it in enumerate(prices)]
    return answer(answered, order_row(rows, code=code, status=status, total=total or prices[0]))


def moved(status, *of, **more):
    return sold(*of, status=status, answered=200, **more)


in_cart = post("/cartpositions/", '{"item":1,"voucher":"HALF"}')


def held(number, tick, price):
    return answer(201, cart_row(number, tick, T, half_past, price, voucher=1))


case("a_budget_is_spent_in_turn", setup(99) + [
    (T, new_half(), made(1, "HALF", **half())),
    (T, asked("HALF"), sold(1, 4, 1, "11.50")),
    (T, asked("HALF"), sold(2, 5, 2, "14.50")),
    (T, asked("HALF"), sold(3, 6, 3, "23.00")),
    (T, get("/vouchers/1/"), shown(1, "HALF", redeemed=3, **half())),
    (T, move("mark_expired"), moved("e", 1, 4, 1, "11.50")),
    (T, asked("HALF"), sold(4, 9, 4, "11.50")),
    (T, move("mark_paid"), SPENT),
    (T, extend("2026-06-01"), SPENT),
    (T, get("/orders/AAAAB/"), moved("e", 1, 4, 1, "11.50")),
    (T, move("mark_expired", "AAAAE"), moved("e", 4, 9, 4, "11.50")),
    (T, move("mark_paid"), moved("p", 1, 4, 1, "11.50")),
    (T, patch("/vouchers/1/", '{"budget":"19.99"}'), SPENT),
    (T, patch("/vouchers/1/", '{"budget":"20.00"}'), shown(1, "HALF", redeemed=3, **half())),
    (T, asked(("HALF", "5.00")), SPENT),
    (T, get("/vouchers/1/"), shown(1, "HALF", redeemed=3, **half())),
    (T, new_half("FRESH"), made(2, "FRESH", **half())),
    (T, asked("FRESH", "FRESH"), sold(5, 20, 5, "11.50", "14.50", voucher=2, total="26.00")),
    (T, get("/orders/"), listed("/orders/", 5, [
        order_row([position_row(1, 4, price="11.50", voucher=1)], total="11.50", status="p"),
        order_row([position_row(2, 5, order=2, code="AAAAC", price="14.50", voucher=1)], code="AAAAC", total="14.50"),
        order_row([position_row(3, 6, order=3, code="AAAAD", voucher=1)], code="AAAAD"),
        order_row([position_row(4, 9, order=4, code="AAAAE", price="11.50", voucher=1)], code="AAAAE", total="11.50", status="e"),
        order_row([position_row(5, 20, order=5, code="AAAAF", price="11.50", voucher=2),
                   position_row(6, 20, order=5, code="AAAAF", place=2, price="14.50", voucher=2)], code="AAAAF", total="26.00")])),
])

# A given price isn't changed, and what it takes off is gone for the positions behind it, and counts in the end.
case("a_given_price_spends_of_a_budget", setup(99) + [
    (T, new_half(), made(1, "HALF", **half())),
    (T, asked("HALF", ("HALF", "5.00")), SPENT),
    (T, asked(("HALF", "2.99")), SPENT),
    (T, get("/orders/"), listed("/orders/", 0, [])),
    (T, asked(("HALF", "5.00"), "HALF"), sold(1, 7, 1, "5.00", "21.00", total="26.00")),
    (T, asked("HALF"), sold(2, 8, 3, "23.00")),
    # above the base price nothing is taken off
    (T, asked(("HALF", "99.00")), sold(3, 9, 4, "99.00")),
    (T, move("mark_canceled"), moved("c", 1, 7, 1, "5.00", "21.00", total="26.00")),
    (T, asked(("HALF", "3.00")), sold(4, 11, 5, "3.00")),
    (T, asked(None, (None, "0.00")), answer(201, order_row([
        position_row(6, 12, order=5, code="AAAAF"), position_row(7, 12, order=5, code="AAAAF", place=2, price="0.00")], code="AAAAF"))),
    (T, patch("/vouchers/1/", '{"budget":"19.99"}'), SPENT),
    (T, patch("/vouchers/1/", '{"budget":"20.00"}'), shown(1, "HALF", redeemed=3, **half())),
])

# Each mode takes off no more than is left; a price that isn't below the base price spends nothing.
case("budgets_of_each_mode", setup(99) + [
    (T, new_voucher('{"code":"S","max_usages":9,"price_mode":"set","value":"1.00","budget":"30.00"}'),
     made(1, "S", max_usages=9, price_mode='"set"', value='"1.00"', budget='"30.00"')),
    (T, asked("S", "S", "S"), sold(1, 4, 1, "1.00", "15.00", "23.00", total="39.00")),
    (T, new_voucher('{"code":"T","max_usages":9,"price_mode":"subtract","value":"25.00","budget":"22.99"}'),
     made(2, "T", max_usages=9, price_mode='"subtract"', value='"25.00"', budget='"22.99"')),
    (T, asked("T", "T"), sold(2, 6, 4, "0.01", "23.00", voucher=2, total="23.01")),
    (T, new_voucher('{"code":"U","max_usages":9,"price_mode":"set","value":"99.00","budget":"0"}'),
     made(3, "U", max_usages=9, price_mode='"set"', value='"99.00"', budget='"0.00"')),
    (T, asked("U"), sold(3, 8, 6, "99.00", voucher=3)),
    (T, asked(("U", "22.99")), SPENT),
    (T, new_voucher('{"code":"N","max_usages":9,"budget":"0.01"}'), made(4, "N", max_usages=9, budget='"0.01"')),
    (T, asked("N", ("N", "22.99")), sold(4, 11, 7, "23.00", "22.99", voucher=4, total="45.99")),
    (T, asked(("N", "22.99")), SPENT),
])

# What was taken off is kept with each position, also while there is no budget, and whatever the item costs later.
case("what_was_spent_without_a_budget_counts", setup(99) + [
    (T, new_half(budget="null"), made(1, "HALF", **half(budget="null"))),
    (T, asked("HALF", "HALF"), sold(1, 4, 1, "11.50", "11.50", total="23.00")),
    (T, patch("/items/1/", '{"default_price":"46.00"}'), answer(200, item_row(1, "Stalls", "46.00"))),
    (T, patch("/vouchers/1/", '{"budget":"22.99"}'), SPENT),
    (T, patch("/vouchers/1/", '{"budget":"23.00","price_mode":"none"}'), shown(1, "HALF", redeemed=2, **half(budget='"23.00"', price_mode='"none"'))),
    (T, asked("HALF"), sold(2, 8, 3, "46.00")),
    (T, move("mark_expired"), moved("e", 1, 4, 1, "11.50", "11.50", total="23.00")),
    (T, patch("/vouchers/1/", '{"budget":"22.99"}'), shown(1, "HALF", redeemed=1, **half(budget='"22.99"', price_mode='"none"'))),
    (T, move("mark_paid"), SPENT),
    (T, patch("/vouchers/1/", '{"budget":null}'), shown(1, "HALF", redeemed=1, **half(budget="null", price_mode='"none"'))),
    (T, move("mark_paid"), moved("p", 1, 4, 1, "11.50", "11.50", total="23.00")),
    (T, move("mark_pending"), moved("n", 1, 4, 1, "11.50", "11.50", total="23.00")),
    (T, patch("/vouchers/1/", '{"budget":"22.99"}'), SPENT),
    (T, patch("/vouchers/1/", '{"tag":"t"}'), shown(1, "HALF", redeemed=3, **half(budget="null", price_mode='"none"', tag='"t"'))),
])

# A cart position's price is within what is left when it is made. It takes nothing of it, and is never refused for it.
case("a_cart_position_is_priced_within_what_is_left", setup(99) + [
    (T, new_half(uses=9), made(1, "HALF", **half(max_usages=9))),
    (T, in_cart, held(1, 4, "11.50")),
    (T, in_cart, held(2, 5, "11.50")),
    (T, patch("/vouchers/1/", '{"budget":"0.00"}'), shown(1, "HALF", **half(max_usages=9, budget='"0.00"'))),
    (T, in_cart, held(3, 7, "23.00")),
    (T, post("/cartpositions/", '{"item":1,"voucher":"HALF","price":"0.00"}'), held(4, 8, "0.00")),
    (T, patch("/vouchers/1/", '{"budget":"20.00"}'), shown(1, "HALF", **half(max_usages=9))),
    (T, asked("HALF"), sold(1, 10, 1, "11.50")),
    (T, in_cart, held(5, 11, "14.50")),
    (T, post(BULK, '[{"item":1,"voucher":"HALF"},{"item":1,"voucher":"HALF","price":"1.00"}]'),
     results(added(cart_row(6, 12, T, half_past, "14.50", voucher=1)), added(cart_row(7, 12, T, half_past, "1.00", voucher=1)))),
    (T, get("/cartpositions/1/"), answer(200, cart_row(1, 4, T, half_past, "11.50", voucher=1))),
])

# 34 is behind 25 and before 28, in each order of tests.
case("a_spent_budget_is_behind_uses_and_before_places", setup(1) + [
    (T, new_half(uses=1, budget='"1.00"'), made(1, "HALF", **half(max_usages=1, budget='"1.00"'))),
    (T, new_voucher('{"code":"ONE"}'), made(2, "ONE")),
    (T, asked(("HALF", "5.00"), ("HALF", "5.00")), NO_USES),
    # of a later position, since each test is one of the whole request
    (T, asked(("HALF", "5.00"), "ONE", "ONE"), NO_USES),
    (T, asked(("HALF", "5.00"), "ONE"), SPENT),
    (T, asked(("HALF", "5.00"), None), SPENT),
    (T, asked("HALF", None), sold_out(1)),
    (T, asked(("HALF", "5.00"), "NONE"), refused(23, "Voucher not found.")),
    (T, asked("HALF"), sold(1, 11, 1, "22.00")),
    # a change: in use (27), uses (25), what is spent (34), places (28)
    (T, patch("/vouchers/1/", '{"budget":"0.99","code":"X"}'), forbidden(27, "In use.")),
    (T, patch("/vouchers/1/", '{"budget":"0.99","code":"ONE"}'), refused(20, "Code is taken.")),
    (T, patch("/vouchers/1/", '{"max_usages":9,"budget":"0.99"}'), SPENT),
    (T, patch("/vouchers/1/", '{"max_usages":9}'), shown(1, "HALF", redeemed=1, **half(max_usages=9, budget='"1.00"'))),
    (T, move("mark_expired"), moved("e", 1, 11, 1, "22.00")),
    (T, patch("/vouchers/1/", '{"max_usages":1}'), shown(1, "HALF", **half(max_usages=1, budget='"1.00"'))),
    # a revival: uses (25), discounts (34), places (28)
    (T, asked("HALF"), sold(2, 18, 2, "22.00")),
    (T, move("mark_paid"), NO_USES),
    (T, patch("/vouchers/1/", '{"max_usages":2}'), shown(1, "HALF", redeemed=1, **half(max_usages=2, budget='"1.00"'))),
    (T, move("mark_paid"), SPENT),
    (T, extend("2026-06-01"), SPENT),
    (T, patch("/vouchers/1/", '{"budget":"2.00"}'), shown(1, "HALF", redeemed=1, **half(max_usages=2, budget='"2.00"'))),
    (T, move("mark_paid"), sold_out(1)),
    (T, extend("2026-06-01"), sold_out(1)),
    (T, move("mark_canceled", "AAAAC"), moved("c", 2, 18, 2, "22.00")),
    (T, patch("/vouchers/1/", '{"max_usages":1,"budget":"1.00"}'), shown(1, "HALF", **half(max_usages=1, budget='"1.00"'))),
    (T, move("mark_paid"), moved("p", 1, 11, 1, "22.00")),
    (T, patch("/vouchers/1/", '{"budget":"0.00"}'), SPENT),
])

# A change that blocks more than there is: 34 is told before 28, and 25 before both.
case("a_smaller_budget_of_a_blocking_voucher", setup(2) + [
    (T, new_voucher('{"code":"V","max_usages":2,"block_quota":true,"price_mode":"subtract","value":"1.00","quota":1,"budget":"9.00"}'),
     made(1, "V", max_usages=2, block_quota="true", price_mode='"subtract"', value='"1.00"', quota=1, budget='"9.00"')),
    (T, asked("V", "V"), sold(1, 4, 1, "22.00", "22.00", total="44.00")),
    (T, patch("/vouchers/1/", '{"max_usages":1,"budget":"1.99"}'), NO_USES),
    (T, patch("/vouchers/1/", '{"max_usages":3,"budget":"1.99"}'), SPENT),
    (T, patch("/vouchers/1/", '{"max_usages":3,"budget":"2.00"}'), sold_out(1)),
    (T, patch("/vouchers/1/", '{"budget":"2.00"}'),
     shown(1, "V", max_usages=2, redeemed=2, block_quota="true", price_mode='"subtract"', value='"1.00"', quota=1, budget='"2.00"')),
])

case("budget_fields", [(T, new_voucher(body), told) for body, told in [
    ('{"budget":1.5}', fault("budget", INVALID)),
    ('{"budget":"1.234"}', fault("budget", INVALID)),
    ('{"budget":""}', fault("budget", INVALID)),
    ('{"budget":"-1"}', fault("budget", INVALID)),
    ('{"budget":-1}', fault("budget", INVALID)),
    ('{"budget":true}', fault("budget", INVALID)),
    ('{"budget":{}}', fault("budget", INVALID)),
    ('{"budget":"100000000"}', fault("budget", RANGE)),
    ('{"budget":100000000}', fault("budget", RANGE)),
    # it is read last, and before a row is tested
    ('{"budget":"x","comment":1}', fault("comment", INVALID)),
    ('{"budget":"x","tag":null}', fault("tag", NULL)),
    ('{"budget":"x","code":""}', fault("code", BLANK)),
    ('{"budget":"x","item":9}', fault("budget", INVALID)),
    ('{"code":"A"}', made(1, "A")),
    ('{"code":"B","budget":null}', made(2, "B")),
    ('{"code":"C","budget":"0"}', made(3, "C", budget='"0.00"')),
    ('{"code":"D","budget":7}', made(4, "D", budget='"7.00"')),
    ('{"code":"E","budget":"99999999.99"}', made(5, "E", budget='"99999999.99"')),
    ]] + [(T, patch("/vouchers/4/", body), told) for body, told in [
    ('{"budget":1.5}', fault("budget", INVALID)),
    ('{"budget":"100000000"}', fault("budget", RANGE)),
    ('{"budget":"x","comment":1}', fault("comment", INVALID)),
    ('{"tag":"t"}', shown(4, "D", tag='"t"', budget='"7.00"')),
    ('{"budget":"6.5"}', shown(4, "D", tag='"t"', budget='"6.50"')),
    ('{"budget":null}', shown(4, "D", tag='"t"')),
    ('{"budget":null}', shown(4, "D", tag='"t"')),
    ('{"budget":8}', shown(4, "D", tag='"t"', budget='"8.00"')),
    ]] + [
    (T, patch("/vouchers/9/", '{"budget":"x"}'), fault("budget", INVALID)),
    (T, patch("/vouchers/9/", '{"budget":"1"}'), NOT_FOUND),
    (T, get("/vouchers/"), listed("/vouchers/", 5, [
        voucher_row(1, "A"), voucher_row(2, "B"), voucher_row(3, "C", budget='"0.00"'), voucher_row(4, "D", tag='"t"', budget='"8.00"'),
        voucher_row(5, "E", budget='"99999999.99"')])),
])
