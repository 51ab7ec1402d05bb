"""Requests that tries draw: commands of every kind from a seed, and how they are written as HTTP."""
import json
import random
from collections import Counter
from datetime import datetime, timezone

EVENT = "/api/v1/organizers/house/events/hall"
FROM = 1777629600
ALPHABET = "ABCDEFGHJKLMNPQRSTUVWXYZ3789"


def asked(method, path, body, key=None):
    """A request as it is sent, under a key where one is given."""
    field = f"X-Idempotency-Key: {key}\r\n" if key is not None else ""
    return f"{method} {EVENT}{path} HTTP/1.1\r\nHost: h\r\nAuthorization: Token feed\r\n{field}Content-Length: {len(body)}\r\n\r\n{body}"


def messages(text):
    """The requests or answers that these bytes have, one after another."""
    while text:
        head, _, rest = text.partition(b"\r\n\r\n")
        length = next((int(line.split(b":")[1]) for line in head.split(b"\r\n") if line.lower().startswith(b"content-length:")), 0)
        yield head + b"\r\n\r\n" + rest[:length]
        text = rest[length:]


def moment(seconds):
    return datetime.fromtimestamp(seconds, timezone.utc).strftime("%Y-%m-%dT%H:%M:%SZ")


class Drawn:
    """The commands of a seed, each as the seconds since the one before, its method, path and body. A step gives these seconds for
    all. How many rows there are is only guessed: what isn't there is refused, and that is a command too."""

    def __init__(self, seed, commands, step=None):
        self.draw, self.step = random.Random(seed), step
        # Of its own, so that with budgets all else is drawn as it was without.
        self.coins = random.Random(f"budgets of {seed}")
        self.at, self.commands, self.kinds = FROM, [], []
        # Of each item its variations, and the guessed rows of the other tables.
        self.items, self.variations = [], 0
        # Of each quota the products that are meant, and of each voucher its code, those products, and when it ends.
        self.quotas, self.codes = [], []
        self.rows = Counter()
        self.began(commands)

    def began(self, commands):
        for varied in (False, False, True, False, True, False):
            self.add_item(varied)
        self.add_quota(range(len(self.items)), 300)
        for _ in range(8):
            self.add_quota()
        for _ in range(4):
            self.add_voucher()
        for _ in range(2):
            self.add_checkin_list()
        names = list(SHARES)
        while len(self.commands) < commands:
            getattr(self, self.draw.choices(names, [SHARES[it] for it in names])[0])()
        del self.commands[commands:], self.kinds[commands:]

    # What commands are made of.

    def one_in(self, many):
        return self.draw.randrange(many) == 0

    def id(self, table, among=30):
        """A guessed row, most often one of the last ones."""
        last = max(1, int(self.rows[table]))
        first = max(1, last - among) if not self.one_in(4) else 1
        return self.draw.randint(first, last)

    def product(self):
        number = self.draw.randrange(len(self.items))
        of = self.items[number]
        if of and not self.one_in(20):
            return {"item": number + 1, "variation": self.draw.choice(of)}
        return {"item": number + 1}

    def price(self):
        return f"{self.draw.randrange(50)}.{self.draw.randrange(100):02d}"

    def end(self, seconds):
        return moment(self.at + self.draw.randrange(seconds))

    def asked(self):
        """A product, for which mostly a voucher is named that is still valid, so that rows outlive the voucher that they name."""
        body = dict(self.product())
        valid = [it for it in self.codes[-12:] if self.at < it[2]]
        chosen = self.draw.choice(valid) if valid and not self.one_in(3) else None
        if chosen is None and self.codes and self.one_in(8):
            chosen = self.draw.choice(self.codes[-15:])
        if chosen is not None:
            code, meant, _ = chosen
            body = dict(self.draw.choice(meant)) if meant and not self.one_in(12) else body
            body["voucher"] = code
        if self.one_in(4 if chosen else 8):
            body["price"] = self.price()
        return body

    def code(self):
        return self.draw.choice(self.codes[-15:])[0] if self.codes else "V0"

    def cart(self):
        body = self.asked()
        body["cart_id"] = f"c{self.draw.randrange(20)}@api"
        if not self.one_in(6):
            body["expires"] = self.end(self.draw.choice([20, 120, 600]))
        return body

    def ask(self, kind, method, path, body=None):
        """One more command. Time passes: mostly a few seconds, at times as long as holds, orders or sent vouchers last."""
        seconds = self.draw.choice([0, 0, 1, 1, 1, 2, 3, 8])
        if self.one_in(40):
            seconds = self.draw.choice([30, 60, 120])
        if self.one_in(150):
            seconds = self.draw.choice([1_800, 7_200, 90_000, 180_000])
        if self.step is not None:
            seconds = self.step
        if not self.commands:
            seconds = FROM
        else:
            self.at += seconds
        self.commands.append((seconds, method, path, json.dumps({} if body is None else body, separators=(",", ":"))))
        self.kinds.append(kind)

    # What is for sale.

    def add_item(self, varied=None):
        body = {"name": f"i{len(self.items)}", "default_price": self.price(), "active": not self.one_in(20)}
        of = []
        if varied or varied is None and self.one_in(2):
            for _ in range(2):
                self.variations += 1
                of.append(self.variations)
            body["variations"] = [{"value": f"v{it}", "default_price": self.price()} for it in of]
        self.items.append(of)
        self.ask("add item", "POST", "/items/", body)

    def change_item(self):
        body = {"name": f"j{self.draw.randrange(9)}", "default_price": self.price(), "active": not self.one_in(10)}
        self.ask("change item", "PATCH", f"/items/{self.draw.randint(1, len(self.items))}/", body)

    def add_variation(self):
        varied = [it for it, of in enumerate(self.items) if of]
        number = self.draw.choice(varied) if not self.one_in(5) else self.draw.randrange(len(self.items))
        if self.items[number]:
            self.variations += 1
            self.items[number].append(self.variations)
        self.ask("add variation", "POST", f"/items/{number + 1}/variations/", {"value": f"v{self.variations}"})

    def size(self):
        return None if self.one_in(4) else self.draw.randint(0, self.draw.choice([2, 12, 40, 120]))

    def add_quota(self, all_of=(), size=None):
        chosen = list(all_of) or [it for it in range(len(self.items)) if self.one_in(4)] or [self.draw.randrange(len(self.items))]
        of = [it for number in chosen for it in self.items[number] if all_of or not self.one_in(3)]
        of += [self.items[number][0] for number in chosen if self.items[number] and self.items[number][0] not in of]
        self.rows["quotas"] += 1
        meant = [{"item": it + 1} for it in chosen if not self.items[it]]
        meant += [{"item": it + 1, "variation": of_it} for it in chosen for of_it in self.items[it] if of_it in of]
        self.quotas.append(meant)
        size = self.size() if size is None else size
        body = {"name": f"q{self.rows['quotas']}", "size": size, "items": [it + 1 for it in chosen], "variations": of}
        if self.rows["quotas"] % 3 == 1:
            body["release_after_exit"] = True
        self.ask("add quota", "POST", "/quotas/", body)

    def resize_quota(self):
        self.ask("resize quota", "PATCH", f"/quotas/{self.id('quotas')}/", {"size": self.size()})

    # Vouchers.

    def voucher_end(self):
        """Most vouchers end within seconds, while cart positions that name them live."""
        return self.draw.choice([3, 8, 15, 30, 30, 60, 2_500, 20_000])

    def budget(self):
        """Some budgets last for a part of one position's discount, some for several."""
        return f"{self.coins.randrange(self.coins.choice([1, 10, 50]))}.{self.coins.randrange(100):02d}"

    def add_voucher(self):
        self.rows["vouchers"] += SEEN["vouchers"]
        body = {"max_usages": self.draw.randint(1, 8), "block_quota": not self.one_in(3), "allow_ignore_quota": self.one_in(6)}
        if not self.one_in(12):
            self.rows["codes"] += 1
            body["code"] = f"V{self.rows['codes']}" if not self.one_in(15) else self.code()
        lasts = 10**9
        if not self.one_in(8):
            lasts = self.draw.randint(1, self.voucher_end())
            body["valid_until"] = moment(self.at + lasts)
        if self.one_in(3):
            mode = self.draw.choice(["set", "subtract", "percent"])
            body["price_mode"], body["value"] = mode, self.price()
        if self.coins.randrange(3) == 0:
            body["budget"] = self.budget()
            body.setdefault("price_mode", "percent")
            body.setdefault("value", f"{self.coins.randrange(100)}.00")
        whom, meant = self.draw.randrange(6), []
        if whom < 3:
            body["quota"] = self.draw.randint(1, len(self.quotas))
            meant = self.quotas[body["quota"] - 1]
        elif whom < 5:
            meant = [self.product()]
            body |= meant[0]
        elif body["block_quota"]:
            body["block_quota"] = self.one_in(8)
        if "code" in body:
            self.codes.append((body["code"], meant, self.at + lasts))
        self.ask("add voucher", "POST", "/vouchers/", body)

    def change_voucher(self):
        body = {}
        if self.one_in(2):
            body["max_usages"] = self.draw.randint(1, 8)
        if self.one_in(2):
            body["valid_until"] = None if self.one_in(4) else self.end(self.voucher_end())
        if self.one_in(3):
            body["block_quota"] = self.one_in(2)
        if self.one_in(8):
            body["allow_ignore_quota"] = self.one_in(2)
        if self.one_in(8):
            body["quota"] = self.id("quotas")
        if self.one_in(6):
            body["code"] = self.code()
        if self.coins.randrange(3) == 0:
            body["budget"] = None if self.coins.randrange(4) == 0 else self.budget()
        self.ask("change voucher", "PATCH", f"/vouchers/{self.id('vouchers', 15)}/", body)

    def drop_voucher(self):
        self.ask("drop voucher", "DELETE", f"/vouchers/{self.id('vouchers', 60)}/")

    # Carts and orders.

    def add_cart(self):
        self.rows["carts"] += SEEN["carts"]
        self.ask("add cart position", "POST", "/cartpositions/", self.cart())

    def add_carts(self):
        entries = [self.cart() for _ in range(self.draw.randint(1, 4))]
        self.rows["carts"] += SEEN["carts"] * len(entries)
        self.ask("add cart positions", "POST", "/cartpositions/bulk_create/", entries)

    def drop_cart(self):
        self.ask("drop cart position", "DELETE", f"/cartpositions/{self.id('carts')}/")

    def add_order(self):
        positions = [self.asked() for _ in range(self.draw.choice([1, 1, 2, 2, 4]))]
        self.rows["orders"] += SEEN["orders"]
        self.rows["positions"] += SEEN["positions"] * len(positions)
        body = {"email": f"e{self.draw.randrange(50)}@x", "status": self.draw.choice("nnp"), "positions": positions}
        if not self.one_in(4):
            body["expires"] = self.end(self.draw.choice([60, 600, 20_000]))
        if self.one_in(2):
            body["consume_carts"] = [f"c{self.draw.randrange(20)}@api"]
        self.ask("add order", "POST", "/orders/", body)

    def move_order(self):
        number, code = self.id("orders"), ""
        for _ in range(5):
            code, number = ALPHABET[number % 28] + code, number // 28
        name = self.draw.choice(["mark_paid", "mark_paid", "mark_pending", "mark_expired", "mark_canceled", "extend", "extend"])
        body = {"expires": self.end(20_000)} if name == "extend" else None
        self.ask(name.replace("_", " ").replace("mark", "mark order").replace("extend", "extend order"), "POST", f"/orders/{code}/{name}/", body)

    # The waiting list, periodic work and the doors.

    def add_waiting(self):
        self.rows["waiting"] += SEEN["waiting"]
        body = {"email": f"e{self.draw.randrange(200)}@x", "priority": self.draw.randint(-5, 5)} | self.product()
        self.ask("add waiting entry", "POST", "/waitinglistentries/", body)

    def change_waiting(self):
        self.ask("change waiting entry", "PATCH", f"/waitinglistentries/{self.id('waiting')}/", {"priority": self.draw.randint(-5, 5)})

    def drop_waiting(self):
        self.ask("drop waiting entry", "DELETE", f"/waitinglistentries/{self.id('waiting')}/")

    def send_voucher(self):
        """Places come first: each quota is made larger in half of the draws, so that somebody who waits can be served."""
        if self.one_in(2):
            for number in range(1, len(self.quotas) + 1):
                self.ask("resize quota", "PATCH", f"/quotas/{number}/", {"size": self.draw.choice([None, 400])})
        for _ in range(3):
            self.ask("send voucher", "POST", f"/waitinglistentries/{self.id('waiting')}/send_voucher/")

    def periodic(self):
        self.ask("periodic work", "POST", "/periodic/")

    def add_checkin_list(self):
        self.rows["lists"] += 1
        body = {"name": f"l{self.rows['lists']}", "include_pending": self.one_in(2), "allow_multiple_entries": self.one_in(2),
                "allow_entry_after_exit": self.one_in(2), "all_products": self.rows["lists"] % 2 == 1}
        if not body["all_products"]:
            body["limit_products"] = [self.draw.randint(1, len(self.items))]
        self.ask("add check-in list", "POST", "/checkinlists/", body)

    def redeem(self):
        body = {"type": self.draw.choice(["entry", "entry", "exit"]), "force": self.one_in(10), "ignore_unpaid": self.one_in(4)}
        if self.one_in(6):
            body["datetime"] = moment(self.at - self.draw.randrange(600))
        if self.one_in(2):
            body["nonce"] = f"n{self.draw.randrange(100)}"
        self.ask("redeem ticket", "POST", f"/checkinlists/{self.id('lists')}/positions/{self.id('positions')}/redeem/", body)


# How often each kind is drawn, of about 220 commands.
SHARES = {
    "add_item": 1, "change_item": 2, "add_variation": 1, "add_quota": 1, "resize_quota": 8, "add_voucher": 24, "change_voucher": 10,
    "drop_voucher": 9, "add_cart": 50, "add_carts": 8, "drop_cart": 8, "add_order": 24, "move_order": 24, "add_waiting": 12,
    "change_waiting": 3, "drop_waiting": 3, "send_voucher": 4, "periodic": 5, "add_checkin_list": 1, "redeem": 24,
}
# How many rows a command adds, as it was seen.
SEEN = {"vouchers": 0.8, "carts": 0.5, "orders": 0.4, "positions": 0.35, "waiting": 0.35}
