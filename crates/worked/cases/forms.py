"""The forms of requests and answers from which the cases are written. Nothing here comes from the program."""

PATH = "/api/v1/organizers/house/events/hall"
T = "2026-05-01T10:00:00Z"
PHRASES = {
    200: "OK", 201: "Created", 204: "No Content", 400: "Bad Request", 401: "Unauthorized", 403: "Forbidden", 404: "Not Found",
    405: "Method Not Allowed", 413: "Payload Too Large", 431: "Request Header Fields Too Large",
    501: "Not Implemented", 503: "Service Unavailable",
}
cases = []


def request(method, path, body="", token="Authorization: Token feed\r\n", fields="", version="1.1"):
    length = f"Content-Length: {len(body.encode())}\r\n" if body else ""
    return f"{method} {path} HTTP/{version}\r\nHost: h\r\n{token}{fields}{length}\r\n{body}"


def post(path, body, **more):
    return request("POST", PATH + path, body, **more)


def get(path, **more):
    return request("GET", PATH + path, **more)


def answer(status, body, allow="", closes=False):
    challenge = "WWW-Authenticate: Token\r\n" if status == 401 else ""
    allowed = f"Allow: {allow}\r\n" if allow else ""
    close = "Connection: close\r\n" if closes else ""
    return (
        f"HTTP/1.1 {status} {PHRASES[status]}\r\nContent-Type: application/json\r\n"
        f"Content-Length: {len(body.encode())}\r\n{challenge}{allowed}{close}\r\n{body}"
    )


def case(name, exchanges, ending="ended"):
    """A case of requests with their moments and answers; an answer may be empty."""
    cases.append((name, exchanges, ending))


def item(number, name, price):
    return answer(201, f'{{"active":true,"default_price":"{price}","has_variations":false,"id":{number},"name":"{name}","variations":[]}}')


def quota(number, name, size):
    return answer(201, quota_row(number, name, size, "1"))


def cart(number, tick, made, expires, price="23.00", item=1):
    return answer(
        201,
        f'{{"cart_id":"{tick:032x}z{number}@api","datetime":"{made}","expires":"{expires}",'
        f'"id":{number},"item":{item},"price":"{price}","variation":null,"voucher":null}}',
    )


def left(size, carts):
    number = size - carts
    return answer(
        200,
        f'{{"available":{"true" if number else "false"},"available_number":{number},"blocking_vouchers":0,'
        f'"cart_positions":{carts},"exited_orders":0,"paid_orders":0,"pending_orders":0,"total_size":{size},"waiting_list":0}}',
    )


def sold_out(number):
    return answer(400, f'{{"code":28,"detail":"Sold out.","quota":{number}}}')


def detail(status, text, **more):
    return answer(status, f'{{"detail":"{text}"}}', **more)


def refused(number, text):
    return answer(400, f'{{"code":{number},"detail":"{text}"}}')


def fault(field, text):
    return answer(400, f'{{"{field}":["{text}"]}}')


REQUIRED = "This field is required."
NULL = "This field may not be null."
BLANK = "This field may not be blank."
INVALID = "A valid value is required."
RANGE = "Value out of range."
TEXT = "Text not allowed."

new_item = post("/items/", '{"name":"Stalls","default_price":"23.00"}')
hold = post("/cartpositions/", '{"item":1}')
ask = get("/quotas/1/availability/")


def new_quota(size, name="A"):
    return post("/quotas/", f'{{"name":"{name}","size":{size},"items":[1],"variations":[]}}')


def setup(size):
    """An item, and a quota of that size with it."""
    return [(T, new_item, item(1, "Stalls", "23.00")), (T, new_quota(size), quota(1, "A", size))]


def patch(path, body, **more):
    return request("PATCH", PATH + path, body, **more)


def delete(path, body="", **more):
    return request("DELETE", PATH + path, body, **more)


def gone():
    return "HTTP/1.1 204 No Content\r\n\r\n"


def forbidden(number, text):
    return answer(403, f'{{"code":{number},"detail":"{text}"}}')


NOT_FOUND = detail(404, "Not found.")
INVALID_PAGE = detail(404, "Invalid page.")


def listed(path, count, rows, following=None, previous=None):
    """A page of a list; following and previous are numbers of pages."""
    def link(page):
        return f'"{PATH}{path}?page={page}"' if page else "null"
    return answer(200, f'{{"count":{count},"next":{link(following)},"previous":{link(previous)},"results":[{",".join(rows)}]}}')


def item_row(number, name, price, active="true", variations=()):
    varied = "true" if variations else "false"
    return (f'{{"active":{active},"default_price":"{price}","has_variations":{varied},"id":{number},"name":"{name}",'
            f'"variations":[{",".join(variations)}]}}')


def variation_row(number, name, price, own=None, active="true"):
    default = f'"{own}"' if own else "null"
    return f'{{"active":{active},"default_price":{default},"id":{number},"price":"{price}","value":"{name}"}}'


def quota_row(number, name, size, items="", variations="", releases="false"):
    return f'{{"id":{number},"items":[{items}],"name":"{name}","release_after_exit":{releases},"size":{size},"variations":[{variations}]}}'


def cart_row(number, tick, made, expires, price="23.00", item=1, variation="null", voucher="null"):
    return (f'{{"cart_id":"{tick:032x}z{number}@api","datetime":"{made}","expires":"{expires}","id":{number},'
            f'"item":{item},"price":"{price}","variation":{variation},"voucher":{voucher}}}')


def voucher_row(number, code, **given):
    """A voucher as it is shown; what isn't given is what a POST gives without it."""
    fields = {
        "allow_ignore_quota": "false", "block_quota": "false", "budget": "null", "code": f'"{code}"', "comment": '""', "id": number,
        "item": "null", "max_usages": 1, "price_mode": '"none"', "quota": "null", "redeemed": 0, "tag": '""',
        "valid_until": "null", "value": "null", "variation": "null",
    }
    assert set(given) <= set(fields)
    fields.update(given)
    return "{" + ",".join(f'"{name}":{fields[name]}' for name in sorted(fields)) + "}"


def availability(size, number, blocking=0, carts=0, paid=0, pending=0, waiting=0, available=None, exited=0):
    if available is None:
        available = "true" if number != 0 else "false"
    return answer(200, f'{{"available":{available},"available_number":{number},"blocking_vouchers":{blocking},'
                       f'"cart_positions":{carts},"exited_orders":{exited},"paid_orders":{paid},"pending_orders":{pending},"total_size":{size},'
                       f'"waiting_list":{waiting}}}')


def unread(line, column):
    """What is told of an import whose CSV file can't be read there."""
    return f"fault 72: Line {line} of the CSV file, counted below its first, column {column}, can't be read or is out of its range. Nothing was imported."
