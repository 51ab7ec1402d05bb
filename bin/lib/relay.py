"""A relay between a client and a shop, which loses requests and answers by a plan."""
import re
import socket
import threading


class Relay:
    """Stands between a client and a shop, and does with each connection what its plan says; then with all as it should."""

    def __init__(self, port, plan):
        self.port, self.plan = port, list(plan)
        self.listener = socket.create_server(("127.0.0.1", 0))
        self.at = self.listener.getsockname()[1]
        threading.Thread(target=self.relay, daemon=True).start()

    def relay(self):
        while True:
            caller, _ = self.listener.accept()
            try:
                with caller:
                    self.answer(caller, self.plan.pop(0) if self.plan else "all")
            except OSError:
                pass

    def answer(self, caller, what):
        if what == "no request":
            return
        asked = message(caller)
        if what == "503":
            caller.sendall(b"HTTP/1.1 503 Service Unavailable\r\nContent-Length: 0\r\n\r\n")
            return
        with socket.create_connection(("127.0.0.1", self.port), timeout=10) as shop:
            shop.sendall(asked)
            told = message(shop)
        if what == "504":
            told = b"HTTP/1.1 504 Gateway Time-out\r\nContent-Length: 4\r\n\r\n<p>\n"
        caller.sendall({"no answer": b"", "half": told[:-20]}.get(what, told))


def message(wire):
    """A request or an answer, whole."""
    text, head, whole = bytearray(), -1, None
    while whole is None or len(text) < whole:
        part = wire.recv(65536)
        if not part:
            raise ConnectionError("it ended within a message")
        text += part
        if whole is None and (head := text.find(b"\r\n\r\n")) >= 0:
            length = re.search(rb"\r\nContent-Length: (\d+)", text[:head], re.I)
            whole = head + 4 + (int(length[1]) if length else 0)
    return bytes(text)
