#!/usr/bin/env python3
"""The edge of the shop: each request begins here with an empty context, goes to the proxy, and ends with what the whole of it says.

    gateway.py PROXY      serves `GET /checkout/N` on a free port, which it prints; PROXY is the proxy's port

TABLE names the file of the table, and RECORDING the folder for the log; without it nothing is recorded. WAIT_SECONDS says how long a peer is
waited for, 10 where it isn't set.
"""
import functools
import http.client
import os
import re
import sys
from email.message import Message
from typing import Any, Optional

from recorder import STEP, Recorder, Step, names_of, new_writer, sender_of
from serving import WAIT, Handler, Server
from terncommode import HEADER, REQUEST_BUDGET, Bag, Context, IllTyped, extract_reply, to_header

with open(os.environ["TABLE"], encoding="utf-8") as table:
    shop = Recorder("gateway", Bag(table.read()))
fields = {path: shop.bag.only(path) for path in shop.bag.slots}


class Noticed(http.client.HTTPResponse):
    """A reply that says when its first byte is here, before it is read."""

    def __init__(self, began: "list[bool]", *words: Any, **more: Any) -> None:
        super().__init__(*words, **more)
        self.began = began

    def begin(self) -> None:
        if self.fp.peek(1):
            self.began.append(True)
        super().begin()


def context_of(headers: Message, sent: str) -> Context:
    """The context that a reply brings. It is lost where it has none, isn't the answer to what was sent, or has a line that is no header."""
    return Context.lost() if headers.defects else extract_reply(headers, sent)


def ask_proxy(step: Step) -> Optional[Step]:
    """What comes back from the proxy; None where no byte of a reply comes. A reply that began and can't be read is lost."""
    began: "list[bool]" = []
    value = to_header(step.context)
    connection = http.client.HTTPConnection("127.0.0.1", int(sys.argv[1]), timeout=2.5 * WAIT)
    connection.response_class = functools.partial(Noticed, began)  # type: ignore[assignment]
    context, sender, is_single = Context.lost(), None, False
    try:
        connection.request("GET", "/", headers={HEADER: value, **names_of(step)})
        headers = connection.getresponse().headers
        context, sender = context_of(headers, value), sender_of(headers.get_all(STEP) or [])
        is_single = "," not in ",".join(headers.get_all(HEADER) or [])
    except (OSError, http.client.HTTPException):
        if not began:
            return None
    finally:
        connection.close()
    return shop.receive(context, sender, is_single)


def checkout(number: int) -> Step:
    """A request's whole life at the gateway. What a client sends is ignored: anybody may write any field of a header."""
    writer = new_writer()
    step = shop.set(shop.start(), f"id {number}")
    step = shop.set(step, f"hops {writer}:1")
    reply = ask_proxy(shop.cut(step, REQUEST_BUDGET))
    if reply is not None:
        step = shop.join([step, reply])
    return shop.set(step, f"hops {writer}:2")


def report(context: Context) -> str:
    """What a context says of all fields; of one that isn't typed as the table says, that it isn't."""
    lines = [f"bytes {bytes(context).hex() or '-'}"]
    for path, bag in fields.items():
        try:
            field = bag.text(context, path)
            lines.append(f"{path} {'exact' if field.exact else 'partial'} {field.value}")
        except IllTyped:
            lines.append(f"{path} ill typed")
    return "".join(f"{line}\n" for line in lines)


class Gateway(Handler):
    """Answers with what the context says of all fields."""

    def do_GET(self) -> None:
        found = re.fullmatch(r"/checkout/([0-9]{1,9})", self.path)
        if not found:
            self.send_error(404)
            return
        body = report(checkout(int(found[1])).context).encode()
        self.send_response(200)
        self.send_header("Content-Length", str(len(body)))
        self.end_headers()
        self.wfile.write(body)


if __name__ == "__main__":
    server = Server(("127.0.0.1", 0), Gateway)
    print(server.server_port, flush=True)
    server.serve_forever()
