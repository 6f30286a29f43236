#!/usr/bin/env python3
"""The stock of the shop, over gRPC: the context comes as bytes in the metadata of the call, and goes back in the trailer.

    stock.py      serves `shop.Stock/Reserve` on a free port, which it prints

Messages are bytes, so there is nothing to generate. TABLE, RECORDING and WAIT_SECONDS are as for the gateway.
"""
import os
import threading
from concurrent.futures import ThreadPoolExecutor

import grpc
from recorder import STEP, Recorder, names_of, new_writer, sender_of
from serving import WAIT
from terncommode import GRPC_BUDGET, GRPC_KEY, Bag, Context, from_binary, to_binary

THREADS = 16

with open(os.environ["TABLE"], encoding="utf-8") as table:
    stock = Recorder("stock", Bag(table.read()).only("hops", "load"))


def reserve(request: bytes, call: grpc.ServicerContext) -> bytes:
    """Takes two items."""
    metadata = call.invocation_metadata()
    contexts = [from_binary(value) for key, value in metadata if key == GRPC_KEY]
    sender = sender_of([value for key, value in metadata if key == STEP.lower()])
    step = stock.receive(Context.join(contexts) if contexts else Context.lost(), sender, len(contexts) == 1)
    step = stock.set(step, f"hops {new_writer()}:1")
    step = stock.cut(stock.set(step, 'load "items":2'), GRPC_BUDGET)
    names = [(key.lower(), value) for key, value in names_of(step).items()]
    call.set_trailing_metadata(((GRPC_KEY, to_binary(step.context)), *names))
    return request


def pool() -> ThreadPoolExecutor:
    """Threads that are there from the start, so that none can be missing later."""
    threads, all_there = ThreadPoolExecutor(THREADS), threading.Barrier(THREADS)
    for _ in range(THREADS):
        threads.submit(all_there.wait)
    return threads


if __name__ == "__main__":
    server = grpc.server(pool(), options=[("grpc.server_handshake_timeout_ms", 1000 * WAIT)])
    handler = grpc.method_handlers_generic_handler("shop.Stock", {"Reserve": grpc.unary_unary_rpc_method_handler(reserve)})
    server.add_generic_rpc_handlers((handler,))
    port = server.add_insecure_port("127.0.0.1:0")
    server.start()
    print(port, flush=True)
    server.wait_for_termination()
