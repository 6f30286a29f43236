#!/usr/bin/env python3
"""A relay over gRPC before the stock, which damages the metadata of calls and their trailers.

    grpc_relay.py STOCK PLAN NOTES     serves on a free port, which it prints

PLAN is a file with lines `NUMBER DIRECTION WAY`, of requests of which a message is damaged; NOTES gets a line with the number of each request of which an
answer, or a part of one, went back.
"""
import sys
import threading
from concurrent.futures import ThreadPoolExecutor
from typing import Dict, Tuple

import grpc
from grpc_ways import HARMFUL, HARMLESS, KEY, STATUS, STEP, Metadata, atoms
from relays import number_of


class Relay(grpc.GenericRpcHandler):
    def __init__(self, port: str, plan: Dict[Tuple[int, str], str], notes: str) -> None:
        self.channel = grpc.insecure_channel(f"127.0.0.1:{port}")
        self.plan, self.notes, self.lock = plan, notes, threading.Lock()

    def service(self, details: grpc.HandlerCallDetails) -> grpc.RpcMethodHandler:
        call = self.channel.unary_unary(details.method)
        return grpc.unary_unary_rpc_method_handler(lambda request, context: self.hand_on(call, request, context))

    def damaged(self, metadata: Metadata, number: int, direction: str) -> Metadata:
        way = {**HARMLESS, **HARMFUL}.get(self.plan.get((number, direction), "whole"))
        value = next((value for key, value in metadata if key == KEY), b"")
        return way(metadata, value, number) if way and value else metadata

    def note(self, number: int) -> None:
        with self.lock, open(self.notes, "a", encoding="ascii") as file:
            file.write(f"{number}\n")

    def hand_on(self, call: grpc.UnaryUnaryMultiCallable, request: bytes, context: grpc.ServicerContext) -> bytes:
        metadata = [(key, value) for key, value in context.invocation_metadata() if key in (KEY, STEP)]
        number = number_of(atoms(next((value for key, value in metadata if key == KEY), b"")))
        way = self.plan.get((number, "replies"), "whole")
        self.note(number)
        if way == "an_error_before_the_call":
            context.abort(grpc.StatusCode.UNAVAILABLE, "damaged")
        answer, done = call.with_call(request, metadata=self.damaged(metadata, number, "requests"), timeout=600)
        trailer = self.damaged([(key, value) for key, value in done.trailing_metadata() if key in (KEY, STEP)], number, "replies")
        if STATUS.get(way, True):
            context.set_trailing_metadata(trailer)
        if way in STATUS:
            context.abort(grpc.StatusCode.INTERNAL, "damaged")
        return answer


def main() -> None:
    with open(sys.argv[2], encoding="ascii") as file:
        lines = [line.split() for line in file]
    server = grpc.server(ThreadPoolExecutor(32), options=[("grpc.max_metadata_size", 65536)])
    server.add_generic_rpc_handlers((Relay(sys.argv[1], {(int(number), direction): way for number, direction, way in lines}, sys.argv[3]),))
    port = server.add_insecure_port("127.0.0.1:0")
    server.start()
    print(port, flush=True)
    server.wait_for_termination()


if __name__ == "__main__":
    main()
