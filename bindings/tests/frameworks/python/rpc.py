"""gRPC: calls, streams and their ends, at ends that trust and at edges, with threads and with asyncio."""
import asyncio
import concurrent.futures
import contextlib
import json
import time

from terncommode import Context, NoRequest, add, begin, current, to_binary

from cells import BAG, QUICK, free_port, module, tag, tags

grpc = module("grpc")
KEY = "terncommode-bin"


def unary(request, context):
    """Says what it is asked to say, and ends as it is asked to."""
    seen = dict(context.invocation_metadata())
    add(tag("said"))
    if request == b"abort":
        context.abort(grpc.StatusCode.FAILED_PRECONDITION, "as asked")
    if request == b"raise":
        raise KeyError
    if request == b"slow":
        time.sleep(0.5)
    return repr((sorted(key for key in seen if key.startswith("terncommode")), tags(current())[0] - {"said"})).encode()


def stream(request, context):
    for number in range(3):
        add(tag("said"))
        yield str(number).encode()
        if request == b"slow":
            time.sleep(0.3)
    add(tag("last"))
    if request == b"abort":
        context.abort(grpc.StatusCode.FAILED_PRECONDITION, "as asked")
    if request == b"raise":
        raise KeyError


def gather(requests, context):
    for request in requests:
        add(tag(request.decode()))
    return b"done"


def both(requests, context):
    for request in requests:
        add(tag(request.decode()))
        yield request


async def unary_later(request, context):
    await asyncio.gather(_says("said"))
    if request == b"abort":
        await context.abort(grpc.StatusCode.FAILED_PRECONDITION, "as asked")
    if request == b"slow":
        await asyncio.sleep(0.5)
    return b"done"


async def _says(name):
    await asyncio.sleep(0)
    add(tag(name))


async def stream_later(request, context):
    for number in range(3):
        await _says("said")
        yield str(number).encode()
    await _says("last")
    if request == b"abort":
        await context.abort(grpc.StatusCode.FAILED_PRECONDITION, "as asked")


async def gather_later(requests, context):
    async for request in requests:
        add(tag(request.decode()))
    return b"done"


async def both_later(requests, context):
    async for request in requests:
        add(tag(request.decode()))
        yield request


def handlers(functions):
    one, many, gathers, two = functions
    rows = {"unary": grpc.unary_unary_rpc_method_handler(one), "stream": grpc.unary_stream_rpc_method_handler(many),
            "gather": grpc.stream_unary_rpc_method_handler(gathers), "both": grpc.stream_stream_rpc_method_handler(two)}
    return grpc.method_handlers_generic_handler("cells.Cells", rows)


@contextlib.contextmanager
def served(interceptors, functions=(unary, stream, gather, both)):
    """A server with these interceptors; its address."""
    server = grpc.server(concurrent.futures.ThreadPoolExecutor(8), interceptors=interceptors)
    server.add_generic_rpc_handlers((handlers(functions),))
    port = server.add_insecure_port("127.0.0.1:0")
    server.start()
    try:
        yield f"127.0.0.1:{port}"
    finally:
        server.stop(0)


@contextlib.contextmanager
def calls(address, options=(), **settings):
    """The four calls of a channel whose client sends contexts."""
    from terncommode.grpc import ClientInterceptor
    with grpc.insecure_channel(address, options=options) as plain:
        channel = grpc.intercept_channel(plain, ClientInterceptor(**settings))
        yield (channel.unary_unary("/cells.Cells/unary"), channel.unary_stream("/cells.Cells/stream"), channel.stream_unary("/cells.Cells/gather"),
               channel.stream_stream("/cells.Cells/both"))


def held(work, *arguments):
    """What a request holds after some work, whatever becomes of it."""
    with begin(BAG.update([], {"id": 7, "tags": {"mine"}}), BAG) as here:
        with contextlib.suppress(grpc.RpcError, grpc.FutureTimeoutError, grpc.FutureCancelledError, StopIteration):
            work(*arguments)
    return here.end()


def threads(cells):
    from terncommode.grpc import ServerInterceptor
    with served([ServerInterceptor(BAG, Context.lost(), trusted=True)]) as address, calls(address) as (one, many, gathers, two):
        said, all_said = {"mine", "said"}, {"mine", "said", "last"}
        whole_calls(cells, one, many, gathers, two, said, all_said)
        broken_calls(cells, one, many, two)
        failing_futures(cells, one)
        cells.check("grpc, no request", raises(lambda: one(b"x")) is NoRequest, "no NoRequest")
        cells.check("grpc, no request, a stream", raises(lambda: list(many(b"x"))) is NoRequest, "no NoRequest")


def whole_calls(cells, one, many, gathers, two, said, all_said):
    for request in (b"x", b"abort", b"raise"):
        cells.take(f"grpc, unary, {request}", held(one, request), said)
        cells.take(f"grpc, future, {request}", held(lambda: one.future(request).result()), said)
        cells.take(f"grpc, with_call, {request}", held(lambda: one.with_call(request)), said)
        cells.take(f"grpc, stream, {request}", held(lambda: list(many(request))), all_said)
    cells.take("grpc, the same in a row", held(lambda: [one(b"x"), list(many(b"x")), one(b"x")]), all_said)
    cells.take("grpc, a stream of requests", held(lambda: gathers(iter([b"a", b"b"]))), {"mine", "a", "b"})
    cells.take("grpc, two streams", held(lambda: list(two(iter([b"a", b"b"])))), {"mine", "a", "b"})
    callbacks = []
    cells.take("grpc, a callback", held(lambda: (one.future(b"x").add_done_callback(callbacks.append), time.sleep(0.2))), said)
    cells.check("grpc, a callback is called", len(callbacks) == 1 and callbacks[0].result(), str(callbacks))


def broken_calls(cells, one, many, two):
    """Streams that are left in the midst are lost, from the first message on."""
    def leaves(number):
        taken = many(b"x")
        return [next(taken) for _ in range(number)]

    def cancels(number):
        taken = many(b"x")
        for _ in range(number):
            next(taken)
        taken.cancel()

    def reads_code(request):
        taken = many(request)
        for _ in range(3):
            next(taken)
        taken.code()

    def reads_head(request):
        many(request).initial_metadata()
    everything = {"mine", "said", "last"}
    cells.take("grpc, a stream that nobody reads", held(lambda: many(b"x")), {"mine"})
    for name, work in [("left after one", lambda: leaves(1)), ("left after three", lambda: leaves(3)), ("cancelled after one", lambda: cancels(1)), ("cancelled before one", lambda: cancels(0)),
                       ("deadline after one", lambda: list(many(b"slow", timeout=0.2))), ("left after the head", lambda: reads_head(b"slow")), ("a deadline", lambda: one(b"slow", timeout=0.1))]:
        found = held(work)
        cells.take(f"grpc, {name}", found, everything, False)
        cells.check(f"grpc, {name}", not tags(found)[1], "exact")
    cells.take("grpc, a stream whose end is asked for", held(reads_code, b"x"), everything)
    with begin(BAG.update([], {"id": 7, "tags": {"mine"}}), BAG) as here:
        taken = many(b"x")
        states = [tags(current())[1]]
        for _ in taken:
            states.append(tags(current())[1])
        cells.check("grpc, in the midst of a stream", states == [True, False, False, False], str(states))
        cells.take("grpc, after a stream", here.end(), everything)


def failing_futures(cells, one):
    def times_out():
        future = one.future(b"slow")
        try:
            future.result(timeout=0.05)
        except grpc.FutureTimeoutError:
            cells.check("grpc, a future that isn't there yet", tags(current()) == ({"mine"}, True), str(tags(current())))
        return future.result()
    cells.take("grpc, a future after its time", held(times_out), {"mine", "said"})

    def cancels():
        future = one.future(b"slow")
        future.cancel()
        return future.result()
    cells.take("grpc, a future that is cancelled", held(cancels), {"mine", "said"}, False)


def raises(call):
    try:
        call()
    except Exception as error:
        return type(error)
    return None


def without_contexts(cells):
    """Servers that send none back, or a blank one; and none at all."""
    class Blank(grpc.ServerInterceptor):
        def intercept_service(self, continuation, details):
            def run(request, context):
                context.set_trailing_metadata(((KEY, b""),))
                return b"done"
            return grpc.unary_unary_rpc_method_handler(run)

    class Plain(grpc.ServerInterceptor):
        def intercept_service(self, continuation, details):
            def run(request, context):
                if request == b"abort":
                    context.abort(grpc.StatusCode.UNAVAILABLE, "failed to connect to all addresses")
                return b"done"
            return grpc.unary_unary_rpc_method_handler(run)

    for name, interceptor in (("a blank trailer", Blank()), ("no trailer", Plain())):
        with served([interceptor]) as address, calls(address) as (one, _, _, _):
            for request in (b"x", b"abort"):
                found = held(one, request)
                cells.check(f"grpc, {name}, {request}", not tags(found)[1], "exact")
    for settings, is_exact in (({}, True), ({"on_failure": Context.lost()}, False)):
        with calls(f"127.0.0.1:{free_port()}", **settings) as (one, many, _, _):
            for work in (lambda: one(b"x"), lambda: list(many(b"x"))):
                found = held(work)
                cells.check(f"grpc, no server {settings}", tags(found) == ({"mine"}, is_exact), str(tags(found)))


def retried(cells):
    """What gRPC itself retries: it keeps to itself what the attempts before have said."""
    from terncommode.grpc import ServerInterceptor
    attempts = []

    def fails_twice(request, context):
        attempts.append(request)
        add(tag(f"attempt {len(attempts)}"))
        if len(attempts) < 3:
            context.abort(grpc.StatusCode.UNAVAILABLE, "again")
        return b"done"
    policy = {"maxAttempts": 4, "initialBackoff": "0.01s", "maxBackoff": "0.02s", "backoffMultiplier": 1, "retryableStatusCodes": ["UNAVAILABLE"]}
    config = json.dumps({"methodConfig": [{"name": [{}], "retryPolicy": policy}]})
    with served([ServerInterceptor(BAG, Context.lost(), trusted=True)], (fails_twice, stream, gather, both)) as address:
        with calls(address, options=[("grpc.enable_retries", 1), ("grpc.service_config", config)]) as (one, _, _, _):
            found = held(one, b"x")
    cells.take("grpc, retried", found, {"mine", "attempt 1", "attempt 2", "attempt 3"}, False)
    cells.check("grpc, retried", len(attempts) == 3 and not tags(found)[1], str((attempts, tags(found))))


def nested(cells):
    """An interceptor inside of another: what either hears goes back."""
    from terncommode.grpc import ServerInterceptor
    two = [ServerInterceptor(BAG, Context.lost(), trusted=True) for _ in range(2)]
    with served(two) as address, calls(address) as (one, many, _, _):
        cells.take("grpc, two interceptors", held(one, b"x"), {"mine", "said"})
        cells.take("grpc, two interceptors, a stream", held(lambda: list(many(b"x"))), {"mine", "said", "last"})


def edge(cells):
    """An edge sees nothing of strangers, and sends nothing back."""
    from terncommode.grpc import ServerInterceptor
    stranger = to_binary(tag("stranger"))
    metadata = ((KEY, stranger), ("terncommode", "x"), ("terncommode-step", "a.1"), ("other", "y"), ("baggage", "a=b,terncommode=x"))
    for trusted in (False, True):
        with served([ServerInterceptor(BAG, Context(), trusted=trusted)]) as address, grpc.insecure_channel(address) as channel:
            reply, call = channel.unary_unary("/cells.Cells/unary").with_call(b"x", metadata=metadata)
            back = [value for key, value in call.trailing_metadata() if key == KEY]
            if trusted:
                cells.check("grpc, inside", b"stranger" in reply and len(back) == 1, str(reply))
            else:
                cells.check("grpc, an edge", (reply, back) == (repr(([], frozenset())).encode(), []), str((reply, back)))


async def in_loop(cells):
    from terncommode.grpc_aio import ServerInterceptor, client_interceptors
    server = grpc.aio.server(interceptors=[ServerInterceptor(BAG, Context.lost(), trusted=True)])
    server.add_generic_rpc_handlers((handlers((unary_later, stream_later, gather_later, both_later)),))
    port = server.add_insecure_port("127.0.0.1:0")
    await server.start()
    async with grpc.aio.insecure_channel(f"127.0.0.1:{port}", interceptors=client_interceptors()) as channel:
        one, many = channel.unary_unary("/cells.Cells/unary"), channel.unary_stream("/cells.Cells/stream")
        gathers, two = channel.stream_unary("/cells.Cells/gather"), channel.stream_stream("/cells.Cells/both")
        said, all_said = {"mine", "said"}, {"mine", "said", "last"}
        for request in (b"x", b"abort"):
            cells.take(f"grpc.aio, unary, {request}", await held_later(_unary(one, request)), said)
            cells.take(f"grpc.aio, stream, {request}", await held_later(lambda: _all(many(request))), all_said)
        cells.take("grpc.aio, gathered", await held_later(lambda: asyncio.gather(_unary(one, b"x")(), _all(many(b"x")))), all_said)
        cells.take("grpc.aio, a stream of requests", await held_later(_unary(gathers, _given(b"a", b"b"))), {"mine", "a", "b"})
        cells.take("grpc.aio, two streams", await held_later(lambda: _all(two(_given(b"a", b"b")))), {"mine", "a", "b"})
        for name, work in (("left after one", lambda: _some(many(b"x"))), ("a deadline", lambda: one(b"slow", timeout=0.1))):
            found = await held_later(work)
            cells.check(f"grpc.aio, {name}", not tags(found)[1], "exact")
    async with grpc.aio.insecure_channel(f"127.0.0.1:{free_port()}", interceptors=client_interceptors()) as channel:
        found = await held_later(_unary(channel.unary_unary("/cells.Cells/unary"), b"x"))
        cells.check("grpc.aio, no server", tags(found) == ({"mine"}, True), str(tags(found)))
    await server.stop(0)


async def held_later(work):
    with begin(BAG.update([], {"id": 7, "tags": {"mine"}}), BAG) as here:
        with contextlib.suppress(grpc.RpcError):
            await asyncio.ensure_future(_ran(work))
    return here.end()


async def _ran(work):
    return await work()


def _unary(call, request):
    async def work():
        return await call(request)
    return work


async def _all(call):
    return [message async for message in call]


async def _some(call):
    async for _ in call:
        return


async def _given(*requests):
    for request in requests:
        yield request


def main(cells, skipped):
    if grpc is None:
        skipped("grpc")
        return
    threads(cells)
    if not QUICK:
        without_contexts(cells)
    edge(cells)
    nested(cells)
    retried(cells)
    asyncio.run(in_loop(cells))
