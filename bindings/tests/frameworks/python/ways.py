"""The ways in which a handler may run what it does. Each is handed a function that says a tag and asks a service that says another."""
import asyncio
import concurrent.futures
import contextvars
import sys
import threading

from terncommode import NoRequest, add, begin, bound, branch, request

from cells import number_of, say

POOL = concurrent.futures.ThreadPoolExecutor(8)


async def sequence(ask):
    await ask("a")
    await ask("b")


async def gather(ask):
    await asyncio.gather(ask("a"), ask("b"), ask("c"))


async def wait_for(ask):
    await asyncio.wait_for(ask("a"), 10)


async def times_out(ask):
    try:
        await asyncio.wait_for(ask("slow"), 0.02)
    except asyncio.TimeoutError:
        say("timed out")


async def task_group(ask):
    if sys.version_info < (3, 11):
        return await gather(ask)
    async with asyncio.TaskGroup() as group:
        group.create_task(ask("a"))
        group.create_task(ask("b"))


async def to_thread(ask):
    if sys.version_info < (3, 9):
        return
    await asyncio.to_thread(say, "thread")


async def executor_bound(ask):
    await asyncio.get_running_loop().run_in_executor(None, bound(lambda: say("pool")))


async def executor_copied(ask):
    await asyncio.get_running_loop().run_in_executor(POOL, contextvars.copy_context().run, lambda: say("pool"))


async def executor_forgot(ask):
    try:
        await asyncio.get_running_loop().run_in_executor(POOL, lambda: say("pool"))
    except NoRequest:
        say("refused")


async def copied_context(ask):
    contextvars.copy_context().run(lambda: say("copied"))
    await contextvars.copy_context().run(asyncio.ensure_future, ask("a"))


async def fresh_context(ask):
    try:
        await contextvars.Context().run(asyncio.ensure_future, ask("a"))
    except NoRequest:
        say("refused")


async def fresh_context_bound(ask):
    await contextvars.Context().run(asyncio.ensure_future, bound(ask)("a"))


async def detached(ask):
    asyncio.ensure_future(ask("detached"))
    await ask("a")


async def detached_late(ask):
    async def later():
        await asyncio.sleep(0.05)
        await ask("detached")
    asyncio.ensure_future(later())
    await ask("a")


async def branch_that_stays(ask):
    number = number_of(request().context)
    with branch() as own:
        own.add(begin_with(number, "stays"))
    await ask("a")


def begin_with(number, name):
    """A context that isn't noted: it is said on a branch alone."""
    from cells import tag
    return tag(name)


async def branch_that_comes_back(ask):
    with branch() as own:
        await ask("inner")
    add(own.context)
    await ask("a")


async def many_children(ask):
    await asyncio.gather(*[asyncio.ensure_future(_child(number)) for number in range(20)])


async def _child(number):
    await asyncio.sleep(0.001)
    say(f"child {number}")


async def call_soon(ask):
    done = asyncio.Event()

    def work():
        say("soon")
        done.set()
    asyncio.get_running_loop().call_soon(work)
    asyncio.get_running_loop().call_later(0.001, lambda: say("later"))
    await done.wait()
    await asyncio.sleep(0.02)


async def generator(ask):
    async def parts():
        for name in ("a", "b"):
            await ask(name)
            yield name
    async for _ in parts():
        pass


async def queue(ask):
    """A consumer that was started outside of any request: it takes each job's request with the job."""
    jobs = asyncio.Queue()

    async def consumes():
        while True:
            job = await jobs.get()
            if job is None:
                return
            await job()
    consumer = contextvars.Context().run(asyncio.ensure_future, consumes())
    done = asyncio.Event()

    async def job():
        await ask("queued")
        done.set()
    await jobs.put(bound(job))
    await jobs.put(None)
    await done.wait()
    await consumer


async def cancelled(ask):
    task = asyncio.ensure_future(ask("slow"))
    await asyncio.sleep(0.01)
    task.cancel()
    await asyncio.gather(task, return_exceptions=True)
    await ask("a")


async def nested_request(ask):
    """A request of another visit inside: nothing of it is said here."""
    with begin(request().context.cut(1)):
        add(begin_with(0, "other"))
    await ask("a")


ASYNC = [sequence, gather, wait_for, times_out, task_group, to_thread, executor_bound, executor_copied, executor_forgot, copied_context, fresh_context, fresh_context_bound, detached,
         detached_late, branch_that_stays, branch_that_comes_back, many_children, call_soon, generator, queue, cancelled, nested_request]
# Where a call is given up after it was sent, a client may not be able to tell.
MAY_BE_PARTIAL = {"times_out", "cancelled", "detached", "detached_late"}


def sync_sequence(ask):
    ask("a")
    ask("b")


def pool_bound(ask):
    list(POOL.map(bound(ask), ["a", "b", "c"]))


def pool_forgot(ask):
    found = [_refused(future) for future in [POOL.submit(ask, "a"), POOL.submit(say, "b")]]
    say(f"refused {found.count(True)}")


def _refused(future):
    return isinstance(future.exception(), NoRequest)


def thread_bound(ask):
    _joined([threading.Thread(target=bound(ask), args=[name]) for name in "ab"])


def thread_copied(ask):
    _joined([threading.Thread(target=contextvars.copy_context().run, args=[ask, name]) for name in "ab"])


def _joined(threads):
    for thread in threads:
        thread.start()
    for thread in threads:
        thread.join()


def sync_branch(ask):
    with branch() as own:
        ask("inner")
    add(own.context)


def own_loop(ask):
    async def work():
        await asyncio.gather(*[_child(number) for number in range(3)])
    asyncio.run(work())


def thread_detached(ask):
    threading.Timer(0.05, bound(lambda: say("detached"))).start()
    ask("a")


SYNC = [sync_sequence, pool_bound, pool_forgot, thread_bound, thread_copied, sync_branch, own_loop, thread_detached]
