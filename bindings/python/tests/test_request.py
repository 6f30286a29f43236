"""The request that runs, and what it holds."""
import asyncio
import concurrent.futures
import contextvars
import logging
import os
import subprocess
import sys
import threading
import unittest
import unittest.mock

import terncommode
from terncommode import BadWrite, Bag, Context, NoField, NoRequest, add, begin, bound, branch, change, count, current, expect, request

BAG = Bag("baggage table 1\n0 0 id scalar fixed32\n0 1 tags set string\n0 2 hops counter\n0 3 load map string counter\n")
ID7, TAG = Context(bytes.fromhex("02f800050000000007")), Context(bytes.fromhex("02f801020061"))
ILL = Context(bytes.fromhex("02f8020100"))


def tag(name):
    return BAG.update([], {"tags": {name}})


def tags(context):
    return sorted(BAG.read(context, "tags").value), BAG.read(context, "tags").exact


def total(context):
    field = BAG.only("hops").read(context, "hops")
    return sum(field.value.values()), field.exact


class Holding(unittest.TestCase):
    def test_it_grows_until_the_end_and_tells_what_is_late(self):
        before = terncommode.seen()["late"]
        with begin(ID7, BAG) as here:
            self.assertIs(request(), here)
            self.assertEqual(current(), ID7)
            self.assertTrue(add(TAG))
            self.assertTrue(change(lambda context: BAG.update([context], {"tags": {"b"}})))
            self.assertEqual(tags(current()), (["a", "b"], True))
            self.assertEqual(here.end(), current())
            self.assertEqual([add(tag("c")), change(lambda context: context | tag("d")), count("hops"), expect().came(tag("e"))], [False] * 4)
            self.assertEqual((tags(current()), here.late), ((["a", "b", "c", "d", "e"], True), 4))
        self.assertEqual(terncommode.seen()["late"], before + 4)
        self.assertFalse(here.add(tag("f")))
        for wrong in (b"", None, BAG, "x"):
            with self.assertRaisesRegex(TypeError, "^a Context is wanted, not "):
                here.add(wrong)
            with self.assertRaisesRegex(TypeError, "^a Context is wanted, not "):
                here.change(lambda context: wrong)
            with self.assertRaisesRegex(TypeError, "^a Context is wanted, not "):
                here.expect().came(wrong)
            with self.assertRaises(TypeError):
                begin(wrong)

    def test_a_log_may_ask_for_the_current_context(self):
        found = []

        class Handler(logging.Handler):
            def emit(self, record):
                found.append((record.getMessage().split(";")[0], current()))

        handler, logger = Handler(), logging.getLogger("terncommode")
        logger.addHandler(handler)
        try:
            with unittest.mock.patch.dict(terncommode._watch._counts, late=0):
                with begin(ID7) as here:
                    here.end()
                    self.assertFalse(add(TAG))
                    self.assertFalse(add(TAG))
        finally:
            logger.removeHandler(handler)
        self.assertEqual(found, [("something was said of a request after its reply began", ID7 | TAG)])

    def test_where_no_request_runs(self):
        def work():
            before = terncommode.seen()["no_request"]
            self.assertEqual(current(), Context.lost())
            for call in (request, lambda: add(TAG), lambda: change(lambda context: context), lambda: count("hops", 1, BAG), expect, branch):
                with self.assertRaisesRegex(NoRequest, "no request runs here: "):
                    call()
            self.assertEqual(terncommode.seen()["no_request"], before + 6)
            with begin(ID7):
                self.assertEqual(current(), ID7)
            self.assertEqual(current(), Context.lost())
            with self.assertRaises(KeyError):
                with begin(ID7):
                    raise KeyError
            self.assertEqual(current(), Context.lost())
        contextvars.Context().run(work)

    def test_a_step_runs_without_the_lock(self):
        with begin(ID7) as here:
            def step(context):
                self.assertTrue(here.add(tag("inside")))
                worker = threading.Thread(target=bound(lambda: add(tag("beside"))))
                worker.start()
                worker.join()
                return BAG.update([context], {"tags": {"step"}})
            self.assertTrue(here.change(step))
            self.assertEqual(tags(current()), (["beside", "inside", "step"], True))

            def fails(context):
                raise KeyError
            with self.assertRaises(KeyError):
                here.change(fails)
            self.assertEqual(tags(current()), (["beside", "inside", "step"], True))

    def test_many_threads(self):
        with begin(Context(), BAG) as here:
            def work(number):
                for turn in range(50):
                    here.add(tag(f"{number}.{turn}"))
                    here.change(lambda context: BAG.update([context], {"tags": {f"{number}.{turn}.step"}}))
                    here.count("hops")
            threads = [threading.Thread(target=work, args=[number]) for number in range(8)]
            for thread in threads:
                thread.start()
            for thread in threads:
                thread.join()
        self.assertEqual((len(tags(here.context)[0]), total(here.context)), (800, (400, True)))

    def test_a_count_belongs_to_its_slot_whatever_a_table_calls_it(self):
        first = Bag("baggage table 1\n0 2 hops counter\n0 3 sub bag\n1 2 hops counter\n0 4 load map bytes greatest uint64\n")
        second = Bag("baggage table 1\n0 2 jumps counter\n0 3 below bag\n1 2 jumps counter\n1 3 hop counter\n0 5 hops counter\n")
        with begin(Context()) as here:
            for bag, path, number in (
                (first, "hops", 2), (second, "jumps", 3), (second, "hops", 5), (first, "hops", 7), (first, "sub.hops", 11), (second, "below.jumps", 13), (second, "below.hop", 17),
            ):
                self.assertTrue(count(path, number, bag))
            for path, refusal in (("sub", NoField), ("load", BadWrite)):
                self.assertRaises(refusal, count, path, 1, first)
        for path, number in (("jumps", 12), ("hops", 5), ("below.jumps", 24), ("below.hop", 17)):
            field = second.read(here.context, path)
            self.assertEqual((path, sum(field.value.values()), field.exact), (path, number, True))

    def test_branches(self):
        with begin(ID7, BAG) as here:
            with branch() as first:
                self.assertIs(request(), first)
                add(tag("first"))
                count("hops")
            with here.branch() as second:
                add(tag("second"))
                count("hops")
            self.assertEqual(current(), ID7)
            self.assertTrue(add(first.context))
            self.assertEqual((tags(current()), total(current())), ((["first"], True), (1, True)))
            self.assertTrue(add(second.context | first.context))
            self.assertEqual((tags(current()), total(current())), ((["first", "second"], True), (2, True)))
            self.assertFalse(first.add(tag("late")))

    def test_what_follows_a_request(self):
        found = {}

        async def task(name):
            await asyncio.sleep(0.001)
            found[name] = add(tag(name))

        async def work():
            with begin(ID7) as here:
                await asyncio.gather(task("gather"), asyncio.wait_for(task("wait_for"), 5))
                await asyncio.create_task(task("task"))
                loop = asyncio.get_running_loop()
                with concurrent.futures.ThreadPoolExecutor(1) as pool:
                    await loop.run_in_executor(pool, bound(lambda: add(tag("bound"))))
                    copied = contextvars.copy_context()
                    await loop.run_in_executor(pool, copied.run, lambda: add(tag("copied")))
                    with self.assertRaises(NoRequest):
                        await loop.run_in_executor(pool, lambda: add(tag("unbound")))
                    bound_task = bound(task)
                    await contextvars.Context().run(asyncio.ensure_future, bound_task("bound_task"))
                return here.context
        self.assertEqual(tags(asyncio.run(work())), (["bound", "bound_task", "copied", "gather", "task", "wait_for"], True))
        self.assertEqual(set(found.values()), {True})

        def outside():
            work = bound(current)
            with begin(ID7):
                return work()
        self.assertEqual(contextvars.Context().run(outside), Context.lost())

    def test_a_with_that_ends_in_another_copy_of_the_variables(self):
        running = begin(ID7)
        contextvars.copy_context().run(running.__enter__)
        contextvars.copy_context().run(running.__exit__, None, None, None)

    @unittest.skipUnless(hasattr(os, "fork"), "there is no fork")
    def test_a_fork_says_nothing(self):
        with begin(ID7, BAG) as here:
            work = bound(lambda: None)
            reply = expect()
            calls = [lambda: add(TAG), lambda: here.add(TAG), lambda: here.change(lambda context: context), lambda: count("hops"), lambda: here.count("hops"), work,
                     here.branch, here.expect, lambda: here.bound(work), lambda: reply.came(TAG)]
            reading, writing = os.pipe()
            child = os.fork()
            if child == 0:
                said = [_raised(call) for call in calls] + [current() == Context.lost()]
                os.write(writing, repr(said).encode())
                os._exit(0)
            os.waitpid(child, 0)
            os.close(writing)
            with open(reading, "rb") as file:
                self.assertEqual(file.read().decode(), repr(["NoRequest"] * len(calls) + [True]))
            self.assertEqual(current(), ID7)


def _raised(call):
    try:
        call()
    except Exception as error:
        return type(error).__name__
    return None


class Replies(unittest.TestCase):
    def test_a_reply_that_came(self):
        with begin(ID7) as here:
            reply = expect()
            self.assertEqual(current(), ID7)
            for _ in range(2):
                reply.began()
                self.assertEqual(current(), ID7 | Context.lost())
            self.assertTrue(reply.came(TAG))
            self.assertEqual(current(), ID7 | TAG)
            reply.began()
            reply.failed()
            self.assertEqual(here.end(), ID7 | TAG)

    def test_a_reply_that_failed(self):
        for began in (False, True):
            with begin(ID7) as here:
                with expect() as reply:
                    if began:
                        reply.began()
                lost = ID7 | Context.lost() if began else ID7
                self.assertEqual((current(), here.end()), (lost, lost))
                reply.failed()
                # A hedge that comes after all is added.
                self.assertFalse(reply.came(TAG))
                self.assertEqual(current(), lost | TAG)

    def test_a_reply_that_is_still_open_at_the_end(self):
        with begin(ID7) as here:
            first, second = expect(), expect()
            first.began()
            self.assertEqual(here.end(), ID7 | Context.lost())
            self.assertFalse(first.came(TAG))
            self.assertEqual(here.context, ID7 | TAG)
            second.began()
            self.assertEqual(here.context, ID7 | TAG | Context.lost())
            self.assertFalse(second.came(Context()))
            self.assertEqual(here.context, ID7 | TAG)

    def test_a_step_beside_an_open_reply_sees_it(self):
        with begin(ID7):
            reply = expect()
            reply.began()
            change(lambda context: BAG.update([context], {"tags": {"exact"}} if BAG.read(context, "id").exact else {"tags": {"partial"}}))
            add(tag("added"))
            reply.came(TAG)
            self.assertEqual(tags(current()), (["a", "added", "partial"], False))
        with begin(ID7, BAG):
            reply = expect()
            reply.began()
            count("hops")
            add(tag("added"))
            reply.came(TAG)
            self.assertEqual((tags(current()), total(current())), ((["a", "added"], True), (1, True)))


class Counting(unittest.TestCase):
    def test_a_visit_is_a_writer(self):
        with begin(Context(), BAG) as here:
            self.assertEqual([count("hops"), count("hops", 5), here.count("hops", 0), count("hops", 4)], [True] * 4)
            self.assertEqual(total(current()), (10, True))
            writer, = BAG.read(current(), "hops").value
            self.assertEqual(len(writer), 8)
            before = len(current())
            with begin(current(), BAG):
                count("hops", 2)
                self.assertEqual(total(current()), (12, True))
                self.assertIn(len(current()) - before, (13, 14, 15))
                here.add(current())
        self.assertEqual(total(here.context), (12, True))
        with begin(Context()):
            with self.assertRaisesRegex(TypeError, "^count needs a bag"):
                count("hops")
            self.assertTrue(count("hops", 3, BAG))
            self.assertEqual(total(current()), (3, True))

    def test_what_is_no_count(self):
        with begin(ID7, BAG):
            for path, number, error, said in [("hop", 1, NoField, "no field 'hop'"), ("tags", 1, BadWrite, "tags: not a counter"), ("load", 1, BadWrite, "load: not a counter"),
                                              ("hops", -1, BadWrite, "hops: not a number to count: -1"), ("hops", True, BadWrite, "hops: not a number to count: True"),
                                              ("hops", 1.5, BadWrite, "hops: not a number to count: 1.5"), ("hops", 2**64, BadWrite, "hops: the count is longer than 64 bits")]:
                with self.assertRaises(error) as caught:
                    count(path, number)
                self.assertEqual(str(caught.exception), said)
            self.assertEqual(current(), ID7)
            self.assertTrue(count("hops", 2**64 - 1))
            with self.assertRaises(BadWrite):
                count("hops")
            self.assertEqual(total(current()), (2**64 - 1, True))

    def test_beside_a_counter_that_is_ill_typed(self):
        ill = Context(bytes.fromhex("02f802020000"))
        with begin(ill, BAG):
            self.assertTrue(count("hops", 3))
            self.assertEqual(current() | ill, current())
            self.assertGreater(len(current()), len(ill))

    def test_fan_out_retries_hedges_and_restarts(self):
        """Ten visits below, each with its own below it; replies late, doubled, retried; and a service that starts anew in between."""
        def leaf(context):
            with begin(context, BAG) as here:
                count("hops", 3)
            return here.context

        def worker(context):
            with begin(context, BAG) as here:
                count("hops", 1)
                add(leaf(here.context))
                count("hops", 1)
            return here.context

        def gateway(worked):
            with begin(Context(), BAG) as here:
                count("hops")
                with concurrent.futures.ThreadPoolExecutor(4) as pool:
                    replies = list(pool.map(bound(lambda number: worked(here.context)), range(10)))
                for reply in replies + replies[:3]:
                    add(reply)
            return here.context

        self.assertEqual(total(gateway(worker)), (1 + 10 * 5, True))
        self.assertEqual(total(gateway(lambda context: worker(context) | worker(context))), (1 + 20 * 5, True))

        def restarted(context):
            """A visit of a service that starts, answers and ends."""
            script = ("import sys\nfrom terncommode import *\nwith begin(from_header(sys.argv[1]), Bag(sys.argv[2])) as here:\n"
                      "    count('hops', 5)\nprint(to_header(here.context))\n")
            ran = subprocess.run([sys.executable, "-c", script, terncommode.to_header(context), BAG.table], capture_output=True, text=True, check=True)
            return terncommode.from_header(ran.stdout.strip())

        with begin(Context(), BAG) as here:
            for _ in range(3):
                add(restarted(here.context))
        self.assertEqual(total(here.context), (15, True))


if __name__ == "__main__":
    unittest.main()
