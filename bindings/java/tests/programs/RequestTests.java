import java.math.BigInteger;
import java.util.ArrayList;
import java.util.List;
import java.util.Map;
import java.util.Set;
import java.util.concurrent.Callable;
import java.util.concurrent.CompletableFuture;
import java.util.concurrent.CountDownLatch;
import java.util.concurrent.Executor;
import java.util.concurrent.ExecutorService;
import java.util.concurrent.Executors;
import java.util.concurrent.Future;
import java.util.concurrent.TimeUnit;
import java.util.function.Consumer;
import org.terncommode.Bag;
import org.terncommode.Context;
import org.terncommode.Counter;
import org.terncommode.Field;
import org.terncommode.Refused;
import org.terncommode.Reply;
import org.terncommode.Request;
import org.terncommode.Writes;

/** A request's holder, its replies and its counters. */
final class RequestTests {
    private static final Bag BAG = Trying.BAG;
    private static final Context A = Trying.said("id", 7);
    private static final Context B = Trying.said("tags", Set.of("b"));
    private static final int THREADS = 64;

    private RequestTests() {}

    private static BigInteger total(Context context, String path) {
        Field<Counter> field = BAG.readCounter(context, path);
        Trying.same(field.isExact(), true);
        return field.value().total();
    }

    static void testWhatIsHeld() {
        Request request = new Request(A);
        Request branch = request.branch();
        Trying.same(branch.add(B), true);
        Trying.same(request.context(), A);
        Trying.same(request.add(branch.context()), true);
        Trying.same(request.context(), A.join(B));
        Trying.refused(ArithmeticException.class, () -> request.change(context -> { throw new ArithmeticException(); }));
        Trying.refused(NullPointerException.class, () -> request.change(context -> null));
        Trying.same(request.context(), A.join(B));
        Trying.same(request.change(context -> B), true);
        Trying.same(request.context(), B);
    }

    static void testAStepRunsUnlocked() {
        Request request = new Request(Context.EMPTY);
        Trying.same(request.change(context -> {
            Trying.same(request.context(), context);
            request.add(A);
            request.change(inner -> BAG.update(inner));
            return context.join(B);
        }), true);
        Trying.same(request.context(), A.join(B));
    }

    static void testWhereNoRequestRuns() throws Exception {
        Trying.same(Request.current(), Context.LOST);
        Trying.same(Request.running().isPresent(), false);
        Trying.refused(Refused.NoRequest.class, Request::here);
        Request request = new Request(A);
        request.run(() -> {
            Trying.same(Request.here(), request);
            Trying.same(Request.current(), A);
            Request inner = request.branch();
            inner.run(() -> Trying.same(Request.here(), inner));
            Trying.same(Request.here(), request);
        });
        Trying.refused(IllegalStateException.class, () -> request.run(() -> { throw new IllegalStateException(); }));
        Trying.same(Request.running().isPresent(), false);
        // A thread that is started inside runs in none.
        List<Boolean> found = new ArrayList<>();
        request.call(() -> {
            Thread thread = new Thread(() -> found.add(Request.running().isPresent()));
            thread.start();
            thread.join();
            return null;
        });
        Trying.same(found, List.of(false));
    }

    static void testAfterTheEnd() {
        Request request = new Request(A);
        Trying.same(request.end(), A);
        Trying.same(request.late(), 0);
        Trying.same(request.add(B), false);
        Trying.same(request.change(context -> BAG.update(context, Writes.of("debug", true))), false);
        Trying.same(request.count(BAG, "hops", 2), false);
        Trying.same(request.expect().came(A), false);
        Trying.same(request.late(), 4);
        Trying.same(BAG.readTaint(request.context(), "debug").toString(), "exact true");
        Trying.same(request.branch().add(A), true);
    }

    static void testReplies() {
        Context both = A.join(B);
        Object[][] rows = {
            {(Consumer<Reply>) reply -> reply.came(B), both},
            {(Consumer<Reply>) reply -> { reply.began(); reply.began(); reply.came(B); reply.failed(); }, both},
            {(Consumer<Reply>) reply -> { reply.failed(); reply.began(); }, A},
            {(Consumer<Reply>) reply -> { reply.began(); reply.failed(); reply.failed(); }, A.join(Context.LOST)},
            {(Consumer<Reply>) Reply::began, A.join(Context.LOST)},
            {(Consumer<Reply>) reply -> { reply.began(); reply.failed(); reply.came(B); }, both.join(Context.LOST)}};
        for (Object[] row : rows) {
            Request request = new Request(A);
            @SuppressWarnings("unchecked")
            Consumer<Reply> ends = (Consumer<Reply>) row[0];
            ends.accept(request.expect());
            Trying.same(request.context(), row[1]);
            Trying.same(request.branch().context(), row[1]);
            Trying.same(request.end(), row[1]);
            Trying.same(request.late(), 0);
        }
    }

    static void testWhatIsWrittenWhileAReplyIsOpen() {
        Request request = new Request(A);
        Reply first = request.expect();
        Reply second = request.expect();
        first.began();
        second.began();
        request.change(context -> {
            Trying.same(BAG.readScalar(context, "id", Long.class).isExact(), false);
            Trying.same(context.hashCode(), A.join(Context.LOST).hashCode());
            Trying.same(context, A.join(Context.LOST));
            return BAG.update(context.join(B), Writes.of("debug", true));
        });
        first.came(Context.EMPTY);
        Trying.same(BAG.readTaint(request.context(), "debug").isExact(), false);
        second.came(Context.EMPTY);
        Trying.same(BAG.readTaint(request.context(), "debug").toString(), "exact true");
        Trying.same(BAG.readSet(request.end(), "tags", String.class).value(), Set.of("b"));
    }

    static void testAnIllTypedOpenContextIsToldAsItIsSeen() {
        Request request = new Request(Context.of(Answers.bytesOf("02f80003007878")));
        request.expect().began();
        request.change(context -> {
            Refused.IllTyped refused = Trying.refused(Refused.IllTyped.class, () -> BAG.update(context));
            Refused.IllTyped seen = Trying.refused(Refused.IllTyped.class, () -> BAG.update(Context.of(context.bytes())));
            Trying.same(refused.offset(), seen.offset());
            return context;
        });
    }

    static void testWhatAStepTakesOutOfAnOpenContextStaysLost() {
        Request request = new Request(A);
        Reply reply = request.expect();
        reply.began();
        request.change(context -> Context.of(context.bytes()));
        reply.came(Context.EMPTY);
        Trying.same(request.context(), A.join(Context.LOST));
    }

    static void testCounts() {
        Request request = new Request(Context.EMPTY);
        Trying.same(request.count(BAG, "hops", 2), true);
        request.count(BAG.only("hops"), "hops", 3); // the same counter of another table
        request.count(Bag.of("baggage table 1\n0 2 jumps counter\n"), "jumps", 4); // and by another name
        Trying.same(total(request.context(), "hops"), BigInteger.valueOf(9));
        Bag other = Bag.of("baggage table 1\n0 5 inner bag\n1 2 hops counter\n0 7 hops counter\n");
        request.count(other, "hops", 1); // another counter of the same name
        request.count(other, "inner.hops", 5);
        Context context = request.context();
        Trying.same(total(context, "hops"), BigInteger.valueOf(9));
        Trying.same(other.readCounter(context, "hops").value().total(), BigInteger.ONE);
        Trying.same(other.readCounter(context, "inner.hops").value().total(), BigInteger.valueOf(5));
        Request branch = request.branch();
        branch.count(BAG, "hops", 10);
        request.count(BAG, "hops", 1);
        Trying.same(total(branch.context().join(request.context()), "hops"), BigInteger.valueOf(20));
        Trying.same(Trying.refused(Refused.BadWrite.class, () -> request.count(BAG, "tags", 1)).path(), "tags");
        Trying.refused(Refused.BadWrite.class, () -> request.count(BAG, "hops", -1));
        Trying.refused(Refused.NoField.class, () -> request.count(BAG, "nope", 1));
        Request most = new Request(Context.EMPTY);
        most.count(BAG, "hops", Long.MAX_VALUE);
        most.count(BAG, "hops", Long.MAX_VALUE);
        most.count(BAG, "hops", 1);
        Trying.refused(Refused.BadWrite.class, () -> most.count(BAG, "hops", 1));
        Trying.same(total(most.context(), "hops"), BigInteger.ONE.shiftLeft(64).subtract(BigInteger.ONE));
        // Where somebody wrote what the table doesn't allow, counts aren't lost.
        Request ill = new Request(Context.of(Answers.bytesOf("02f80003007878")));
        Trying.same(ill.count(BAG, "hops", 1) && ill.count(BAG, "hops", 1), true);
        Trying.same(BAG.only("hops").readCounter(ill.end(), "hops").value().total(), BigInteger.TWO);
    }

    static void testVisitsHaveWritersOfTheirOwn() {
        List<Context> visits = new ArrayList<>();
        for (int k = 0; k < 300; k++) {
            Request visit = new Request(Context.EMPTY);
            visit.count(BAG, "hops", 1);
            visits.add(visit.end());
        }
        Trying.same(total(Context.join(visits), "hops"), BigInteger.valueOf(300));
    }

    static void testManyThreads() throws Exception {
        Request request = new Request(Context.EMPTY);
        ExecutorService pool = Executors.newFixedThreadPool(THREADS);
        CountDownLatch ready = new CountDownLatch(THREADS);
        List<Future<?>> all = new ArrayList<>();
        for (int thread = 0; thread < THREADS; thread++) {
            int number = thread;
            all.add(pool.submit(request.wrapCallable(() -> {
                ready.countDown();
                ready.await();
                for (int turn = 0; turn < 20; turn++) {
                    Request here = Request.here();
                    String tag = number + "." + turn;
                    here.add(Trying.said("tags", Set.of(tag)));
                    here.count(BAG, "hops", 1);
                    here.change(context -> BAG.update(context, Writes.of("tags", Set.of(tag + "!"))));
                    Context lost = Context.join(context(number), Context.LOST).cut(12);
                    Trying.same(lost.size() <= 12, true);
                }
                return null;
            })));
        }
        for (Future<?> each : all) {
            each.get();
        }
        pool.shutdown();
        Trying.same(BAG.readSet(request.context(), "tags", String.class).value().size(), THREADS * 40);
        Trying.same(total(request.end(), "hops"), BigInteger.valueOf(THREADS * 20));
    }

    private static Context context(int number) {
        return Trying.said("load", Map.of("k" + number, number));
    }

    static void testExecutors() throws Exception {
        ExecutorService pool = Executors.newFixedThreadPool(3);
        ExecutorService following = Request.following(pool);
        Request request = new Request(A);
        Request other = new Request(B);
        Callable<Context> reads = Request::current;
        request.call(() -> {
            Trying.same(following.submit(reads).get(), A);
            Trying.same(following.submit(() -> Request.here().add(B), true).get(), true);
            Trying.same(following.invokeAll(List.of(reads, reads)).get(1).get(), A.join(B));
            Trying.same(following.invokeAll(List.of(reads), 1, TimeUnit.MINUTES).get(0).get(), A.join(B));
            Trying.same(following.invokeAny(List.of(reads)), A.join(B));
            Trying.same(following.invokeAny(List.of(reads), 1, TimeUnit.MINUTES), A.join(B));
            Trying.same(CompletableFuture.supplyAsync(Request::current, following).get(), A.join(B));
            Trying.same(CompletableFuture.supplyAsync(Request::current, Request.following((Executor) pool)).get(), A.join(B));
            Trying.same(CompletableFuture.supplyAsync(Request::current, other.wrap(pool)).get(), B);
            Trying.same(CompletableFuture.supplyAsync(request.wrapSupplier(Request::current), pool)
                .thenApplyAsync(request.wrapFunction(context -> context.equals(Request.current())), pool).get(), true);
            CompletableFuture.runAsync(other.wrap(() -> Request.here().add(A)), pool).thenAccept(other.wrapConsumer(none -> Request.here().add(A)))
                .get();
            following.submit(() -> Request.here().count(BAG, "hops", 1)).get();
            return null;
        });
        Trying.same(total(request.end(), "hops"), BigInteger.ONE);
        Trying.same(following.submit(reads).get(), Context.LOST);
        Trying.same(pool.submit(reads).get(), Context.LOST);
        following.shutdown();
        Trying.same(following.awaitTermination(1, TimeUnit.MINUTES) && following.isShutdown() && following.isTerminated() && following.shutdownNow()
            .isEmpty(), true);
    }
}
