package org.terncommode;

import java.math.BigInteger;
import java.security.SecureRandom;
import java.util.ArrayList;
import java.util.Collection;
import java.util.HashMap;
import java.util.List;
import java.util.Map;
import java.util.Objects;
import java.util.Optional;
import java.util.concurrent.Callable;
import java.util.concurrent.Executor;
import java.util.concurrent.ExecutorService;
import java.util.function.Consumer;
import java.util.function.Function;
import java.util.function.Supplier;
import java.util.function.UnaryOperator;

/**
 * The context of one visit of a service, for all threads and tasks that work on it. It only grows, so the order in which they add to it doesn't
 * matter.
 *
 * <p>It runs in a thread by {@link #run} and {@link #call}; other threads, pools and callbacks are handed what {@link #wrap} gives, or are reached by
 * an executor of {@link #following}. A thread that is started inside of a request doesn't run in it by itself: what it says there throws {@link
 * Refused.NoRequest}.
 */
public final class Request {
    private static final ThreadLocal<Request> RUNNING = new ThreadLocal<>();
    private static final SecureRandom RANDOM = new SecureRandom();
    private static final int WRITER_BYTES = 8;
    private static final BigInteger GREATEST_COUNT = BigInteger.ONE.shiftLeft(64).subtract(BigInteger.ONE);

    private final Object lock = new Object();
    private Context held; // what was said here, and what came
    private int open; // replies that have begun and haven't come
    private int late;
    private boolean hasEnded;
    private Bytes writer; // of counts; null before the first
    private final Map<List<Integer>, BigInteger> totals = new HashMap<>(); // by the numbers of a counter's path, which are its place in a context

    /** A request that begins with this context. */
    public Request(Context context) {
        held = context.closed();
    }

    // ---- what runs here

    /** The request that runs in this thread; empty where none does. */
    public static Optional<Request> running() {
        return Optional.ofNullable(RUNNING.get());
    }

    /**
     * The request that runs in this thread.
     *
     * @throws Refused.NoRequest where none does: what would be said is never dropped without a word
     */
    public static Request here() {
        Request running = RUNNING.get();
        if (running == null) {
            throw new Refused.NoRequest();
        }
        return running;
    }

    /** What the request that runs in this thread holds, which is what is sent with each call; lost where none runs. */
    public static Context current() {
        Request running = RUNNING.get();
        return running == null ? Context.LOST : running.context();
    }

    /** Runs something in this request, in this thread. */
    public void run(Runnable work) {
        in(this, () -> {
            work.run();
            return null;
        });
    }

    /** Runs something in this request, in this thread, and gives what it gives. */
    public <T> T call(Callable<T> work) throws Exception {
        return called(this, work);
    }

    private static <T> T called(Request request, Callable<T> work) throws Exception {
        Request before = RUNNING.get();
        enter(request);
        try {
            return work.call();
        } finally {
            enter(before);
        }
    }

    private static <T> T in(Request request, Supplier<T> work) {
        Request before = RUNNING.get();
        enter(request);
        try {
            return work.get();
        } finally {
            enter(before);
        }
    }

    private static void enter(Request request) {
        if (request == null) {
            RUNNING.remove();
        } else {
            RUNNING.set(request);
        }
    }

    /** Something that runs in this request, in whatever thread it is run. */
    public Runnable wrap(Runnable work) {
        Objects.requireNonNull(work);
        return () -> run(work);
    }

    /** As {@link #wrap(Runnable)}, for what gives something and may throw. */
    public <T> Callable<T> wrapCallable(Callable<T> work) {
        Objects.requireNonNull(work);
        return () -> call(work);
    }

    /** As {@link #wrap(Runnable)}, for what gives something. */
    public <T> Supplier<T> wrapSupplier(Supplier<T> work) {
        Objects.requireNonNull(work);
        return () -> in(this, work);
    }

    /** As {@link #wrap(Runnable)}, for what takes something. */
    public <T> Consumer<T> wrapConsumer(Consumer<T> work) {
        Objects.requireNonNull(work);
        return taken -> run(() -> work.accept(taken));
    }

    /** As {@link #wrap(Runnable)}, for what takes and gives something: the steps of a CompletableFuture. */
    public <T, R> Function<T, R> wrapFunction(Function<T, R> work) {
        Objects.requireNonNull(work);
        return taken -> in(this, () -> work.apply(taken));
    }

    /** An executor whose tasks run in this request. */
    public Executor wrap(Executor executor) {
        return task -> executor.execute(wrap(task));
    }

    /** An executor whose tasks each run in the request that runs where the task is handed in, or in none where none does. */
    public static Executor following(Executor executor) {
        return task -> executor.execute(followed(task));
    }

    /** An executor whose tasks each run in the request that runs where the task is handed in, or in none where none does. */
    public static ExecutorService following(ExecutorService executor) {
        return new Following(executor);
    }

    static Runnable followed(Runnable task) {
        Objects.requireNonNull(task);
        Request running = RUNNING.get();
        return () -> in(running, () -> {
            task.run();
            return null;
        });
    }

    static <T> Callable<T> followed(Callable<T> task) {
        Objects.requireNonNull(task);
        Request running = RUNNING.get();
        return () -> called(running, task);
    }

    static <T> Collection<Callable<T>> followed(Collection<? extends Callable<T>> tasks) {
        List<Callable<T>> all = new ArrayList<>(tasks.size());
        tasks.forEach(task -> all.add(followed(task)));
        return all;
    }

    // ---- what is said of it

    /** What is held now, which is what is sent with each call. It is lost as long as a reply has begun and hasn't come. */
    public Context context() {
        synchronized (lock) {
            return seen().closed();
        }
    }

    /** How many calls have added something after the end. */
    public int late() {
        synchronized (lock) {
            return late;
        }
    }

    /** Joins a context to what is held; false where the reply has begun, so that the caller doesn't hear of it. */
    public boolean add(Context context) {
        Context closed = context.closed();
        synchronized (lock) {
            held = held.join(closed);
            return told();
        }
    }

    /**
     * Puts what a step makes of the context in its place: {@code request.change(context -> bag.update(context, Writes.of("id", 7)))}. The step may
     * take its time and may call the request, since nothing is locked meanwhile. Where others added in the meantime, its result is joined to theirs.
     * False where the reply has begun.
     */
    public boolean change(UnaryOperator<Context> step) {
        Context before;
        Context seen;
        synchronized (lock) {
            before = held;
            seen = seen();
        }
        // Whether a reply is open is the request's to say, and not the result's.
        Context after = Objects.requireNonNull(step.apply(seen), "a step gives a context").open(false);
        synchronized (lock) {
            held = held == before ? after : held.join(after);
            return told();
        }
    }

    /**
     * Adds to the counter at a path of a bag, under a writer that this request alone has: eight random bytes. A visit takes 13 to 15 bytes of the
     * context, however often it counts. Tables that give the counter other names count as one, and counters of one name at other places of their
     * tables count apart. False where the reply has begun.
     *
     * @throws Refused.NoField where no slot of the bag has the path
     * @throws Refused.BadWrite where the slot is no counter, the number is below zero, or the sum passes 2^64 - 1
     */
    public boolean count(Bag bag, String path, long number) {
        if (!(bag.table().shape(path) instanceof Shape.Counted)) {
            throw new Refused.BadWrite(0, path, "no counter, but " + bag.table().wordsOf(path));
        }
        if (number < 0) {
            throw new Refused.BadWrite(0, path, "no number to count: " + number);
        }
        Bag alone = bag.alone(path);
        List<Integer> place = bag.table().numbersOf(path);
        synchronized (lock) {
            BigInteger total = totals.getOrDefault(place, BigInteger.ZERO).add(BigInteger.valueOf(number));
            if (total.compareTo(GREATEST_COUNT) > 0) {
                throw new Refused.BadWrite(0, path, "the count is longer than 64 bits");
            }
            held = counted(alone, Writes.of(path, Counter.of(Map.of(writer(), total))));
            totals.put(place, total);
            return told();
        }
    }

    private Context counted(Bag alone, Writes count) {
        try {
            return alone.update(held, count);
        } catch (Refused.IllTyped refused) { // what came
            return held.join(alone.update(List.of(), count));
        }
    }

    private Bytes writer() {
        if (writer == null) {
            byte[] drawn = new byte[WRITER_BYTES];
            RANDOM.nextBytes(drawn);
            writer = Bytes.of(drawn);
        }
        return writer;
    }

    /** A request of its own that begins with a copy, and counts under a writer of its own. It comes back only where somebody adds its context. */
    public Request branch() {
        return new Request(context());
    }

    /** A reply that is awaited. */
    public Reply expect() {
        return new Reply(this);
    }

    /**
     * Ends the request, and gives what goes back to its caller. It is called where the head of the reply, or in gRPC the trailer, is written. A reply
     * that has begun and hasn't come is lost in it.
     */
    public Context end() {
        synchronized (lock) {
            hasEnded = true;
            return seen().closed();
        }
    }

    /** What a step of {@link #change} sees. */
    private Context seen() {
        return held.open(open > 0);
    }

    private boolean told() {
        late += hasEnded ? 1 : 0;
        return !hasEnded;
    }

    // ---- for Reply

    /** A reply has begun. */
    void opened() {
        synchronized (lock) {
            open++;
        }
    }

    /** A reply has come, which may have begun before. */
    boolean came(Context context, boolean wasOpen) {
        synchronized (lock) {
            held = held.join(context);
            open -= wasOpen ? 1 : 0;
            return told();
        }
    }

    /** A reply that has begun won't come. */
    void lost() {
        synchronized (lock) {
            held = held.join(Context.LOST);
            open--;
        }
    }

    @Override
    public String toString() {
        return "request with " + context();
    }
}
