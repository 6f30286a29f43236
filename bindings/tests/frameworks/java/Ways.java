import com.sun.net.httpserver.HttpHandler;
import com.sun.net.httpserver.HttpServer;
import java.io.BufferedReader;
import java.io.IOException;
import java.io.InputStreamReader;
import java.io.PrintStream;
import java.math.BigInteger;
import java.net.InetAddress;
import java.net.InetSocketAddress;
import java.net.URI;
import java.net.http.HttpClient;
import java.net.http.HttpRequest;
import java.net.http.HttpResponse;
import java.nio.charset.StandardCharsets;
import java.util.ArrayList;
import java.util.LinkedHashMap;
import java.util.List;
import java.util.Map;
import java.util.Set;
import java.util.Timer;
import java.util.TimerTask;
import java.util.TreeSet;
import java.util.concurrent.BlockingQueue;
import java.util.concurrent.Callable;
import java.util.concurrent.CompletableFuture;
import java.util.concurrent.CountDownLatch;
import java.util.concurrent.Executor;
import java.util.concurrent.ExecutorService;
import java.util.concurrent.Executors;
import java.util.concurrent.Future;
import java.util.concurrent.LinkedBlockingQueue;
import java.util.concurrent.ScheduledExecutorService;
import java.util.concurrent.TimeUnit;
import java.util.concurrent.TimeoutException;
import java.util.stream.IntStream;
import org.terncommode.Bag;
import org.terncommode.Carriers;
import org.terncommode.Context;
import org.terncommode.Counter;
import org.terncommode.Door;
import org.terncommode.Field;
import org.terncommode.Ingress;
import org.terncommode.Limits;
import org.terncommode.Refused;
import org.terncommode.Reply;
import org.terncommode.Request;
import org.terncommode.Writes;
import org.terncommode.http.ContextClient;
import org.terncommode.http.ContextFilter;

/**
 * The ways in which Java runs what belongs to a request: whatever reads exact at the end is the join of all that was said in time, or it is partial.
 * {@code Ways} runs them all; {@code Ways ingress} reads lines of what strangers send, and writes what comes in.
 */
final class Ways {
    private static final Bag BAG = Bag.of("baggage table 1\n0 0 id scalar fixed32\n0 1 tags set string\n0 2 hops counter\n0 3 debug taint\n");
    private static final ExecutorService POOL = Executors.newFixedThreadPool(4); // made before any request
    private static final ScheduledExecutorService LATER = Executors.newScheduledThreadPool(2);
    private static final Map<String, Way> WAYS = new LinkedHashMap<>();

    private Ways() {}

    private interface Way {
        void run(Notes notes) throws Exception;
    }

    private static void same(Object found, Object expected) {
        if (!found.equals(expected)) {
            throw new AssertionError("found " + found + "\n   and not " + expected);
        }
    }

    private static void refuses(Runnable work) {
        try {
            work.run();
        } catch (Refused.NoRequest expected) {
            return;
        }
        throw new AssertionError("not refused");
    }

    private static Context tagged(String tag) {
        return BAG.update(List.of(), Writes.of("tags", Set.of(tag)));
    }

    /** What was told to be in time, by all that works on a visit. */
    private static final class Notes {
        private final Set<String> tags = new TreeSet<>();
        private long hops;

        synchronized void tag(String tag, boolean isInTime) {
            if (isInTime) {
                tags.add(tag);
            }
        }

        synchronized void hops(long number, boolean isInTime) {
            hops += isInTime ? number : 0;
        }

        synchronized void check(Context context) {
            Field<Set<String>> found = BAG.readSet(context, "tags", String.class);
            same(found.isExact(), true);
            same(new TreeSet<>(found.value()), tags);
            Field<Counter> counted = BAG.readCounter(context, "hops");
            same(counted.isExact(), true);
            same(counted.value().total(), BigInteger.valueOf(hops));
        }
    }

    /** The work of one task: it adds a tag, changes the context, and counts. */
    private static void work(Notes notes, String name) {
        Request here = Request.here();
        notes.tag(name, here.add(tagged(name)));
        notes.tag(name + "!", here.change(before -> BAG.update(before, Writes.of("tags", Set.of(name + "!")))));
        notes.hops(2, here.count(BAG, "hops", 2));
    }

    private static Callable<Void> task(Notes notes, String name) {
        return () -> {
            work(notes, name);
            return null;
        };
    }

    // ---- ways to run things

    static {
        WAYS.put("sequence", notes -> IntStream.range(0, 5).forEach(turn -> work(notes, "" + turn)));
        WAYS.put("threads", notes -> {
            List<Thread> threads = new ArrayList<>();
            for (int k = 0; k < 8; k++) {
                String name = "" + k;
                threads.add(new Thread(Request.here().wrap(() -> work(notes, name))));
            }
            threads.forEach(Thread::start);
            for (Thread thread : threads) {
                thread.join();
            }
        });
        WAYS.put("a thread that forgot", notes -> {
            Thread thread = new Thread(() -> refuses(() -> work(notes, "lost")));
            thread.start();
            thread.join();
            work(notes, "after");
        });
        WAYS.put("a pool that follows", notes -> {
            List<Callable<Void>> tasks = new ArrayList<>();
            for (int k = 0; k < 20; k++) {
                tasks.add(task(notes, "" + k));
            }
            for (Future<Void> each : Request.following(POOL).invokeAll(tasks)) {
                each.get();
            }
        });
        WAYS.put("a pool that forgot", notes -> POOL.submit(() -> refuses(() -> work(notes, "lost"))).get());
        WAYS.put("submit", notes -> {
            Request.following(POOL).submit(() -> work(notes, "runnable")).get();
            Request.following(POOL).submit(task(notes, "callable")).get();
            POOL.submit(Request.here().wrapCallable(task(notes, "wrapped"))).get();
        });
        WAYS.put("first of several", notes -> Request.following(POOL).invokeAny(List.of(task(notes, "one"))));
        WAYS.put("a future with its steps", notes -> {
            Executor following = Request.following((Executor) POOL);
            CompletableFuture.runAsync(() -> work(notes, "run"), following).thenRunAsync(() -> work(notes, "then"), following)
                .thenRun(Request.here().wrap(() -> work(notes, "same"))).get();
        });
        WAYS.put("all of several", notes -> {
            List<CompletableFuture<Void>> all = new ArrayList<>();
            for (int k = 0; k < 10; k++) {
                String name = "" + k;
                all.add(CompletableFuture.runAsync(Request.here().wrap(() -> work(notes, name)), POOL));
            }
            CompletableFuture.allOf(all.toArray(new CompletableFuture<?>[0])).get();
        });
        WAYS.put("a step that fails", notes -> {
            CompletableFuture<Void> failed = CompletableFuture.runAsync(Request.here().wrap(() -> {
                work(notes, "before");
                throw new IllegalStateException();
            }), POOL);
            failed.exceptionally(Request.here().wrapFunction(error -> {
                work(notes, "handled");
                return null;
            })).get();
        });
        WAYS.put("a timeout", notes -> {
            CountDownLatch waits = new CountDownLatch(1);
            Future<?> slow = POOL.submit(Request.here().wrapCallable(() -> {
                waits.await();
                return null;
            }));
            try {
                slow.get(1, TimeUnit.MILLISECONDS);
            } catch (TimeoutException expected) {
                work(notes, "gave up");
            }
            waits.countDown();
            slow.get();
        });
        WAYS.put("a schedule", notes -> LATER.schedule(Request.here().wrap(() -> work(notes, "later")), 1, TimeUnit.MILLISECONDS).get());
        WAYS.put("a timer", notes -> {
            CountDownLatch done = new CountDownLatch(1);
            Runnable bound = Request.here().wrap(() -> work(notes, "timer"));
            Timer timer = new Timer(true);
            timer.schedule(new TimerTask() {
                @Override
                public void run() {
                    bound.run();
                    done.countDown();
                }
            }, 1);
            done.await();
            timer.cancel();
        });
        WAYS.put("a parallel stream", notes -> IntStream.range(0, 20).parallel().forEach(k -> Request.running()
            .ifPresentOrElse(here -> work(notes, "" + k), () -> refuses(() -> work(notes, "lost")))));
        WAYS.put("a parallel stream that is wrapped", notes -> {
            Request here = Request.here();
            IntStream.range(0, 20).parallel().forEach(k -> here.run(() -> work(notes, "" + k)));
        });
        WAYS.put("a queue whose consumer began before", notes -> {
            BlockingQueue<Runnable> queue = new LinkedBlockingQueue<>();
            CountDownLatch done = new CountDownLatch(2);
            Thread consumer = new Thread(() -> {
                try {
                    while (done.getCount() > 0) {
                        queue.take().run();
                        done.countDown();
                    }
                } catch (InterruptedException error) {
                    throw new IllegalStateException(error);
                }
            });
            consumer.start();
            queue.put(() -> refuses(() -> work(notes, "lost")));
            queue.put(Request.here().wrap(() -> work(notes, "bound")));
            done.await();
        });
        WAYS.put("steps that come back", notes -> notes.tag("outer", Request.here().change(before -> {
            work(notes, "inner");
            return BAG.update(before, Writes.of("tags", Set.of("outer")));
        })));
        WAYS.put("a slow step beside others", notes -> {
            CountDownLatch begun = new CountDownLatch(1);
            CountDownLatch go = new CountDownLatch(1);
            Request here = Request.here();
            Future<?> slow = POOL.submit(here.wrap(() -> notes.tag("slow", here.change(before -> {
                begun.countDown();
                wait(go);
                return BAG.update(before, Writes.of("tags", Set.of("slow")));
            }))));
            begun.await();
            work(notes, "meanwhile");
            go.countDown();
            slow.get();
        });
        WAYS.put("a branch that comes back", notes -> {
            Request branch = Request.here().branch();
            branch.run(() -> work(notes, "branch"));
            work(notes, "trunk");
            notes.tag("branch", Request.here().add(branch.context()));
        });
        WAYS.put("a branch that stays", notes -> {
            Notes others = new Notes();
            Request branch = Request.here().branch();
            branch.run(() -> work(others, "branch"));
            others.check(branch.end());
            work(notes, "trunk");
        });
        WAYS.put("another request inside", notes -> {
            Notes others = new Notes();
            Request other = new Request(Context.EMPTY);
            other.run(() -> work(others, "other"));
            others.check(other.end());
            work(notes, "own");
        });
        WAYS.put("a virtual thread", notes -> {
            Runnable bound = Request.here().wrap(() -> work(notes, "virtual"));
            Thread thread;
            try {
                thread = (Thread) Thread.class.getMethod("startVirtualThread", Runnable.class).invoke(null, bound);
            } catch (NoSuchMethodException before21) {
                thread = new Thread(bound);
                thread.start();
            }
            thread.join();
        });
    }

    private static void wait(CountDownLatch latch) {
        try {
            latch.await();
        } catch (InterruptedException error) {
            throw new IllegalStateException(error);
        }
    }

    private static void theWays() throws Exception {
        for (Map.Entry<String, Way> way : WAYS.entrySet()) {
            for (int turn = 0; turn < 3; turn++) {
                Notes notes = new Notes();
                Request request = new Request(Context.EMPTY);
                try {
                    request.call(() -> {
                        way.getValue().run(notes);
                        return null;
                    });
                    same(Request.running().isPresent(), false);
                    notes.check(request.end());
                } catch (AssertionError error) {
                    throw new AssertionError(way.getKey(), error);
                }
            }
        }
        Notes notes = new Notes();
        Request request = new Request(Context.EMPTY);
        request.run(() -> work(notes, "in time"));
        Context back = request.end();
        request.run(() -> work(notes, "late"));
        notes.check(back);
        same(request.late(), 3);
    }

    // ---- over HTTP

    private static final HttpClient BASE = HttpClient.newBuilder().version(HttpClient.Version.HTTP_1_1).build();
    private static final ContextClient CLIENT = ContextClient.of(BASE, "127.0.0.1");

    private static HttpServer serving(HttpHandler handler, ExecutorService pool) throws IOException {
        HttpServer server = HttpServer.create(new InetSocketAddress(InetAddress.getLoopbackAddress(), 0), 0);
        server.setExecutor(pool);
        server.createContext("/", handler).getFilters().add(new ContextFilter(Door.trusting(Context.LOST)));
        server.start();
        return server;
    }

    private static HttpRequest asking(HttpServer server) {
        return HttpRequest.newBuilder(URI.create("http://127.0.0.1:" + server.getAddress().getPort() + "/")).build();
    }

    private static HttpResponse<String> ask(HttpServer server) {
        try {
            return CLIENT.send(asking(server), HttpResponse.BodyHandlers.ofString());
        } catch (IOException | InterruptedException error) {
            throw new IllegalStateException(error);
        }
    }

    private static BigInteger total(Context context) {
        return BAG.readCounter(context, "hops").value().total();
    }

    private static void counters() throws Exception {
        ExecutorService pool = Executors.newCachedThreadPool();
        HttpServer server = serving(exchange -> {
            Request.here().count(BAG, "hops", 1);
            exchange.sendResponseHeaders(200, -1);
            exchange.close();
        }, pool);
        HttpServer front = serving(exchange -> {
            List<CompletableFuture<?>> calls = new ArrayList<>();
            for (int k = 0; k < 10; k++) { // to one instance, by ten calls beside one another
                calls.add(CLIENT.sendAsync(asking(server), HttpResponse.BodyHandlers.discarding()));
            }
            CompletableFuture.allOf(calls.toArray(new CompletableFuture<?>[0])).join();
            for (int k = 0; k < 3; k++) { // retries
                ask(server);
            }
            Request.here().count(BAG, "hops", 5);
            exchange.sendResponseHeaders(200, -1);
            same(Request.here().add(tagged("late")), false);
            exchange.close();
        }, pool);
        Request request = new Request(Context.EMPTY);
        request.call(() -> ask(front));
        same(BAG.readCounter(request.end(), "hops").isExact(), true);
        same(total(request.end()), BigInteger.valueOf(18));
        same(BAG.readSet(request.end(), "tags", String.class).toString(), "exact []");
        Request many = new Request(Context.EMPTY);
        many.call(() -> {
            for (int turn = 0; turn < 200; turn++) {
                ask(server);
            }
            return null;
        });
        same(BAG.readCounter(many.end(), "hops").isExact(), false); // of more visits than a budget has place for, the rest is cut, and that is told
        server.stop(0);
        front.stop(0);
        pool.shutdown();
    }

    /** Two calls of which one is to answer first. */
    private static void hedges() {
        for (boolean areBoth : List.of(true, false)) {
            Request request = new Request(Context.EMPTY);
            String sent = Carriers.toHeader(request.context());
            Reply first = request.expect();
            Reply second = request.expect();
            same(first.came(served(sent)), true);
            Context before = request.context();
            Context back = areBoth ? before : request.end();
            same(second.came(served(sent)), areBoth);
            same(total(areBoth ? request.end() : back), BigInteger.valueOf(areBoth ? 4 : 2));
            same(total(request.context()), BigInteger.valueOf(4));
            same(request.late(), areBoth ? 0 : 1);
        }
    }

    private static Context served(String sent) {
        Request visit = new Request(Carriers.fromHeader(sent));
        visit.count(BAG, "hops", 2);
        return Carriers.extractReply(Map.of("Terncommode", List.of(Carriers.toHeader(visit.end())), "Terncommode-For", List
            .of(sent.split("\\.")[1])), sent);
    }

    // ---- strangers

    private static byte[] bytesOf(String digits) {
        byte[] bytes = new byte[digits.equals("-") ? 0 : digits.length() / 2];
        for (int k = 0; k < bytes.length; k++) {
            bytes[k] = (byte) Integer.parseInt(digits.substring(2 * k, 2 * k + 2), 16);
        }
        return bytes;
    }

    private static String letIn(String line) {
        String[] words = line.split(" ");
        Bag bag = Bag.of(new String(bytesOf(words[0]), StandardCharsets.ISO_8859_1));
        Limits limits = Limits.USUAL.letters(Integer.parseInt(words[1])).parts(Integer.parseInt(words[2])).text(Integer.parseInt(words[3]))
            .budget(Long.parseLong(words[4]));
        List<String> values = new ArrayList<>();
        for (int k = 6; k < words.length; k++) {
            values.add(new String(bytesOf(words[k]), StandardCharsets.ISO_8859_1));
        }
        StringBuilder digits = new StringBuilder();
        for (byte each : Ingress.letIn(values, bag, words[5].equals("0") ? limits : limits.dropPartial()).bytes()) {
            digits.append(String.format("%02x", each));
        }
        return digits.length() == 0 ? "-" : digits.toString();
    }

    private static void strangers() throws IOException {
        BufferedReader in = new BufferedReader(new InputStreamReader(System.in, StandardCharsets.US_ASCII));
        PrintStream out = new PrintStream(System.out, false, StandardCharsets.US_ASCII);
        for (String line = in.readLine(); line != null; line = in.readLine()) {
            out.print(letIn(line) + "\n");
        }
        out.flush();
    }

    private static void all() throws Exception {
        theWays();
        counters();
        hedges();
        System.out.println(WAYS.size() + " ways, HTTP");
    }

    /** It ends whatever threads are left. */
    public static void main(String[] words) {
        try {
            if (words.length > 0) {
                strangers();
            } else {
                all();
            }
            System.exit(0);
        } catch (Exception | AssertionError failed) {
            failed.printStackTrace(System.out);
            System.exit(1);
        }
    }
}
