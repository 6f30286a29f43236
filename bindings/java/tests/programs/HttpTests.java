import com.sun.net.httpserver.HttpExchange;
import com.sun.net.httpserver.HttpHandler;
import com.sun.net.httpserver.HttpServer;
import java.io.BufferedReader;
import java.io.IOException;
import java.io.InputStreamReader;
import java.io.OutputStream;
import java.io.UncheckedIOException;
import java.math.BigInteger;
import java.net.Authenticator;
import java.net.InetAddress;
import java.net.InetSocketAddress;
import java.net.PasswordAuthentication;
import java.net.ServerSocket;
import java.net.Socket;
import java.net.URI;
import java.net.http.HttpClient;
import java.net.http.HttpRequest;
import java.net.http.HttpResponse;
import java.nio.charset.StandardCharsets;
import java.time.Duration;
import java.util.ArrayList;
import java.util.Arrays;
import java.util.List;
import java.util.Locale;
import java.util.Map;
import java.util.Set;
import java.util.concurrent.CompletableFuture;
import java.util.concurrent.CompletionException;
import java.util.concurrent.ConcurrentHashMap;
import java.util.concurrent.ExecutorService;
import java.util.concurrent.Executors;
import org.terncommode.Bag;
import org.terncommode.Carriers;
import org.terncommode.Context;
import org.terncommode.Door;
import org.terncommode.Request;
import org.terncommode.Writes;
import org.terncommode.http.ContextClient;
import org.terncommode.http.ContextFilter;

/** Servers and clients that send contexts to one another: what reads exact at the end is what was said in time, and all of it. */
final class HttpTests {
    private static final Bag BAG = Trying.BAG;
    private static final HttpClient BASE = HttpClient.newBuilder().version(HttpClient.Version.HTTP_1_1).connectTimeout(Duration.ofSeconds(10))
        .build();
    private static final ContextClient CLIENT = ContextClient.of(BASE, "127.0.0.1");

    private HttpTests() {}

    /** A server with a handler at a door. */
    private static HttpServer serving(Door door, HttpHandler handler, ExecutorService pool) throws IOException {
        HttpServer server = HttpServer.create(new InetSocketAddress(InetAddress.getLoopbackAddress(), 0), 0);
        server.setExecutor(pool);
        server.createContext("/", handler).getFilters().add(new ContextFilter(door));
        server.start();
        return server;
    }

    private static URI of(HttpServer server) {
        return URI.create("http://127.0.0.1:" + server.getAddress().getPort() + "/");
    }

    private static void reply(HttpExchange exchange) throws IOException {
        exchange.sendResponseHeaders(200, -1);
        exchange.close();
    }

    private static HttpRequest asking(URI uri, String... headers) {
        HttpRequest.Builder builder = HttpRequest.newBuilder(uri).timeout(Duration.ofSeconds(20));
        return (headers.length > 0 ? builder.headers(headers) : builder).build();
    }

    private static HttpResponse<String> ask(HttpClient client, HttpRequest request) {
        try {
            return client.send(request, HttpResponse.BodyHandlers.ofString());
        } catch (IOException | InterruptedException error) {
            throw new UncheckedIOException(error instanceof IOException ? (IOException) error : new IOException(error));
        }
    }

    private static String tags(Context context) {
        return BAG.text(context, "tags").toString();
    }

    private static Context said(String tag) {
        return Trying.said("tags", Set.of(tag));
    }

    static void testAVisitOfTwoServices() throws Exception {
        ExecutorService pool = Executors.newCachedThreadPool();
        Map<String, List<String>> seen = new ConcurrentHashMap<>();
        HttpServer cart = serving(Door.trusting(Context.LOST), exchange -> {
            seen.put("cart", exchange.getRequestHeaders().getOrDefault("Terncommode", List.of()));
            Request.here().add(said("cart"));
            Request.here().count(BAG, "hops", 2);
            exchange.getResponseHeaders().set("Cache-Control", "max-age=60");
            reply(exchange);
            Trying.same(Request.here().add(said("late")), false);
        }, pool);
        HttpServer front = serving(Door.trusting(Context.LOST), exchange -> {
            List<CompletableFuture<?>> calls = new ArrayList<>();
            for (int k = 0; k < 10; k++) {
                calls.add(CompletableFuture.runAsync(Request.here().wrap(() -> ask(CLIENT, asking(of(cart)))), pool));
            }
            CompletableFuture.allOf(calls.toArray(new CompletableFuture<?>[0])).join();
            Request.here().count(BAG, "hops", 5);
            Request.here().change(context -> BAG.update(context, Writes.of("tags", Set.of("front"))));
            reply(exchange);
        }, pool);
        Request request = new Request(Trying.said("id", 7));
        HttpResponse<String> response = request.call(() -> ask(CLIENT, asking(of(front))));
        Trying.same(tags(request.end()), "exact {\"cart\",\"front\"}");
        Trying.same(BAG.readCounter(request.end(), "hops").value().total(), BigInteger.valueOf(25));
        Trying.same(seen.get("cart"), List.of());
        Trying.same(response.headers().map().keySet().stream().noneMatch(Carriers::isOwn), true);
        // Without a request the lost context is sent.
        HttpResponse<String> raw = ask(BASE, asking(of(cart), "Terncommode", Carriers.toHeader(said("raw"))));
        Trying.same(raw.headers().allValues("Terncommode-For"), List.of(Carriers.toHeader(said("raw")).split("\\.")[1]));
        Trying.same(raw.headers().allValues("Cache-Control"), List.of("max-age=60, no-cache=\"terncommode\""));
        Trying.same(tags(Carriers.fromHeader(ask(BASE, asking(of(cart))).headers().firstValue("Terncommode").get())), "partial {\"cart\"}");
        // What this client sends by itself stands in for what somebody set.
        request.call(() -> ask(CLIENT, asking(of(cart), "terncommode", "x", "Terncommode-Bin", "x")));
        Trying.same(request.late(), 1);
        cart.stop(0);
        front.stop(0);
        pool.shutdown();
    }

    static void testAnEdge() throws Exception {
        ExecutorService pool = Executors.newCachedThreadPool();
        Map<String, String> seen = new ConcurrentHashMap<>();
        HttpHandler handler = exchange -> {
            exchange.getRequestHeaders().forEach((name, values) -> seen.put(name.toLowerCase(Locale.ROOT), String.join("|", values)));
            seen.put("tags", tags(Request.current()));
            exchange.getResponseHeaders().set("Terncommode", "x");
            reply(exchange);
        };
        String stranger = Carriers.toHeader(Context.join(said("stranger"), Trying.said("id", 9)));
        Map<Door, String> found = Map.of(Door.edge(), "exact {}", Door.edge(BAG.only("tags")), "partial {\"stranger\"}");
        for (Map.Entry<Door, String> each : found.entrySet()) {
            seen.clear();
            HttpServer server = serving(each.getKey(), handler, pool);
            HttpResponse<String> response = ask(BASE,
                asking(of(server), "Terncommode", stranger, "terncommode-bin", "x", "Baggage", "a=1, terncommode=x"));
            Trying.same(response.headers().map().keySet().stream().noneMatch(Carriers::isOwn), true);
            Trying.same(seen.keySet().stream().noneMatch(Carriers::isOwn), true);
            Trying.same(seen.get("baggage"), "a=1");
            Trying.same(seen.get("tags"), each.getValue());
            server.stop(0);
        }
        pool.shutdown();
    }

    static void testAProxyThatHandsOnAReply() throws Exception {
        ExecutorService pool = Executors.newCachedThreadPool();
        HttpServer server = serving(Door.trusting(Context.LOST), exchange -> {
            exchange.getResponseHeaders().set("Terncommode", Carriers.toHeader(said("unread")));
            reply(exchange);
        }, pool);
        Request request = new Request(said("a"));
        request.call(() -> ask(CLIENT, asking(of(server))));
        Trying.same(tags(request.end()), "partial {\"a\"}");
        server.stop(0);
        pool.shutdown();
    }

    static void testOtherHosts() throws Exception {
        ExecutorService pool = Executors.newCachedThreadPool();
        Map<String, List<String>> seen = new ConcurrentHashMap<>();
        HttpServer server = serving(Door.trusting(Context.EMPTY), exchange -> {
            seen.put("tags", List.of(tags(Request.current())));
            Request.here().add(said("outside"));
            reply(exchange);
        }, pool);
        Request request = new Request(said("a"));
        int port = server.getAddress().getPort();
        for (ContextClient client : List.of(ContextClient.of(BASE), ContextClient.of(BASE, "127.0.0.1:" + (port + 1)), ContextClient
            .of(BASE, "localhost"))) {
            request.call(() -> ask(client, asking(of(server), "Terncommode", Carriers.toHeader(said("set")))));
            Trying.same(seen.get("tags"), List.of("exact {}"));
            Trying.same(tags(request.context()), "exact {\"a\"}");
        }
        request.call(() -> ask(ContextClient.of(BASE, "127.0.0.1:" + port), asking(of(server))));
        Trying.same(tags(request.context()), "exact {\"a\",\"outside\"}");
        Trying.refused(IllegalArgumentException.class, () -> ContextClient
            .of(HttpClient.newBuilder().followRedirects(HttpClient.Redirect.NORMAL).build(), "cart"));
        server.stop(0);
        pool.shutdown();
    }

    static void testBudgets() throws Exception {
        ExecutorService pool = Executors.newCachedThreadPool();
        List<Integer> sizes = new ArrayList<>();
        HttpServer server = serving(Door.trusting(Context.LOST), exchange -> {
            sizes.add(Request.current().size());
            Request.here().add(said("y".repeat(4000)));
            reply(exchange);
        }, pool);
        Request request = new Request(said("x".repeat(5000)));
        request.call(() -> ask(CLIENT, asking(of(server))));
        Trying.same(sizes.get(0) <= Carriers.REQUEST_BUDGET, true);
        Trying.same(BAG.text(request.end(), "tags").isExact(), false);
        server.stop(0);
        pool.shutdown();
    }

    /** Whoever is asked first who they are has been answered twice. */
    static void testAClientThatIsAskedWhoItIs() throws Exception {
        ExecutorService pool = Executors.newCachedThreadPool();
        HttpServer server = serving(Door.trusting(Context.LOST), exchange -> {
            boolean isKnown = exchange.getRequestHeaders().containsKey("Authorization");
            Request.here().add(said(isKnown ? "second" : "first"));
            exchange.getResponseHeaders().set("WWW-Authenticate", "Basic realm=\"r\"");
            exchange.sendResponseHeaders(isKnown ? 200 : 401, -1);
            exchange.close();
        }, pool);
        HttpClient knows = HttpClient.newBuilder().version(HttpClient.Version.HTTP_1_1).authenticator(new Authenticator() {
            @Override
            protected PasswordAuthentication getPasswordAuthentication() {
                return new PasswordAuthentication("a", "b".toCharArray());
            }
        }).build();
        Request request = new Request(said("a"));
        request.call(() -> ask(ContextClient.of(knows, "127.0.0.1"), asking(of(server))));
        Trying.same(tags(request.context()), "exact {\"a\",\"first\",\"second\"}");
        server.stop(0);
        pool.shutdown();
    }

    // ---- replies that break

    private interface Broken {
        void answers(Socket socket, OutputStream out, String head) throws Exception;
    }

    /** A server that reads a request and answers it so. HEAD is that of a good reply, with the tag "there". */
    private static ServerSocket breaking(Broken broken, ExecutorService pool) throws IOException {
        ServerSocket server = new ServerSocket(0, 10, InetAddress.getLoopbackAddress());
        pool.submit(() -> {
            while (true) {
                Socket socket = server.accept();
                pool.submit(() -> {
                    try (Socket each = socket) {
                        broken.answers(each, each.getOutputStream(), goodHead(each));
                    }
                    return null;
                });
            }
        });
        return server;
    }

    private static String goodHead(Socket socket) throws IOException {
        BufferedReader in = new BufferedReader(new InputStreamReader(socket.getInputStream(), StandardCharsets.ISO_8859_1));
        String value = "";
        for (String line = in.readLine(); line != null && !line.isEmpty(); line = in.readLine()) {
            value = line.toLowerCase(Locale.ROOT).startsWith("terncommode:") ? line.substring(12).trim() : value;
        }
        String said = Carriers.toHeader(Carriers.fromHeader(value).join(said("there")));
        return "HTTP/1.1 200 OK\r\nTerncommode: " + said + "\r\nTerncommode-For: " + value.split("\\.")[1] + "\r\nContent-Length: 4\r\n\r\n";
    }

    private static void send(OutputStream out, String text) throws IOException {
        out.write(text.getBytes(StandardCharsets.ISO_8859_1));
        out.flush();
    }

    private static final Map<String, Broken> WAYS = Map.ofEntries(
        Map.entry("good", (socket, out, head) -> send(out, head + "done")),
        Map.entry("good, in pieces", (socket, out, head) -> {
            for (String piece : Arrays.asList(head.substring(0, 30), head.substring(30), "do", "ne")) {
                send(out, piece);
                Thread.sleep(5);
            }
        }),
        Map.entry("body breaks", (socket, out, head) -> send(out, head + "do")),
        Map.entry("no byte", (socket, out, head) -> { }),
        Map.entry("half a head", (socket, out, head) -> send(out, head.substring(0, 40))),
        Map.entry("reset in the head", (socket, out, head) -> {
            send(out, head.substring(0, 60));
            socket.setSoLinger(true, 0);
        }),
        Map.entry("silent", (socket, out, head) -> Thread.sleep(3000)),
        Map.entry("silent in the head", (socket, out, head) -> {
            send(out, head.substring(0, 40));
            Thread.sleep(3000);
        }),
        Map.entry("no context", (socket, out, head) -> send(out, "HTTP/1.1 200 OK\r\nContent-Length: 4\r\n\r\ndone")),
        Map.entry("of another request", (socket, out, head) -> send(out, head.replaceFirst("For: .", "For: -") + "done")),
        Map.entry("without For", (socket, out, head) -> send(out, head.replaceFirst("Terncommode-For", "X-For") + "done")),
        Map.entry("a letter changed", (socket, out, head) -> send(out, head.replaceFirst("Terncommode: ..", "Terncommode: ~~") + "done")),
        Map.entry("twice", (socket, out, head) -> send(out, head.replaceFirst("(Terncommode: [^\r]*\r\n)", "$1$1") + "done")),
        Map.entry("no HTTP", (socket, out, head) -> send(out, "SMTP\r\n\r\n")),
        Map.entry("a gateway's own", (socket, out, head) -> send(out, "HTTP/1.1 502 Bad Gateway\r\nContent-Length: 0\r\n\r\n")));

    private static final Map<String, String> FOUND = Map
        .of("good", "exact {\"a\",\"there\"}", "good, in pieces", "exact {\"a\",\"there\"}", "body breaks", "exact {\"a\",\"there\"}",
        "twice", "exact {\"a\",\"there\"}");

    static void testRepliesThatBreak() throws Exception {
        ExecutorService pool = Executors.newCachedThreadPool();
        for (Map.Entry<String, Broken> way : WAYS.entrySet()) {
            try (ServerSocket server = breaking(way.getValue(), pool)) {
                URI uri = URI.create("http://127.0.0.1:" + server.getLocalPort() + "/");
                Duration patience = way.getKey().startsWith("silent") ? Duration.ofMillis(400) : Duration.ofSeconds(20);
                HttpRequest asked = HttpRequest.newBuilder(uri).timeout(patience).build();
                for (boolean isAsync : List.of(true, false)) {
                    Request request = new Request(said("a"));
                    request.call(() -> {
                        try {
                            if (isAsync) {
                                CLIENT.sendAsync(asked, HttpResponse.BodyHandlers.ofString()).join();
                            } else {
                                CLIENT.send(asked, HttpResponse.BodyHandlers.ofString());
                            }
                        } catch (IOException | CompletionException broken) {
                            Trying.same(way.getKey().equals("good"), false);
                        }
                        return null;
                    });
                    Trying.same(way.getKey() + ": " + tags(request.end()), way.getKey() + ": " + FOUND.getOrDefault(way.getKey(), "partial {\"a\"}"));
                }
            }
        }
        pool.shutdownNow();
    }

    static void testNoConnection() throws Exception {
        int port;
        try (ServerSocket closed = new ServerSocket(0, 1, InetAddress.getLoopbackAddress())) {
            port = closed.getLocalPort();
        }
        HttpRequest asked = asking(URI.create("http://127.0.0.1:" + port + "/"));
        Request request = new Request(said("a"));
        Trying.refused(UncheckedIOException.class, () -> request.call(() -> ask(CLIENT, asked)));
        Trying.refused(CompletionException.class, () -> request.call(() -> CLIENT.sendAsync(asked, HttpResponse.BodyHandlers.ofString()).join()));
        Trying.same(tags(request.context()), "exact {\"a\"}");
        Trying.refused(UncheckedIOException.class, () -> request.call(() -> ask(CLIENT.onFailure(Context.LOST), asked)));
        Trying.same(tags(request.context()), "partial {\"a\"}");
    }

    static void testACancelledCallIsLost() throws Exception {
        ExecutorService pool = Executors.newCachedThreadPool();
        try (ServerSocket server = breaking(WAYS.get("silent"), pool)) {
            Request request = new Request(said("a"));
            CompletableFuture<HttpResponse<String>> coming = request.call(
                () -> CLIENT.sendAsync(asking(URI.create("http://127.0.0.1:" + server.getLocalPort() + "/")), HttpResponse.BodyHandlers.ofString()));
            coming.cancel(true);
            Trying.same(tags(request.end()), "partial {\"a\"}");
        }
        pool.shutdownNow();
    }
}
