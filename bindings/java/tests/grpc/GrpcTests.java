import io.grpc.CallOptions;
import io.grpc.Channel;
import io.grpc.ClientCall;
import io.grpc.ClientInterceptors;
import io.grpc.ForwardingServerCall.SimpleForwardingServerCall;
import io.grpc.ManagedChannel;
import io.grpc.Metadata;
import io.grpc.MethodDescriptor;
import io.grpc.Server;
import io.grpc.ServerCall;
import io.grpc.ServerCallHandler;
import io.grpc.ServerInterceptor;
import io.grpc.ServerInterceptors;
import io.grpc.ServerServiceDefinition;
import io.grpc.Status;
import io.grpc.StatusRuntimeException;
import io.grpc.inprocess.InProcessChannelBuilder;
import io.grpc.inprocess.InProcessServerBuilder;
import io.grpc.stub.ClientCalls;
import io.grpc.stub.ServerCalls;
import io.grpc.stub.StreamObserver;
import java.io.ByteArrayInputStream;
import java.io.IOException;
import java.io.InputStream;
import java.io.UncheckedIOException;
import java.util.Iterator;
import java.util.List;
import java.util.Map;
import java.util.Set;
import java.util.concurrent.ConcurrentHashMap;
import java.util.concurrent.CountDownLatch;
import java.util.concurrent.TimeUnit;
import java.util.logging.Level;
import java.util.logging.Logger;
import org.terncommode.Bag;
import org.terncommode.Carriers;
import org.terncommode.Context;
import org.terncommode.Request;
import org.terncommode.grpc.ContextClientInterceptor;
import org.terncommode.grpc.ContextServerInterceptor;

/** Calls of gRPC and their ends: what reads exact is what was said in time, and all of it. */
final class GrpcTests {
    private static final Bag BAG = Trying.BAG;
    private static final Metadata.Key<byte[]> KEY = Metadata.Key.of("terncommode-bin", Metadata.BINARY_BYTE_MARSHALLER);
    private static final Metadata.Key<String> MEMBERS = Metadata.Key.of("baggage", Metadata.ASCII_STRING_MARSHALLER);
    private static final Metadata.Key<String> TEXT = Metadata.Key.of("terncommode", Metadata.ASCII_STRING_MARSHALLER);
    private static final MethodDescriptor<byte[], byte[]> ONE = method("One", MethodDescriptor.MethodType.UNARY);
    private static final MethodDescriptor<byte[], byte[]> MANY = method("Many", MethodDescriptor.MethodType.SERVER_STREAMING);
    private static final Map<String, String> SEEN = new ConcurrentHashMap<>();
    private static int servers;

    private GrpcTests() {}

    private static final class Raw implements MethodDescriptor.Marshaller<byte[]> {
        @Override
        public InputStream stream(byte[] value) {
            return new ByteArrayInputStream(value);
        }

        @Override
        public byte[] parse(InputStream stream) {
            try {
                return stream.readAllBytes();
            } catch (IOException error) {
                throw new UncheckedIOException(error);
            }
        }
    }

    private static MethodDescriptor<byte[], byte[]> method(String name, MethodDescriptor.MethodType type) {
        return MethodDescriptor.<byte[], byte[]>newBuilder().setType(type).setFullMethodName("test/" + name).setRequestMarshaller(new Raw())
            .setResponseMarshaller(new Raw()).build();
    }

    private static Context said(String tag) {
        return Trying.said("tags", Set.of(tag));
    }

    private static String tags(Context context) {
        return BAG.text(context, "tags").toString();
    }

    /** The service: what it does is the text that it is asked with. */
    private static void unary(byte[] asked, StreamObserver<byte[]> out) {
        String text = new String(asked);
        SEEN.put("tags", tags(Request.current()));
        Request.here().add(said("there"));
        Request.here().count(BAG, "hops", 1);
        if (text.equals("flaky") && SEEN.put("flaky", SEEN.containsKey("flaky") ? "twice" : "once") == null) {
            out.onError(Status.UNAVAILABLE.asRuntimeException());
        } else if (text.equals("error")) {
            out.onError(Status.FAILED_PRECONDITION.asRuntimeException());
        } else if (text.equals("throws")) {
            throw new IllegalStateException("thrown");
        } else if (!text.equals("silent")) {
            out.onNext(asked);
            out.onCompleted();
        }
    }

    private static void streaming(byte[] asked, StreamObserver<byte[]> out) {
        String text = new String(asked);
        Request.here().add(said("there"));
        for (int k = 0; k < 3; k++) {
            out.onNext(asked);
            Request.here().count(BAG, "hops", 1);
        }
        if (text.equals("error")) {
            out.onError(Status.ABORTED.asRuntimeException());
        } else if (!text.equals("silent")) {
            out.onCompleted();
        }
    }

    /** Looks at what handlers see of the metadata. */
    private static final class Looking implements ServerInterceptor {
        @Override
        public <A, B> ServerCall.Listener<A> interceptCall(ServerCall<A, B> call, Metadata headers, ServerCallHandler<A, B> next) {
            SEEN.put("keys", headers.keys().toString().replace("user-agent", "").replaceAll("[^a-z-]+", " ").trim());
            SEEN.put("members", String.valueOf(headers.get(MEMBERS)));
            return next.startCall(call, headers);
        }
    }

    /** Sets a blank value in the trailer in place of what is there. */
    private static final class Blanking implements ServerInterceptor {
        @Override
        public <A, B> ServerCall.Listener<A> interceptCall(ServerCall<A, B> call, Metadata headers, ServerCallHandler<A, B> next) {
            return next.startCall(new SimpleForwardingServerCall<A, B>(call) {
                @Override
                public void close(Status status, Metadata trailers) {
                    trailers.discardAll(KEY);
                    trailers.put(KEY, new byte[0]);
                    super.close(status, trailers);
                }
            }, headers);
        }
    }

    /** A server, and a channel to it. */
    private static final class Pair implements AutoCloseable {
        final Server server;
        final ManagedChannel channel;
        final String name;

        Pair(ServerInterceptor... interceptors) throws IOException {
            name = "test" + servers++;
            ServerServiceDefinition service = ServerServiceDefinition.builder("test").addMethod(ONE, ServerCalls.asyncUnaryCall(GrpcTests::unary))
                .addMethod(MANY, ServerCalls.asyncServerStreamingCall(GrpcTests::streaming)).build();
            server = InProcessServerBuilder.forName(name).addService(ServerInterceptors.intercept(service, interceptors)).build().start();
            channel = InProcessChannelBuilder.forName(name).build();
        }

        Channel channel() {
            return ClientInterceptors.intercept(channel, new ContextClientInterceptor());
        }

        @Override
        public void close() {
            channel.shutdownNow();
            server.shutdownNow();
        }
    }

    private static String ask(Channel channel, String text, CallOptions options) {
        Request request = new Request(said("a"));
        request.run(() -> {
            try {
                ClientCalls.blockingUnaryCall(channel, ONE, options, text.getBytes());
            } catch (StatusRuntimeException failed) {
                SEEN.put("status", failed.getStatus().getCode().toString());
            }
        });
        SEEN.put("hops", BAG.readCounter(request.end(), "hops").value().total().toString());
        return tags(request.end());
    }

    static void testUnary() throws Exception {
        try (Pair pair = new Pair(new Looking(), ContextServerInterceptor.trusting(Context.LOST))) {
            Trying.same(ask(pair.channel(), "good", CallOptions.DEFAULT), "exact {\"a\",\"there\"}");
            Trying.same(SEEN.get("tags"), "exact {\"a\"}");
            Trying.same(SEEN.get("keys").contains("terncommode"), false);
            Trying.same(ask(pair.channel(), "error", CallOptions.DEFAULT), "exact {\"a\",\"there\"}");
            Trying.same(ask(pair.channel(), "silent", CallOptions.DEFAULT.withDeadlineAfter(300, TimeUnit.MILLISECONDS)), "partial {\"a\"}");
            ask(pair.channel, "good", CallOptions.DEFAULT); // without an interceptor nothing is sent
            Trying.same(SEEN.get("tags"), "partial {}");
        }
        try (Pair bare = new Pair()) {
            Trying.same(ask(bare.channel(), "x", CallOptions.DEFAULT), "partial {\"a\"}");
        }
        try (Pair blank = new Pair(ContextServerInterceptor.trusting(Context.LOST), new Blanking())) {
            Trying.same(ask(blank.channel(), "good", CallOptions.DEFAULT), "partial {\"a\"}");
        }
        try (Pair blank = new Pair(new Blanking(), ContextServerInterceptor.trusting(Context.LOST))) {
            Trying.same(ask(blank.channel(), "good", CallOptions.DEFAULT), "partial {\"a\",\"there\"}");
        }
    }

    static void testNoServer() throws Exception {
        ManagedChannel nowhere = InProcessChannelBuilder.forName("nowhere").build();
        Trying.same(ask(ClientInterceptors.intercept(nowhere, new ContextClientInterceptor()), "x", CallOptions.DEFAULT), "exact {\"a\"}");
        Trying.same(SEEN.get("status"), "UNAVAILABLE");
        Trying.same(ask(ClientInterceptors.intercept(nowhere, new ContextClientInterceptor(Context.LOST)), "x", CallOptions.DEFAULT),
            "partial {\"a\"}");
        nowhere.shutdownNow();
    }

    /** A call that gRPC itself tries again: what each of the two replies said is joined, though the last alone is handed on. */
    static void testACallThatGrpcRetries() throws Exception {
        Map<String, ?> policy = Map.of("maxAttempts", 3.0, "initialBackoff", "0.01s", "maxBackoff", "0.01s", "backoffMultiplier", 1.0,
            "retryableStatusCodes",
            List.of("UNAVAILABLE"));
        Map<String, ?> config = Map.of("methodConfig", List.of(Map.of("name", List.of(Map.of("service", "test")), "retryPolicy", policy)));
        try (Pair pair = new Pair(ContextServerInterceptor.trusting(Context.LOST))) {
            ManagedChannel retrying = InProcessChannelBuilder.forName(pair.name).enableRetry().defaultServiceConfig(config).build();
            SEEN.remove("flaky");
            Trying.same(ask(ClientInterceptors.intercept(retrying, new ContextClientInterceptor()), "flaky", CallOptions.DEFAULT),
                "exact {\"a\",\"there\"}");
            Trying.same(SEEN.get("flaky"), "twice");
            Trying.same(SEEN.get("hops"), "2");
            retrying.shutdownNow();
        }
    }

    static void testStreams() throws Exception {
        try (Pair pair = new Pair(ContextServerInterceptor.trusting(Context.LOST))) {
            for (String text : List.of("good", "error")) {
                Request request = new Request(said("a"));
                request.run(() -> {
                    Iterator<byte[]> messages = ClientCalls.blockingServerStreamingCall(pair.channel(), MANY, CallOptions.DEFAULT, text.getBytes());
                    messages.next();
                    Trying.same(tags(Request.current()).startsWith("partial") || tags(Request.current()).contains("there"), true);
                    try {
                        messages.forEachRemaining(message -> { });
                    } catch (StatusRuntimeException failed) {
                        Trying.same(text, "error");
                    }
                });
                Trying.same(tags(request.end()), "exact {\"a\",\"there\"}");
                Trying.same(BAG.readCounter(request.end(), "hops").value().total().intValue(), 3);
            }
        }
    }

    /** A listener that asks for messages one by one, and cancels after the first, or leaves the call. */
    private static final class First extends ClientCall.Listener<byte[]> {
        final CountDownLatch came = new CountDownLatch(1);
        final CountDownLatch closed = new CountDownLatch(1);

        @Override
        public void onMessage(byte[] message) {
            SEEN.put("in callback", tags(Request.current()));
            came.countDown();
        }

        @Override
        public void onClose(Status status, Metadata trailers) {
            closed.countDown();
        }
    }

    static void testStreamsThatAreLeft() throws Exception {
        try (Pair pair = new Pair(ContextServerInterceptor.trusting(Context.LOST))) {
            for (String end : List.of("cancel", "leave", "cancel at once")) {
                Request request = new Request(said("a"));
                First first = new First();
                ClientCall<byte[], byte[]> call = request.call(() -> {
                    ClientCall<byte[], byte[]> made = pair.channel().newCall(MANY, CallOptions.DEFAULT);
                    made.start(first, new Metadata());
                    made.sendMessage("silent".getBytes());
                    made.halfClose();
                    return made;
                });
                if (!end.equals("cancel at once")) {
                    call.request(1);
                    first.came.await();
                    Trying.same(SEEN.get("in callback"), "partial {\"a\"}");
                }
                if (!end.equals("leave")) {
                    call.cancel("enough", null);
                    first.closed.await();
                }
                Trying.same(tags(request.end()), "partial {\"a\"}");
            }
        }
    }

    static void testAnEdge() throws Exception {
        try (Pair pair = new Pair(new Looking(), ContextServerInterceptor.edge())) {
            Metadata sent = new Metadata();
            sent.put(KEY, Carriers.toBinary(said("stranger")));
            sent.put(TEXT, Carriers.toHeader(said("stranger")));
            sent.put(MEMBERS, "a=1,terncommode=x");
            CountDownLatch closed = new CountDownLatch(1);
            ClientCall<byte[], byte[]> call = pair.channel.newCall(ONE, CallOptions.DEFAULT);
            call.start(new ClientCall.Listener<byte[]>() {
                @Override
                public void onClose(Status status, Metadata trailers) {
                    SEEN.put("trailer", String.valueOf(trailers.containsKey(KEY)));
                    closed.countDown();
                }
            }, sent);
            call.sendMessage("good".getBytes());
            call.halfClose();
            call.request(2);
            closed.await();
            Trying.same(SEEN.get("tags"), "exact {}");
            Trying.same(SEEN.get("trailer"), "false");
            Trying.same(SEEN.get("keys").contains("terncommode"), false);
            Trying.same(SEEN.get("members"), "a=1");
        }
    }

    public static void main(String[] words) {
        Logger log = Logger.getLogger("io.grpc"); // a handler without a request throws, and that is meant
        log.setLevel(Level.OFF);
        Trying.runs(GrpcTests.class);
    }
}
