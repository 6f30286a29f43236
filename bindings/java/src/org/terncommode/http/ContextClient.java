package org.terncommode.http;

import java.io.IOException;
import java.net.Authenticator;
import java.net.ConnectException;
import java.net.CookieHandler;
import java.net.ProxySelector;
import java.net.URI;
import java.net.http.HttpClient;
import java.net.http.HttpConnectTimeoutException;
import java.net.http.HttpHeaders;
import java.net.http.HttpRequest;
import java.net.http.HttpResponse;
import java.net.http.WebSocket;
import java.time.Duration;
import java.util.HashSet;
import java.util.List;
import java.util.Locale;
import java.util.Map;
import java.util.Optional;
import java.util.Set;
import java.util.TreeMap;
import java.util.concurrent.CompletableFuture;
import java.util.concurrent.CompletionException;
import java.util.concurrent.Executor;
import java.util.function.Predicate;
import javax.net.ssl.SSLContext;
import javax.net.ssl.SSLParameters;
import org.terncommode.Carriers;
import org.terncommode.Context;
import org.terncommode.Reply;
import org.terncommode.Request;

/**
 * A client that sends the context of the request that runs to the hosts that are said, and adds to it what their replies bring. A host that isn't
 * said gets no context, and what it sends isn't read. Where no request runs the lost context is sent.
 *
 * <p>A reply counts as lost that brings no context, or that doesn't say that it answers what was sent. So does one that breaks; where no connection
 * was made it adds nothing, or what {@link #onFailure} says. A context is there with the head of the reply, before its body. What a reply brings
 * after the end of the request is late, and counted by {@link Request#late}.
 *
 * <p>The steps of the future that {@code sendAsync} gives run in threads of the client: hand them over by {@link Request#wrapFunction} and its like.
 */
public final class ContextClient extends HttpClient {
    private final HttpClient client;
    private final Predicate<URI> hosts;
    private final long budget;
    private final Context onFailure;

    private ContextClient(HttpClient client, Predicate<URI> hosts, long budget, Context onFailure) {
        this.client = client;
        this.hosts = hosts;
        this.budget = budget;
        this.onFailure = onFailure;
    }

    /**
     * A client over another one, which sends contexts to these hosts: {@code cart} whatever the port, {@code cart:8080} for that port alone.
     *
     * @throws IllegalArgumentException where the other one follows redirects, since it would send the context wherever it is redirected to
     */
    public static ContextClient of(HttpClient client, String... hosts) {
        if (client.followRedirects() != Redirect.NEVER) {
            throw new IllegalArgumentException("a client that follows redirects would send contexts wherever it is redirected to: build it with Redirect.NEVER");
        }
        Set<String> said = new HashSet<>();
        for (String host : hosts) {
            said.add(host.toLowerCase(Locale.ROOT));
        }
        return new ContextClient(client, uri -> isSaid(said, uri), Carriers.REQUEST_BUDGET, Context.EMPTY);
    }

    private static boolean isSaid(Set<String> said, URI uri) {
        String host = String.valueOf(uri.getHost()).toLowerCase(Locale.ROOT);
        int port = uri.getPort() >= 0 ? uri.getPort() : "https".equalsIgnoreCase(uri.getScheme()) ? 443 : 80;
        return said.contains(host) || said.contains(host + ":" + port);
    }

    /** The same client, which sends contexts of at most so many bytes. */
    public ContextClient budget(long bytes) {
        return new ContextClient(client, hosts, bytes, onFailure);
    }

    /** The same client, to whose requests a call adds this that found no connection: {@link Context#EMPTY}, or {@link Context#LOST}. */
    public ContextClient onFailure(Context context) {
        return new ContextClient(client, hosts, budget, context);
    }

    /** One call: what is sent, and the reply that is awaited. */
    private final class Call {
        final HttpRequest sent;
        private final String value;
        private final Optional<Reply> reply;

        Call(HttpRequest request) {
            value = Carriers.toHeader(Request.current().cut(budget));
            reply = Request.running().map(Request::expect);
            sent = new Sent(request, value);
        }

        /** Joins what came with the head, before anybody reads the body. */
        <T> HttpResponse.BodyHandler<T> handler(HttpResponse.BodyHandler<T> handler) {
            return info -> {
                reply.ifPresent(awaited -> awaited.came(Carriers.extractReply(info.headers().map(), value)));
                return handler.apply(info);
            };
        }

        /** The reply without its context, and with what those before it brought, as where the client was asked who it is. */
        <T> HttpResponse<T> answered(HttpResponse<T> response) {
            Optional<HttpResponse<T>> before = response.previousResponse();
            while (before.isPresent()) {
                Context brought = Carriers.extractReply(before.get().headers().map(), value);
                reply.ifPresent(awaited -> awaited.came(brought));
                before = before.get().previousResponse();
            }
            return new Answered<>(response);
        }

        /** Nothing more comes of it. After the head this does nothing. */
        void failed(Throwable error) {
            if (isNotConnected(error)) {
                reply.ifPresent(awaited -> neverCame(awaited));
            } else {
                reply.ifPresent(Reply::began);
                reply.ifPresent(Reply::failed);
            }
        }

        private void neverCame(Reply awaited) {
            awaited.failed();
            if (!onFailure.equals(Context.EMPTY)) {
                awaited.came(onFailure);
            }
        }
    }

    /** Whether it is sure that no byte of a reply came. The client doesn't tell it of a connection that it had. */
    private static boolean isNotConnected(Throwable error) {
        Throwable cause = error instanceof CompletionException && error.getCause() != null ? error.getCause() : error;
        return cause instanceof ConnectException || cause instanceof HttpConnectTimeoutException;
    }

    @Override
    public <T> HttpResponse<T> send(HttpRequest request, HttpResponse.BodyHandler<T> handler) throws IOException, InterruptedException {
        if (!hosts.test(request.uri())) {
            return client.send(Sent.bare(request), handler);
        }
        Call call = new Call(request);
        try {
            return call.answered(client.send(call.sent, call.handler(handler)));
        } catch (Throwable error) {
            call.failed(error);
            throw error;
        }
    }

    @Override
    public <T> CompletableFuture<HttpResponse<T>> sendAsync(HttpRequest request, HttpResponse.BodyHandler<T> handler) {
        return sendAsync(request, handler, null);
    }

    /** What is pushed beside a reply is handed on as it comes: its context isn't read. */
    @Override
    public <T> CompletableFuture<HttpResponse<T>> sendAsync(HttpRequest request, HttpResponse.BodyHandler<T> handler,
        HttpResponse.PushPromiseHandler<T> pushes) {
        if (!hosts.test(request.uri())) {
            return client.sendAsync(Sent.bare(request), handler, pushes);
        }
        Call call = new Call(request);
        CompletableFuture<HttpResponse<T>> coming = client.sendAsync(call.sent, call.handler(handler), pushes);
        CompletableFuture<HttpResponse<T>> answered = coming.whenComplete((response, error) -> {
            if (error != null) {
                call.failed(error);
            }
        }).thenApply(call::answered);
        answered.whenComplete((response, error) -> {
            if (answered.isCancelled()) {
                coming.cancel(true);
                call.failed(error);
            }
        });
        return answered;
    }

    @Override
    public Optional<CookieHandler> cookieHandler() {
        return client.cookieHandler();
    }

    @Override
    public Optional<Duration> connectTimeout() {
        return client.connectTimeout();
    }

    @Override
    public Redirect followRedirects() {
        return client.followRedirects();
    }

    @Override
    public Optional<ProxySelector> proxy() {
        return client.proxy();
    }

    @Override
    public SSLContext sslContext() {
        return client.sslContext();
    }

    @Override
    public SSLParameters sslParameters() {
        return client.sslParameters();
    }

    @Override
    public Optional<Authenticator> authenticator() {
        return client.authenticator();
    }

    @Override
    public Version version() {
        return client.version();
    }

    @Override
    public Optional<Executor> executor() {
        return client.executor();
    }

    /** Sockets carry no contexts. */
    @Override
    public WebSocket.Builder newWebSocketBuilder() {
        return client.newWebSocketBuilder();
    }

    /** A request with other headers. */
    private static final class Sent extends HttpRequest {
        private final HttpRequest request;
        private final HttpHeaders headers;

        /** A request that carries this value, and else nothing of this project's. */
        Sent(HttpRequest request, String value) {
            this(request, Optional.of(value));
        }

        private Sent(HttpRequest request, Optional<String> value) {
            this.request = request;
            Map<String, List<String>> all = new TreeMap<>(String.CASE_INSENSITIVE_ORDER);
            all.putAll(Carriers.withoutOwn(request.headers().map()));
            value.ifPresent(said -> all.put(Carriers.HEADER, List.of(said)));
            headers = HttpHeaders.of(all, (name, said) -> true);
        }

        /** A request that carries nothing of this project's. */
        static HttpRequest bare(HttpRequest request) {
            Sent bare = new Sent(request, Optional.empty());
            return bare.headers.map().equals(request.headers().map()) ? request : bare;
        }

        @Override
        public Optional<BodyPublisher> bodyPublisher() {
            return request.bodyPublisher();
        }

        @Override
        public String method() {
            return request.method();
        }

        @Override
        public Optional<Duration> timeout() {
            return request.timeout();
        }

        @Override
        public boolean expectContinue() {
            return request.expectContinue();
        }

        @Override
        public URI uri() {
            return request.uri();
        }

        @Override
        public Optional<Version> version() {
            return request.version();
        }

        @Override
        public HttpHeaders headers() {
            return headers;
        }
    }
}
