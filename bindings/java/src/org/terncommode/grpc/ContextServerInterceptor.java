package org.terncommode.grpc;

import io.grpc.ForwardingServerCall.SimpleForwardingServerCall;
import io.grpc.ForwardingServerCallListener.SimpleForwardingServerCallListener;
import io.grpc.Metadata;
import io.grpc.ServerCall;
import io.grpc.ServerCallHandler;
import io.grpc.ServerInterceptor;
import io.grpc.Status;
import java.util.Objects;
import java.util.Optional;
import java.util.concurrent.Callable;
import org.terncommode.Carriers;
import org.terncommode.Context;
import org.terncommode.Request;

/**
 * Runs each call in a request that begins with what came in its metadata, and sends back in the trailer what the request holds when the call is
 * closed. What the handler says for any message of a stream goes back with the trailer, once. The key is taken out of the metadata that handlers see.
 */
public final class ContextServerInterceptor implements ServerInterceptor {
    private final Optional<Context> absent; // empty at an edge

    private ContextServerInterceptor(Optional<Context> absent) {
        this.absent = absent;
    }

    /** For calls from outside: each begins with the empty context, none is sent back, and all that carries contexts is taken out of the metadata. */
    public static ContextServerInterceptor edge() {
        return new ContextServerInterceptor(Optional.empty());
    }

    /** For calls of one's own services. A call without a context has the one that is said here, {@link Context#LOST} after services that send one. */
    public static ContextServerInterceptor trusting(Context absent) {
        return new ContextServerInterceptor(Optional.of(Objects.requireNonNull(absent)));
    }

    @Override
    public <A, B> ServerCall.Listener<A> interceptCall(ServerCall<A, B> call, Metadata headers, ServerCallHandler<A, B> next) {
        Request request = new Request(absent.map(otherwise -> Metadatas.extract(headers, otherwise)).orElse(Context.EMPTY));
        Metadata seen = Metadatas.seen(headers, absent.isPresent());
        Callable<ServerCall.Listener<A>> start = () -> next.startCall(new Answering<>(call, request), seen);
        try {
            return new Running<>(request.call(start), request);
        } catch (RuntimeException error) {
            throw error;
        } catch (Exception error) { // startCall throws none
            throw new IllegalStateException(error);
        }
    }

    private final class Answering<A, B> extends SimpleForwardingServerCall<A, B> {
        private final Request request;

        Answering(ServerCall<A, B> call, Request request) {
            super(call);
            this.request = request;
        }

        @Override
        public void close(Status status, Metadata trailers) {
            Context said = request.end();
            if (absent.isPresent()) {
                // An interceptor inside of this one, or a service of which this one is a proxy, has said something too.
                Metadatas.inject(trailers, said.join(Metadatas.extract(trailers, Context.EMPTY)), Carriers.GRPC_BUDGET);
            } else {
                trailers.discardAll(Metadatas.KEY);
            }
            super.close(status, trailers);
        }
    }

    private static final class Running<A> extends SimpleForwardingServerCallListener<A> {
        private final Request request;

        Running(ServerCall.Listener<A> listener, Request request) {
            super(listener);
            this.request = request;
        }

        @Override
        public void onMessage(A message) {
            request.run(() -> super.onMessage(message));
        }

        @Override
        public void onHalfClose() {
            request.run(super::onHalfClose);
        }

        @Override
        public void onCancel() {
            request.run(super::onCancel);
        }

        @Override
        public void onComplete() {
            request.run(super::onComplete);
        }

        @Override
        public void onReady() {
            request.run(super::onReady);
        }
    }
}
