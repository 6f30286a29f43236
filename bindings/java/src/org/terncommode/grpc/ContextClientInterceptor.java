package org.terncommode.grpc;

import io.grpc.CallOptions;
import io.grpc.Channel;
import io.grpc.ClientCall;
import io.grpc.ClientInterceptor;
import io.grpc.ForwardingClientCall.SimpleForwardingClientCall;
import io.grpc.ForwardingClientCallListener.SimpleForwardingClientCallListener;
import io.grpc.Grpc;
import io.grpc.Metadata;
import io.grpc.MethodDescriptor;
import io.grpc.Status;
import java.util.Objects;
import java.util.Optional;
import org.terncommode.Carriers;
import org.terncommode.Context;
import org.terncommode.Reply;
import org.terncommode.Request;

/**
 * Sends the context of the request that runs with each call, and adds to it what the trailer brings. It is for channels to one's own services:
 * contexts go to whoever listens there. Where no request runs the lost context is sent.
 *
 * <p>From the first message of a reply on the request is lost until the trailer is here. A call that ends without a context is lost, also where its
 * status is an error; one that never had a connection adds nothing, or what {@code onFailure} says. A stream that is left stays lost, if a message of
 * it came. What gRPC itself tries again is joined from all of its attempts. Callbacks run in the request in which the call was made.
 */
public final class ContextClientInterceptor implements ClientInterceptor {
    private final Context onFailure;

    /** Calls that found no connection add nothing. */
    public ContextClientInterceptor() {
        this(Context.EMPTY);
    }

    /** Calls that found no connection add this: {@link Context#EMPTY}, or {@link Context#LOST}. */
    public ContextClientInterceptor(Context onFailure) {
        this.onFailure = Objects.requireNonNull(onFailure);
    }

    @Override
    public <A, B> ClientCall<A, B> interceptCall(MethodDescriptor<A, B> method, CallOptions options, Channel channel) {
        Optional<Request> request = Request.running();
        Optional<Reply> reply = request.map(Request::expect);
        Attempts attempts = new Attempts(reply);
        return new Call<>(channel.newCall(method, options.withStreamTracerFactory(attempts)), request, reply, attempts);
    }

    private final class Call<A, B> extends SimpleForwardingClientCall<A, B> {
        private final Optional<Request> request;
        private final Optional<Reply> reply;
        private final Attempts attempts;

        Call(ClientCall<A, B> call, Optional<Request> request, Optional<Reply> reply, Attempts attempts) {
            super(call);
            this.request = request;
            this.reply = reply;
            this.attempts = attempts;
        }

        @Override
        public void start(Listener<B> listener, Metadata headers) {
            Metadatas.inject(headers, request.map(Request::context).orElse(Context.LOST), Carriers.GRPC_BUDGET);
            super.start(new Coming<>(listener, this), headers);
        }
    }

    private final class Coming<B> extends SimpleForwardingClientCallListener<B> {
        private final Optional<Request> request;
        private final Optional<Reply> reply;
        private final Attempts attempts;
        private final ClientCall<?, ?> call;
        private boolean hasHeaders;

        Coming(ClientCall.Listener<B> listener, Call<?, B> call) {
            super(listener);
            this.request = call.request;
            this.reply = call.reply;
            this.attempts = call.attempts;
            this.call = call;
        }

        private void runs(Runnable work) {
            if (request.isPresent()) {
                request.get().run(work);
            } else {
                work.run();
            }
        }

        @Override
        public void onHeaders(Metadata headers) {
            hasHeaders = true;
            runs(() -> super.onHeaders(headers));
        }

        @Override
        public void onMessage(B message) {
            reply.ifPresent(Reply::began);
            runs(() -> super.onMessage(message));
        }

        @Override
        public void onReady() {
            runs(super::onReady);
        }

        @Override
        public void onClose(Status status, Metadata trailers) {
            reply.ifPresent(awaited -> settle(awaited, status, trailers));
            runs(() -> super.onClose(status, trailers));
        }

        private void settle(Reply awaited, Status status, Metadata trailers) {
            if (Metadatas.carries(trailers)) {
                awaited.came(attempts.settle().join(Metadatas.extract(trailers, Context.LOST)));
            } else if (isSilent(status)) {
                silent(awaited, attempts.settle());
            } else {
                awaited.came(attempts.settle().join(Context.LOST));
            }
        }

        /** The last attempt, which may be the only one, found no connection. */
        private void silent(Reply awaited, Context before) {
            awaited.failed();
            Context brought = before.join(onFailure);
            if (!brought.equals(Context.EMPTY)) {
                awaited.came(brought);
            }
        }

        /**
         * Whether it is sure that no byte of a reply came: the call never had a connection. Of one that was cancelled, or whose time was over, gRPC
         * forgets the connection.
         */
        private boolean isSilent(Status status) {
            return status.getCode() == Status.Code.UNAVAILABLE && !hasHeaders && call.getAttributes().get(Grpc.TRANSPORT_ATTR_REMOTE_ADDR) == null;
        }
    }
}
