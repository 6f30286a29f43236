package org.terncommode.grpc;

import io.grpc.ClientStreamTracer;
import io.grpc.Metadata;
import io.grpc.Status;
import java.util.Optional;
import org.terncommode.Context;
import org.terncommode.Reply;

/** The attempts of a call, of which gRPC itself may make several and hand on the last alone: what each of them brought is joined. */
final class Attempts extends ClientStreamTracer.Factory {
    private final Optional<Reply> reply;
    private Context brought = Context.EMPTY;
    private boolean isSettled;

    Attempts(Optional<Reply> reply) {
        this.reply = reply;
    }

    @Override
    public ClientStreamTracer newClientStreamTracer(ClientStreamTracer.StreamInfo info, Metadata headers) {
        return new Attempt();
    }

    /** What the attempts brought that have ended. What others bring later is joined when they end. */
    synchronized Context settle() {
        isSettled = true;
        return brought;
    }

    private synchronized void ended(Context context) {
        brought = brought.join(context);
        if (isSettled) {
            reply.ifPresent(awaited -> awaited.came(context));
        }
    }

    private final class Attempt extends ClientStreamTracer {
        private volatile boolean wasSent; // so that something of a reply may have come
        private volatile Metadata trailers;

        @Override
        public void outboundHeaders() {
            wasSent = true;
        }

        @Override
        public void inboundTrailers(Metadata trailers) {
            this.trailers = trailers;
        }

        @Override
        public void streamClosed(Status status) {
            if (Metadatas.carries(trailers)) {
                ended(Metadatas.extract(trailers, Context.LOST));
            } else if (wasSent) {
                ended(Context.LOST);
            }
        }
    }
}
