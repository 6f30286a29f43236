package org.terncommode;

import java.util.List;
import java.util.Map;
import java.util.Objects;
import java.util.Optional;
import java.util.function.Function;

/**
 * What a server does with the context that arrives, and with the one that goes back: what its filters have in common. It is an edge, or it trusts who
 * sends.
 *
 * <p>At an edge anybody may write any field of a header: no context is read but what a bag lets in, none is sent back, and what the request carries
 * is taken out of it. A door that trusts takes the context that came, and sends back what the request holds. It never changes: each call gives
 * another one.
 */
public final class Door {
    private final boolean isTrusting;
    private final Context absent;
    private final Optional<Bag> known;
    private final long budget;

    private Door(boolean isTrusting, Context absent, Optional<Bag> known, long budget) {
        this.isTrusting = isTrusting;
        this.absent = Objects.requireNonNull(absent);
        this.known = known;
        this.budget = budget;
    }

    /** The door for requests from outside: each begins with the empty context. */
    public static Door edge() {
        return new Door(false, Context.EMPTY, Optional.empty(), Carriers.REPLY_BUDGET);
    }

    /** The door for requests from outside that lets in what the fields of a bag say: see {@link Ingress}. */
    public static Door edge(Bag accepted) {
        return new Door(false, Context.EMPTY, Optional.of(accepted), Carriers.REPLY_BUDGET);
    }

    /**
     * The door between one's own services. A request without a context has the one that is said here: {@link Context#LOST} after services that send
     * one, {@link Context#EMPTY} where requests begin.
     */
    public static Door trusting(Context absent) {
        return new Door(true, absent, Optional.empty(), Carriers.REPLY_BUDGET);
    }

    /** The same door, which sends back contexts of at most so many bytes. */
    public Door budget(long bytes) {
        return new Door(isTrusting, absent, known, bytes);
    }

    /** Whether it trusts who sends. */
    public boolean isTrusting() {
        return isTrusting;
    }

    /** The request that begins with what came in the values of the header. */
    public Request begins(List<String> values) {
        if (isTrusting) {
            return new Request(Carriers.extract(values, absent));
        }
        return new Request(known.isPresent() && !values.isEmpty() ? Ingress.letIn(values, known.get()) : absent);
    }

    /**
     * The headers of a request as whoever comes next sees them: what has been read isn't handed on as it came, and at an edge nothing that carries
     * contexts is.
     */
    public Map<String, List<String>> seen(Map<String, List<String>> headers) {
        Map<String, List<String>> others = Carriers.withoutOwn(headers);
        if (isTrusting) {
            List<String> members = Carriers.valuesOf(headers, Members.HEADER);
            if (!members.isEmpty()) {
                others.put(Members.HEADER, members);
            }
        }
        return others;
    }

    /**
     * The headers that the reply gets, when its head is written: names with values, or with none where the header is to be taken out. The request
     * ends here.
     *
     * @param received the values that the header of the request came with
     * @param said all values that a header of the reply has so far
     */
    public Map<String, Optional<String>> answers(Request request, List<String> received, Function<String, List<String>> said) {
        Context context = request.end();
        if (!isTrusting) {
            return Map.of(Carriers.HEADER, Optional.empty(), Carriers.FOR_HEADER, Optional.empty());
        }
        // A service that was asked by other means than ours has said something, and nobody has read it.
        Context back = said.apply(Carriers.HEADER).isEmpty() ? context : context.join(Context.LOST);
        return Map.of(Carriers.HEADER, Optional.of(Carriers.toHeader(back.cut(budget))), Carriers.FOR_HEADER, Carriers.checkOf(received),
            "Cache-Control", Optional.of(Carriers.noCache(said.apply("Cache-Control"))));
    }
}
