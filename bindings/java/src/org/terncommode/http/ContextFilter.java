package org.terncommode.http;

import com.sun.net.httpserver.Filter;
import com.sun.net.httpserver.Headers;
import com.sun.net.httpserver.HttpExchange;
import com.sun.net.httpserver.HttpsExchange;
import java.io.IOException;
import java.util.List;
import java.util.Map;
import java.util.Objects;
import java.util.Optional;
import org.terncommode.Carriers;
import org.terncommode.Door;
import org.terncommode.Request;

/**
 * A filter of {@code com.sun.net.httpserver} that runs each exchange in a request: {@code server.createContext("/", handler).getFilters().add(new
 * ContextFilter(Door.edge()))}.
 *
 * <p>What the request holds when the handler calls {@code sendResponseHeaders} goes back. What is said after that is late: {@code add}, {@code
 * change} and {@code count} say so. The header is taken out of the request that the handler sees.
 */
public final class ContextFilter extends Filter {
    private final Door door;

    /** The filter that stands at this door. */
    public ContextFilter(Door door) {
        this.door = Objects.requireNonNull(door);
    }

    @Override
    public String description() {
        return door.isTrusting() ? "contexts of one's own services" : "no contexts of strangers";
    }

    @Override
    public void doFilter(HttpExchange exchange, Chain chain) throws IOException {
        List<String> values = valuesOf(exchange.getRequestHeaders(), Carriers.HEADER);
        Request request = door.begins(values);
        Headers inside = new Headers();
        inside.putAll(door.seen(exchange.getRequestHeaders()));
        Runnable ends = () -> answer(request, values, exchange.getResponseHeaders());
        HttpExchange seen = exchange instanceof HttpsExchange ? new SecureExchange((HttpsExchange) exchange, inside, ends)
            : new PlainExchange(exchange, inside, ends);
        try {
            request.call(() -> {
                chain.doFilter(seen);
                return null;
            });
        } catch (IOException | RuntimeException error) {
            throw error;
        } catch (Exception error) {
            throw new IOException(error);
        }
    }

    private static List<String> valuesOf(Headers headers, String name) {
        List<String> values = headers.get(name);
        return values == null ? List.of() : values;
    }

    private void answer(Request request, List<String> received, Headers head) {
        Map<String, Optional<String>> answers = door.answers(request, received, name -> valuesOf(head, name));
        answers.forEach((name, value) -> {
            head.remove(name);
            value.ifPresent(said -> head.set(name, said));
        });
    }
}
