package org.terncommode.servlet;

import java.io.IOException;
import java.util.ArrayList;
import java.util.Collections;
import java.util.List;
import java.util.Map;
import java.util.Objects;
import java.util.Optional;
import java.util.TreeMap;
import javax.servlet.FilterChain;
import javax.servlet.ServletException;
import javax.servlet.http.HttpFilter;
import javax.servlet.http.HttpServletRequest;
import javax.servlet.http.HttpServletResponse;
import org.terncommode.Carriers;
import org.terncommode.Door;
import org.terncommode.Request;

/**
 * A filter of servlets that runs each request of HTTP in a {@link Request}. It is the first of the filters, and is mapped to asynchronous dispatches
 * too.
 *
 * <p>What the request holds goes back when the first byte of the reply is written, or when it is flushed, sent as an error or a redirect, or ends.
 * What is said after that is late. The header is taken out of the request that servlets see. The request stands in the attribute {@link #ATTRIBUTE},
 * for threads that have no other way to it.
 */
public final class ContextServletFilter extends HttpFilter {
    /** The name of the attribute in which the request stands. */
    public static final String ATTRIBUTE = "org.terncommode.Request";

    private static final long serialVersionUID = 1;

    private final transient Door door;

    /** The filter that stands at this door. */
    public ContextServletFilter(Door door) {
        this.door = Objects.requireNonNull(door);
    }

    @Override
    protected void doFilter(HttpServletRequest asked, HttpServletResponse reply, FilterChain chain) throws IOException, ServletException {
        Object begun = asked.getAttribute(ATTRIBUTE);
        if (begun instanceof Request) { // a dispatch of a request that this filter has seen
            runs((Request) begun, asked, reply, chain);
            return;
        }
        List<String> values = Collections.list(asked.getHeaders(Carriers.HEADER));
        Request request = door.begins(values);
        asked.setAttribute(ATTRIBUTE, request);
        ReplyWriter writer = new ReplyWriter(reply, () -> answer(request, values, reply));
        runs(request, new HeadersRead(asked, door.seen(headersOf(asked))), writer, chain);
        if (!asked.isAsyncStarted()) {
            writer.begins();
        }
    }

    private static void runs(Request request, HttpServletRequest asked, HttpServletResponse reply, FilterChain chain) throws IOException,
        ServletException {
        try {
            request.call(() -> {
                chain.doFilter(asked, reply);
                return null;
            });
        } catch (IOException | ServletException | RuntimeException error) {
            throw error;
        } catch (Exception error) {
            throw new ServletException(error);
        }
    }

    private static Map<String, List<String>> headersOf(HttpServletRequest asked) {
        Map<String, List<String>> headers = new TreeMap<>(String.CASE_INSENSITIVE_ORDER);
        Collections.list(asked.getHeaderNames()).forEach(name -> headers.put(name, Collections.list(asked.getHeaders(name))));
        return headers;
    }

    /** Sets the headers of the reply. A header isn't taken out of a reply by servlets, so at an edge it is left empty. */
    private void answer(Request request, List<String> received, HttpServletResponse reply) {
        Map<String, Optional<String>> answers = door.answers(request, received, name -> new ArrayList<>(reply.getHeaders(name)));
        answers.forEach((name, value) -> {
            if (value.isPresent() || reply.containsHeader(name)) {
                reply.setHeader(name, value.orElse(""));
            }
        });
    }
}
