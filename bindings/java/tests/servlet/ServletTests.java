import java.io.IOException;
import java.io.PrintWriter;
import java.io.StringWriter;
import java.lang.reflect.InvocationHandler;
import java.lang.reflect.Method;
import java.lang.reflect.Proxy;
import java.util.ArrayList;
import java.util.Collection;
import java.util.Collections;
import java.util.HashMap;
import java.util.List;
import java.util.Map;
import java.util.Set;
import java.util.TreeMap;
import javax.servlet.FilterChain;
import javax.servlet.ServletOutputStream;
import javax.servlet.ServletRequest;
import javax.servlet.WriteListener;
import javax.servlet.http.HttpServletRequest;
import javax.servlet.http.HttpServletResponse;
import org.terncommode.Bag;
import org.terncommode.Carriers;
import org.terncommode.Context;
import org.terncommode.Door;
import org.terncommode.Request;
import org.terncommode.servlet.ContextServletFilter;

/** The filter of servlets over a container that keeps what is said. */
final class ServletTests {
    private static final Bag BAG = Trying.BAG;

    private ServletTests() {}

    /** What a container does of what the filter and servlets ask of it. */
    private static final class Container implements InvocationHandler {
        final Map<String, List<String>> received = new TreeMap<>(String.CASE_INSENSITIVE_ORDER);
        final Map<String, String> head = new TreeMap<>(String.CASE_INSENSITIVE_ORDER);
        final Map<String, Object> attributes = new HashMap<>();
        final StringWriter written = new StringWriter();
        Map<String, String> sent; // the head, as it was with the first byte
        boolean isAsync;

        void commit() {
            if (sent == null) {
                sent = new TreeMap<>(String.CASE_INSENSITIVE_ORDER);
                sent.putAll(head);
            }
        }

        private final class Stream extends ServletOutputStream {
            @Override
            public void write(int each) {
                commit();
                written.write(each);
            }

            @Override
            public boolean isReady() {
                return true;
            }

            @Override
            public void setWriteListener(WriteListener listener) {}
        }

        @Override
        public Object invoke(Object proxy, Method method, Object[] words) {
            switch (method.getName()) {
                case "getHeaders":
                    if (proxy instanceof ServletRequest) {
                        return Collections.enumeration(received.getOrDefault(words[0], List.of()));
                    }
                    return head.containsKey(words[0]) ? List.of(head.get(words[0])) : List.of();
                case "getHeaderNames":
                    return Collections.enumeration(received.keySet());
                case "containsHeader":
                    return head.containsKey(words[0]);
                case "setHeader":
                    head.put((String) words[0], (String) words[1]);
                    return null;
                case "getAttribute":
                    return attributes.get(words[0]);
                case "setAttribute":
                    attributes.put((String) words[0], words[1]);
                    return null;
                case "isAsyncStarted":
                    return isAsync;
                case "isCommitted":
                    return sent != null;
                case "getOutputStream":
                    return new Stream();
                case "getWriter":
                    return new PrintWriter(written) {
                        @Override
                        public void write(String text, int first, int length) {
                            commit();
                            super.write(text, first, length);
                        }
                    };
                case "reset":
                    head.clear();
                    return null;
                case "flushBuffer":
                case "sendError":
                case "sendRedirect":
                    commit();
                    return null;
                default:
                    throw new UnsupportedOperationException(method.getName());
            }
        }

        HttpServletRequest request() {
            return (HttpServletRequest) Proxy.newProxyInstance(getClass().getClassLoader(), new Class<?>[] {HttpServletRequest.class}, this);
        }

        HttpServletResponse reply() {
            return (HttpServletResponse) Proxy.newProxyInstance(getClass().getClassLoader(), new Class<?>[] {HttpServletResponse.class}, this);
        }
    }

    private interface Servlet {
        void serve(HttpServletRequest asked, HttpServletResponse reply) throws IOException;
    }

    /** The container after a visit, whose request has this context. */
    private static Container visited(Door door, Context came, Servlet servlet) throws Exception {
        Container container = new Container();
        container.received.put("Terncommode", List.of(Carriers.toHeader(came)));
        container.received.put("X-Other", List.of("1", "2"));
        container.received.put("Baggage", List.of("a=1,terncommode=x"));
        FilterChain chain = (asked, reply) -> servlet.serve((HttpServletRequest) asked, (HttpServletResponse) reply);
        new ContextServletFilter(door).doFilter(container.request(), container.reply(), chain);
        if (!container.isAsync) {
            container.commit();
        }
        return container;
    }

    private static String tags(Context context) {
        return BAG.text(context, "tags").toString();
    }

    private static Context said(String tag) {
        return Trying.said("tags", Set.of(tag));
    }

    private static String back(Container container) {
        return tags(Carriers.extract(List.of(container.sent.getOrDefault("Terncommode", "?")), Context.LOST));
    }

    static void testWhenTheHeadIsWritten() throws Exception {
        Map<String, Servlet> ways = new TreeMap<>();
        ways.put("nothing", (asked, reply) -> { });
        ways.put("writer", (asked, reply) -> reply.getWriter().print("text"));
        ways.put("stream", (asked, reply) -> reply.getOutputStream().write(new byte[] {'t'}));
        ways.put("flush", (asked, reply) -> reply.flushBuffer());
        ways.put("error", (asked, reply) -> reply.sendError(500));
        ways.put("redirect", (asked, reply) -> reply.sendRedirect("/"));
        for (Map.Entry<String, Servlet> way : ways.entrySet()) {
            List<Boolean> told = new ArrayList<>();
            Container container = visited(Door.trusting(Context.LOST), said("a"), (asked, reply) -> {
                Trying.same(Request.here().add(said("in time")), true);
                way.getValue().serve(asked, reply);
                told.add(Request.here().add(said("late")));
            });
            boolean isOpen = way.getKey().equals("nothing");
            Trying.same(told, List.of(isOpen));
            Trying.same(back(container), isOpen ? "exact {\"a\",\"in time\",\"late\"}" : "exact {\"a\",\"in time\"}");
            Trying.same(container.sent.get("Terncommode-For"), Carriers.toHeader(said("a")).split("\\.")[1]);
            Trying.same(container.sent.get("Cache-Control"), "no-cache=\"terncommode\"");
        }
    }

    static void testAReplyThatIsReset() throws Exception {
        Container container = visited(Door.trusting(Context.LOST), said("a"), (asked, reply) -> {
            reply.getWriter();
            reply.setHeader("X", "y");
            reply.reset();
            reply.getWriter().print("text");
        });
        Trying.same(back(container), "exact {\"a\"}");
    }

    static void testWhatServletsSee() throws Exception {
        for (boolean isTrusting : List.of(true, false)) {
            Container container = visited(isTrusting ? Door.trusting(Context.LOST) : Door.edge(), said("a"), (asked, reply) -> {
                Trying.same(asked.getHeader("terncommode"), null);
                Trying.same(Collections.list(asked.getHeaders("Terncommode")), List.of());
                Trying.same(Collections.list(asked.getHeaders("x-other")), List.of("1", "2"));
                Trying.same(asked.getHeader("baggage"), isTrusting ? "a=1,terncommode=x" : "a=1");
                Collection<String> names = Collections.list(asked.getHeaderNames());
                Trying.same(names.contains("Terncommode"), false);
                Trying.same(tags(Request.current()), isTrusting ? "exact {\"a\"}" : "exact {}");
            });
            Trying.same(container.sent.containsKey("Terncommode"), isTrusting);
        }
    }

    static void testAHandedOnReplyIsLost() throws Exception {
        Container container = visited(Door.trusting(Context.LOST), said("a"), (asked, reply) -> reply
            .setHeader("terncommode", Carriers.toHeader(said("unread"))));
        Trying.same(back(container), "partial {\"a\"}");
        Trying.same(visited(Door.edge(), said("a"), (asked, reply) -> reply.setHeader("terncommode", "x")).sent.get("Terncommode"), "");
    }

    static void testAsynchronousServlets() throws Exception {
        Container[] found = new Container[1];
        Request[] here = new Request[1];
        HttpServletResponse[] later = new HttpServletResponse[1];
        Container container = new Container();
        container.isAsync = true;
        container.received.put("Terncommode", List.of(Carriers.toHeader(said("a"))));
        ContextServletFilter filter = new ContextServletFilter(Door.trusting(Context.LOST));
        filter.doFilter(container.request(), container.reply(), (asked, reply) -> {
            here[0] = Request.here();
            later[0] = (HttpServletResponse) reply;
            found[0] = container;
        });
        Trying.same(container.sent, null);
        Thread thread = new Thread(here[0].wrap(() -> Request.here().add(said("async"))));
        thread.start();
        thread.join();
        // A dispatch goes on in the request that has begun.
        filter.doFilter(container.request(), later[0], (asked, reply) -> Trying.same(Request.here(), here[0]));
        later[0].getWriter().print("text");
        Trying.same(back(found[0]), "exact {\"a\",\"async\"}");
    }

    public static void main(String[] words) {
        Trying.runs(ServletTests.class);
    }
}
