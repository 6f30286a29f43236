package org.terncommode.servlet;

import java.util.Collections;
import java.util.Enumeration;
import java.util.List;
import java.util.Map;
import javax.servlet.http.HttpServletRequest;
import javax.servlet.http.HttpServletRequestWrapper;

/** A request of HTTP as servlets see it: with other headers. */
final class HeadersRead extends HttpServletRequestWrapper {
    private final Map<String, List<String>> headers; // names count in any case

    HeadersRead(HttpServletRequest asked, Map<String, List<String>> headers) {
        super(asked);
        this.headers = headers;
    }

    @Override
    public String getHeader(String name) {
        List<String> values = headers.get(name);
        return values == null || values.isEmpty() ? null : values.get(0);
    }

    @Override
    public Enumeration<String> getHeaders(String name) {
        return Collections.enumeration(headers.getOrDefault(name, List.of()));
    }

    @Override
    public Enumeration<String> getHeaderNames() {
        return Collections.enumeration(headers.keySet());
    }
}
