package org.terncommode.http;

import java.net.URI;
import java.net.http.HttpClient;
import java.net.http.HttpHeaders;
import java.net.http.HttpRequest;
import java.net.http.HttpResponse;
import java.util.Optional;
import javax.net.ssl.SSLSession;
import org.terncommode.Carriers;

/** A reply out of whose headers the context is taken that was read, so that a proxy doesn't hand it on as it came. */
final class Answered<T> implements HttpResponse<T> {
    private final HttpResponse<T> response;
    private final HttpHeaders headers;

    Answered(HttpResponse<T> response) {
        this.response = response;
        headers = HttpHeaders.of(response.headers().map(), (name, value) -> !Carriers.isOwn(name));
    }

    @Override
    public int statusCode() {
        return response.statusCode();
    }

    @Override
    public HttpRequest request() {
        return response.request();
    }

    @Override
    public Optional<HttpResponse<T>> previousResponse() {
        return response.previousResponse();
    }

    @Override
    public HttpHeaders headers() {
        return headers;
    }

    @Override
    public T body() {
        return response.body();
    }

    @Override
    public Optional<SSLSession> sslSession() {
        return response.sslSession();
    }

    @Override
    public URI uri() {
        return response.uri();
    }

    @Override
    public HttpClient.Version version() {
        return response.version();
    }
}
