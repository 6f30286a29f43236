package terncommode

import (
	"context"
	"net"
	"net/http"
	"net/http/httptrace"
	"net/url"
	"reflect"
	"strings"
	"sync/atomic"
)

// A Failure is what a call adds that failed before anything of its reply came.
type Failure int

// The choices for calls that failed. What came of a reply that then failed is
// Lost in any case.
const (
	FailureAddsNothing Failure = iota // the service may have done its work, but nobody heard of it
	FailureIsLost                     // what it may have said counts as lost
)

// Transport sends the context that a request's context.Context holds to the
// hosts that are said, and adds to it what their replies bring. A host that
// isn't said gets no context, nor does a redirect to it, and what it sends is
// not read. So the zero value sends nothing.
//
// A reply counts as Lost that brings no context, or whose Terncommode-For isn't
// the check of what was sent, so that it is another request's. A reply that
// begins and doesn't come is Lost too; one of which no byte came is what
// OnFailure says. A context that was read is taken out of the reply's header.
//
// What a reply brings after the end of the request is late, and counted by Late.
type Transport struct {
	Base      http.RoundTripper   // http.DefaultTransport where it is nil
	Hosts     func(*url.URL) bool // to whom contexts are sent, for example Hosts("cart", "pricing:8080"); nobody where it is nil
	Budget    uint64              // RequestBudget where it is 0
	OnFailure Failure
}

// Hosts says yes to URLs with one of these names: `cart` whatever the port,
// `cart:8080` for that port alone.
func Hosts(names ...string) func(*url.URL) bool {
	said := map[string]bool{}
	for _, name := range names {
		said[strings.ToLower(name)] = true
	}
	return func(to *url.URL) bool {
		host, port := strings.ToLower(to.Hostname()), to.Port()
		if port == "" {
			port = map[string]string{"http": "80", "https": "443"}[to.Scheme]
		}
		return said[host] || said[net.JoinHostPort(host, port)]
	}
}

// RoundTrip implements http.RoundTripper.
func (t Transport) RoundTrip(request *http.Request) (*http.Response, error) {
	base := t.Base
	if base == nil {
		base = http.DefaultTransport
	}
	if t.Hosts == nil || !t.Hosts(request.URL) {
		return base.RoundTrip(bare(request))
	}
	budget := t.Budget
	if budget == 0 {
		budget = RequestBudget
	}
	ctx := request.Context()
	reply := Expect(ctx)
	seen := &watch{}
	sent := request.Clone(seen.on(ctx))
	Inject(sent.Header, From(ctx).Cut(budget))
	response, err := base.RoundTrip(sent)
	if err != nil {
		if t.OnFailure == FailureIsLost || !seen.nothing(base) {
			reply.Began()
		}
		reply.Failed()
		return response, err
	}
	// Where no request runs nobody holds it; a late one is counted.
	_ = reply.Came(ExtractReply(response.Header, sent.Header))
	response.Header.Del(Header)
	response.Header.Del(ForHeader)
	return response, nil
}

// bare is the request without what carries contexts.
func bare(request *http.Request) *http.Request {
	without := request.Header.Clone()
	takeOut(without)
	if reflect.DeepEqual(without, request.Header) {
		return request
	}
	request = request.Clone(request.Context())
	request.Header = without
	return request
}

// A watch sees whether a byte of a reply came. That says nothing to the request
// before RoundTrip ends: nobody has seen anything of the reply until then, and
// calls that are sent meanwhile would be lost for nothing.
type watch struct {
	traced, came atomic.Bool // the transport below tells of what it does; a byte came
}

// on is ctx with the watch on it. What another sees of ctx it goes on to see.
func (w *watch) on(ctx context.Context) context.Context {
	return httptrace.WithClientTrace(ctx, &httptrace.ClientTrace{
		GetConn:              func(string) { w.traced.Store(true) },
		GotFirstResponseByte: func() { w.came.Store(true) },
	})
}

// nothing is whether it is sure that no byte came. The transport of net/http
// tells of each, also where it fails before it asks for a connection.
func (w *watch) nothing(base http.RoundTripper) bool {
	_, isKnown := base.(*http.Transport)
	return !w.came.Load() && (isKnown || w.traced.Load())
}
