// Package terncommode has baggage contexts: what a request carries along
// through many services.
//
// A Context is always valid and never changes, so a copy is a branch. Where
// branches meet, contexts are joined; where a channel has a budget, a context
// is cut to it. A Bag is the table of the fields that a service knows; with it
// the service writes and reads them. What is read comes with a word on whether
// it is exact, so that nothing of it can have been cut off.
//
//	var bag = terncommode.MustBag(table) // what `baggage table FILE BAG` prints
//	var client = &http.Client{Transport: terncommode.Transport{Hosts: terncommode.Hosts("pricing")}}
//	...
//	http.ListenAndServe(":8080", terncommode.Handler(service, terncommode.Lost()))
//	...
//	err := terncommode.Change(r.Context(), func(c terncommode.Context) (terncommode.Context, error) {
//		return bag.Update([]terncommode.Context{c}, terncommode.Set("tags", terncommode.Quote("coupon")))
//	})
//
// Handler and Transport carry contexts for servers and clients of net/http, Edge
// stands where requests come from outside, and the modules grpcbag and otelbag
// are for gRPC and for OpenTelemetry. Between them the context of a request
// stands in its context.Context, for all goroutines that are given it: With, From,
// Add, Change, Count, Branch, Expect.
//
// The work is done by the shared library libbaggage, which pkg-config finds by
// the name baggage. With the build tag terncommode_flags it is looked for where
// CGO_CFLAGS and CGO_LDFLAGS say.
//
// Want of memory is a panic, as in Go itself.
package terncommode
