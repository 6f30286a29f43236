package otel_test

import (
	"context"
	"fmt"
	"net/http"
	"strings"
	"testing"

	"go.opentelemetry.io/otel/baggage"
	"go.opentelemetry.io/otel/propagation"

	"terncommode"
	"terncommode/otelbag"
)

var bag = terncommode.MustBag("baggage table 1\n0 0 id scalar fixed32\n0 1 tags set string\n")

func is(t *testing.T, found, wanted interface{}) {
	t.Helper()
	if found != wanted {
		t.Errorf("%v, not %v", found, wanted)
	}
}

// A hop is a service on the way: what it sends on of what came.
type hop func(t *testing.T, headers http.Header, tag string) http.Header

// ours is a service with the propagator in a composite, which writes a tag.
func ours(composite func(propagation.TextMapPropagator) propagation.TextMapPropagator, p propagation.TextMapPropagator) hop {
	return func(t *testing.T, headers http.Header, tag string) http.Header {
		both, sent := composite(p), http.Header{}
		ctx := both.Extract(context.Background(), propagation.HeaderCarrier(headers))
		is(t, terncommode.Change(ctx, func(c terncommode.Context) (terncommode.Context, error) {
			return bag.Update([]terncommode.Context{c}, terncommode.Set("tags", terncommode.Quote(tag)))
		}), nil)
		both.Inject(ctx, propagation.HeaderCarrier(sent))
		return sent
	}
}

func after(p propagation.TextMapPropagator) propagation.TextMapPropagator {
	return propagation.NewCompositeTextMapPropagator(propagation.TraceContext{}, propagation.Baggage{}, p)
}

func before(p propagation.TextMapPropagator) propagation.TextMapPropagator {
	return propagation.NewCompositeTextMapPropagator(p, propagation.TraceContext{}, propagation.Baggage{})
}

func alone(p propagation.TextMapPropagator) propagation.TextMapPropagator { return p }

// strangers are services that don't know the package.
var strangers = map[string]hop{
	"W3C baggage": func(_ *testing.T, headers http.Header, _ string) http.Header {
		known, sent := propagation.NewCompositeTextMapPropagator(propagation.TraceContext{}, propagation.Baggage{}), http.Header{}
		known.Inject(known.Extract(context.Background(), propagation.HeaderCarrier(headers)), propagation.HeaderCarrier(sent))
		return sent
	},
	"W3C baggage, and adds": func(t *testing.T, headers http.Header, _ string) http.Header {
		known, sent := propagation.Baggage{}, http.Header{}
		ctx := known.Extract(context.Background(), propagation.HeaderCarrier(headers))
		member, err := baggage.NewMember("added", "1")
		is(t, err, nil)
		read, err := baggage.FromContext(ctx).SetMember(member)
		is(t, err, nil)
		known.Inject(baggage.ContextWithBaggage(ctx, read), propagation.HeaderCarrier(sent))
		return sent
	},
	"nothing":     func(*testing.T, http.Header, string) http.Header { return http.Header{} },
	"all headers": func(_ *testing.T, headers http.Header, _ string) http.Header { return headers.Clone() },
	"64 members":  limited(64, 8192),
	"few letters": limited(64, 100),
	"the last ones": func(_ *testing.T, headers http.Header, _ string) http.Header {
		return kept(headers, func(all []string) []string { return all[len(all)/2:] })
	},
	"two lines": func(_ *testing.T, headers http.Header, _ string) http.Header { return lines(headers) },
	"its own header": func(_ *testing.T, headers http.Header, _ string) http.Header {
		sent := headers.Clone()
		sent.Del("Baggage")
		return sent
	},
}

// limited keeps so many members and letters, as a service that cuts.
func limited(members, letters int) hop {
	return func(_ *testing.T, headers http.Header, _ string) http.Header {
		sent := kept(headers, func(all []string) []string {
			if len(all) > members {
				all = all[:members]
			}
			return all
		})
		if text := sent.Get("Baggage"); len(text) > letters {
			sent.Set("Baggage", text[:letters])
		}
		return sent
	}
}

func kept(headers http.Header, choose func(all []string) []string) http.Header {
	sent := http.Header{}
	if text := headers.Get("Baggage"); text != "" {
		sent.Set("Baggage", strings.Join(choose(strings.Split(text, ",")), ","))
	}
	return sent
}

func lines(headers http.Header) http.Header {
	sent := headers.Clone()
	sent["Baggage"] = strings.Split(headers.Get("Baggage"), ",")
	return sent
}

// begins is a request with members of others.
func begins(members, letters int) http.Header {
	var all []string
	for k := 0; k < members; k++ {
		all = append(all, fmt.Sprintf("k%d=%s", k, strings.Repeat("v", letters)))
	}
	if all == nil {
		return http.Header{}
	}
	return http.Header{"Baggage": {strings.Join(all, ",")}}
}

// Chains of services: ours, a stranger, ours, a stranger, ours. What the last
// reads as exact is all that was written.
func TestChains(t *testing.T) {
	exact, partial := 0, 0
	orders := map[string]func(propagation.TextMapPropagator) propagation.TextMapPropagator{"after": after, "before": before, "alone": alone}
	for order, composite := range orders {
		for _, ways := range []otelbag.Ways{otelbag.Header, otelbag.Member, otelbag.Header | otelbag.Member} {
			for name, stranger := range strangers {
				for _, others := range []int{0, 3, 70, 200} {
					for _, letters := range []int{1, 30} {
						inside := ours(composite, otelbag.New(terncommode.Lost(), ways))
						headers := ours(composite, otelbag.Edge(ways))(t, begins(others, letters), "a")
						headers = stranger(t, headers, "")
						headers = inside(t, headers, "b")
						headers = stranger(t, headers, "")
						ctx := otelbag.New(terncommode.Lost(), ways).Extract(context.Background(), propagation.HeaderCarrier(headers))
						text, isExact, err := bag.Text(terncommode.From(ctx), "tags")
						is(t, err, nil)
						if isExact && text != `{"a","b"}` {
							t.Errorf("%s %v, %s, %d others of %d: %s is exact", order, ways, name, others, letters, text)
						}
						exact += map[bool]int{true: 1}[isExact]
						partial += map[bool]int{false: 1}[isExact]
					}
				}
			}
		}
	}
	t.Logf("%d exact, %d partial", exact, partial)
	if exact < 100 || partial < 100 {
		t.Errorf("%d exact, %d partial", exact, partial)
	}
}

// What a boundary keeps back doesn't pass it by another way.
func TestBoundaries(t *testing.T) {
	public, err := bag.Only("id")
	is(t, err, nil)
	for order, composite := range map[string]func(propagation.TextMapPropagator) propagation.TextMapPropagator{"after": after, "before": before, "alone": alone} {
		for _, ways := range []otelbag.Ways{otelbag.Header, otelbag.Member, otelbag.Header | otelbag.Member} {
			p := composite(otelbag.New(terncommode.Lost(), ways))
			came := ours(after, otelbag.Edge(otelbag.Header|otelbag.Member))(t, begins(2, 3), "secret")
			ctx, sent := p.Extract(context.Background(), propagation.HeaderCarrier(came)), http.Header{}
			is(t, terncommode.Change(ctx, func(c terncommode.Context) (terncommode.Context, error) {
				return public.Keep(terncommode.OthersUnsaid, terncommode.NoBudget, c), nil
			}), nil)
			p.Inject(ctx, propagation.HeaderCarrier(sent))
			next := otelbag.New(terncommode.Context{}, otelbag.Header|otelbag.Member).Extract(context.Background(), propagation.HeaderCarrier(sent))
			text, _, err := bag.Text(terncommode.From(next), "tags")
			is(t, err, nil)
			is(t, order+text, order+"{}")
			is(t, strings.Contains(sent.Get("Baggage"), "k1=vvv"), order != "alone")
		}
	}
}
