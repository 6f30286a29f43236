// Package recipes has the recipes of docs/RECIPES.md in Go, a test each, over the fields that tools/accessors writes of their tables.
// examples/recipes/run runs them.
package recipes

import (
	"context"
	"errors"
	"fmt"
	"sync"
	"testing"

	"recipes/fields/counters"
	"recipes/fields/deadline"
	"recipes/fields/last_writer"
	"recipes/fields/lineages"
	"recipes/fields/sampling"
	"recipes/fields/tenant"
	"recipes/fields/test_traffic"
	"recipes/fields/tracing"
	baggage "terncommode"
)

// errUnknown is that nobody can know, since a context was cut.
var errUnknown = errors.New("it was cut off")

// wrote is what a service makes of a context, where the writes are of its own making.
func wrote(bag baggage.Bag, c baggage.Context, writes []baggage.Write) baggage.Context {
	made, err := bag.Update([]baggage.Context{c}, writes...)
	if err != nil {
		panic(err)
	}
	return made
}

// known is what is read of contexts that were made under the table, so that they are typed.
func known[T any](field baggage.Field[T], err error) baggage.Field[T] {
	if err != nil {
		panic(err)
	}
	return field
}

func holds(t *testing.T, what string, holds bool) {
	t.Helper()
	if !holds {
		t.Error(what)
	}
}

// ---- spans and their parents

// span is the context with one more span, those that come right before it, and whether they are all.
func span(c baggage.Context, id uint32) (made baggage.Context, parents []uint32, exact bool) {
	spans := known(tracing.Read(c).Spans())
	last := uint32(0)
	for _, s := range spans.Value {
		if s.F0 > last {
			last = s.F0
		}
	}
	for _, s := range spans.Value {
		if s.F0 == last {
			parents = append(parents, s.F1)
		}
	}
	var writes tracing.Writes
	writes.SetLast(tracing.LastStruct{F0: last + 1, F1: id}).AddSpans(tracing.SpansStruct{F0: last + 1, F1: id})
	return wrote(tracing.Bag(), c, writes.List()), parents, spans.Exact
}

func TestTracing(t *testing.T) {
	gateway, _, _ := span(baggage.Context{}, 0xa1)
	cart, _, _ := span(gateway, 0xb1)
	pricing, _, _ := span(gateway, 0xb2)
	both := baggage.Join(cart, pricing)
	_, parents, exact := span(both, 0xc1)
	holds(t, "both are parents", exact && fmt.Sprint(parents) == "[177 178]")
	last := known(tracing.Read(both).Last())
	holds(t, "the trap: the greatest is one of them, and exact", last.Exact && last.Value.F1 == 0xb2)
	_, _, exact = span(both.Cut(28), 0xc1)
	holds(t, "of a cut context they may not be all", !exact)
}

// ---- sampling

// isOn is whether a taint is on. What reads as off and isn't exact is unknown.
func isOn(taint baggage.Field[bool]) (bool, error) {
	if !taint.Value && !taint.Exact {
		return false, errUnknown
	}
	return taint.Value, nil
}

func TestSampling(t *testing.T) {
	var below sampling.Writes
	below.MarkTail().SetRate(50000)
	sent := wrote(sampling.Bag(), baggage.Context{}, new(sampling.Writes).SetRate(1000).List())
	all := baggage.Join(sent, wrote(sampling.Bag(), sent, below.List()))
	on, err := isOn(known(sampling.Read(all).Tail()))
	holds(t, "it travels back", on && err == nil)
	holds(t, "the greatest rate", *known(sampling.Read(all).Rate()).Value == 50000)
	_, err = isOn(known(sampling.Read(all.Cut(4)).Tail()))
	holds(t, "the trap: off that is partial isn't off", err == errUnknown)
}

// ---- tenants

// tenantOf is whose request it is.
func tenantOf(c baggage.Context) (string, error) {
	tenants := known(tenant.Read(c).Tenants())
	if !tenants.Exact {
		return "", errUnknown
	}
	if len(tenants.Value) != 1 {
		return "", fmt.Errorf("it is said to be of %q", tenants.Value)
	}
	return tenants.Value[0], nil
}

func TestTenant(t *testing.T) {
	edge := wrote(tenant.Bag(), baggage.Context{}, new(tenant.Writes).AddTenants("acme").List())
	name, err := tenantOf(edge)
	holds(t, "one is one", name == "acme" && err == nil)
	two := wrote(tenant.Bag(), edge, new(tenant.Writes).AddTenants("zeta").List())
	for _, c := range []baggage.Context{{}, baggage.Lost(), edge.Cut(3), two} {
		_, err := tenantOf(c)
		holds(t, "none, two, and what was cut are refused", err != nil)
	}
	plain := baggage.MustBag("baggage table 1\n0 0 tenant scalar string\n")
	said := wrote(plain, wrote(plain, baggage.Context{}, []baggage.Write{baggage.Set("tenant", `"zeta"`)}), []baggage.Write{baggage.Set("tenant", `"acme"`)})
	text, exact, _ := plain.Text(said, "tenant")
	holds(t, "the trap: the least stays, and is exact", text == `"acme"` && exact)
}

// ---- counters

func TestCounters(t *testing.T) {
	ctx := baggage.With(context.Background(), baggage.Context{})
	visit := func(queries uint64) {
		below := baggage.With(context.Background(), baggage.From(ctx))
		if err := baggage.Count(below, counters.Bag(), "queries", queries); err != nil {
			t.Error(err)
		}
		if err := baggage.Add(ctx, baggage.End(below)); err != nil {
			t.Error(err)
		}
	}
	var group sync.WaitGroup
	for queries := uint64(1); queries <= 10; queries++ {
		group.Add(1)
		go func(queries uint64) {
			defer group.Done()
			visit(queries)
		}(queries)
	}
	group.Wait()
	visit(5)
	visit(5) // a retry: both visits did the work
	queries := known(counters.Read(baggage.From(ctx)).Queries())
	holds(t, "every visit counts", queries.Value.Total().IsUint64() && queries.Value.Total().Uint64() == 65 && queries.Exact)

	one := wrote(counters.Bag(), baggage.Context{}, new(counters.Writes).CountSent([]byte("cart"), 300).List())
	other := wrote(counters.Bag(), baggage.Context{}, new(counters.Writes).CountSent([]byte("cart"), 400).List())
	sent := known(counters.Read(baggage.Join(one, other)).Sent())
	holds(t, "the trap: of a writer that two visits share the greater count stays", sent.Value.Total().Uint64() == 400 && sent.Exact)
}

// ---- deadlines

// until is the deadline that binds a visit: that of the context which came with its request.
func until(arrived baggage.Context) (least uint64, isBound, exact bool) {
	said := known(deadline.Read(arrived).Until())
	for _, at := range said.Value {
		if at != nil && (!isBound || *at < least) {
			least, isBound = *at, true
		}
	}
	return least, isBound, said.Exact
}

func TestDeadline(t *testing.T) {
	arrived := wrote(deadline.Bag(), baggage.Context{}, new(deadline.Writes).SetUntil(0xa1, 1500).List())
	bound, _, _ := until(arrived) // read once, before any reply
	reply := wrote(deadline.Bag(), arrived, new(deadline.Writes).SetUntil(0xb1, 1200).List())
	tighter, _, _ := until(reply)
	holds(t, "the child is bound tighter, and the parent as before", tighter == 1200 && bound == 1500)

	plain := baggage.MustBag("baggage table 1\n0 0 until scalar uint64\n")
	sent := wrote(plain, baggage.Context{}, []baggage.Write{baggage.Set("until", "1500")})
	text, exact, _ := plain.Text(baggage.Join(sent, wrote(plain, sent, []baggage.Write{baggage.Set("until", "1200")})), "until")
	holds(t, "the trap: a scalar comes back tighter, and is exact", text == "1200" && exact)
	_, _, exact = until(baggage.Lost())
	holds(t, "it may be tighter than what is known", !exact)
}

// ---- test traffic

func TestTestTraffic(t *testing.T) {
	test := wrote(test_traffic.Bag(), baggage.Context{}, new(test_traffic.Writes).MarkTest().SetCriticality(0).List())
	real := wrote(test_traffic.Bag(), baggage.Context{}, new(test_traffic.Writes).SetCriticality(3).List())
	on, err := isOn(known(test_traffic.Read(baggage.Join(test, real)).Test()))
	holds(t, "what is on stays on", on && err == nil)
	for _, c := range []baggage.Context{test.Cut(1), baggage.Lost()} {
		_, err := isOn(known(test_traffic.Read(c).Test()))
		holds(t, "the trap: whoever can't know doesn't charge", err == errUnknown)
	}
}

// ---- lineages

// isFresh is whether a replica's version of an object has all that the request has seen. Who can't know asks the leader.
func isFresh(c baggage.Context, object string, version uint64) bool {
	seen := known(lineages.Read(c).Seen())
	needed := seen.Value[object]
	return seen.Exact && (needed == nil || *needed <= version)
}

func TestLineages(t *testing.T) {
	request := wrote(lineages.Bag(), baggage.Context{}, new(lineages.Writes).SetSeen("post/7", 41).SetSeen("user/12", 8).List())
	holds(t, "a replica that is behind", !isFresh(request, "post/7", 40))
	holds(t, "one that isn't", isFresh(request, "user/12", 8) && isFresh(baggage.Context{}, "post/7", 40))
	holds(t, "the trap: an object that was cut off may have been written", !isFresh(request.Cut(16), "user/12", 8))
}

// ---- the last writer

func TestLastWriter(t *testing.T) {
	first := wrote(last_writer.Bag(), baggage.Context{}, new(last_writer.Writes).SetChoice(last_writer.ChoiceStruct{F0: 1000, F1: "red"}).List())
	second := wrote(last_writer.Bag(), first, new(last_writer.Writes).SetChoice(last_writer.ChoiceStruct{F0: 1001, F1: "blue"}).List())
	choice := known(last_writer.Read(baggage.Join(first, second)).Choice())
	holds(t, "the later one wins", choice.Value.F1 == "blue" && choice.Exact)

	plain := baggage.MustBag("baggage table 1\n0 0 variant scalar string\n")
	blue := wrote(plain, baggage.Context{}, []baggage.Write{baggage.Set("variant", `"blue"`)})
	text, exact, _ := plain.Text(wrote(plain, blue, []baggage.Write{baggage.Set("variant", `"red"`)}), "variant")
	holds(t, "the trap: without a clock the least stays, and is exact", text == `"blue"` && exact)
}
