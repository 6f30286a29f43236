package otelbag_test

import (
	"context"
	"fmt"
	"net/http"
	"net/http/httptest"
	"reflect"
	"strings"
	"testing"

	"go.opentelemetry.io/otel/baggage"
	"go.opentelemetry.io/otel/propagation"

	"terncommode"
	"terncommode/otelbag"
)

var (
	id7 = parsed("\x02\xf8\x00\x05\x00\x00\x00\x00\x07")
	tag = parsed("\x02\xf8\x01\x02\x00a")
)

// A mapCarrier is a carrier that isn't the headers of HTTP.
type mapCarrier map[string]string

func (c mapCarrier) Get(key string) string { return c[key] }
func (c mapCarrier) Set(key, value string) { c[key] = value }
func (c mapCarrier) Keys() []string {
	var keys []string
	for key := range c {
		keys = append(keys, key)
	}
	return keys
}

func parsed(data string) terncommode.Context {
	c, err := terncommode.Parse([]byte(data))
	if err != nil {
		panic(err)
	}
	return c
}

func same(t *testing.T, found, wanted interface{}) {
	t.Helper()
	if !reflect.DeepEqual(found, wanted) {
		t.Errorf("%v, not %v", found, wanted)
	}
}

func composite(p propagation.TextMapPropagator) propagation.TextMapPropagator {
	return propagation.NewCompositeTextMapPropagator(propagation.TraceContext{}, propagation.Baggage{}, p)
}

// known is what services do that know the propagator of baggage alone.
var known = propagation.NewCompositeTextMapPropagator(propagation.TraceContext{}, propagation.Baggage{})

// hop hands headers on through a service with this propagator.
func hop(p propagation.TextMapPropagator, headers http.Header) http.Header {
	next := http.Header{}
	p.Inject(p.Extract(context.Background(), propagation.HeaderCarrier(headers)), propagation.HeaderCarrier(next))
	return next
}

func sent(t *testing.T, p propagation.TextMapPropagator, c terncommode.Context) http.Header {
	member, err := baggage.NewMember("tenant", "acme")
	same(t, err, nil)
	foreign, err := baggage.New(member)
	same(t, err, nil)
	headers := http.Header{}
	p.Inject(terncommode.With(baggage.ContextWithBaggage(context.Background(), foreign), c), propagation.HeaderCarrier(headers))
	return headers
}

func TestThroughServicesThatKnowBaggageAlone(t *testing.T) {
	for _, row := range []struct {
		ways    otelbag.Ways
		arrives terncommode.Context
		fields  []string
	}{
		{otelbag.Header, terncommode.Lost(), []string{"terncommode"}}, {otelbag.Member, id7, []string{"baggage"}},
		{otelbag.Header | otelbag.Member, id7, []string{"terncommode", "baggage"}},
	} {
		p := otelbag.New(terncommode.Lost(), row.ways)
		same(t, p.Fields(), row.fields)
		headers := sent(t, composite(p), id7)
		same(t, terncommode.From(p.Extract(context.Background(), propagation.HeaderCarrier(hop(composite(p), headers)))), id7)
		for k := 0; k < 5; k++ {
			headers = hop(known, headers)
		}
		ctx := composite(p).Extract(context.Background(), propagation.HeaderCarrier(headers))
		same(t, terncommode.From(ctx), row.arrives)
		same(t, baggage.FromContext(ctx).Member("tenant").Value(), "acme")
		same(t, headers.Get("terncommode"), "")
	}
}

func TestAnOldMemberIsReplaced(t *testing.T) {
	p := otelbag.New(terncommode.Lost(), otelbag.Member)
	ctx := composite(p).Extract(context.Background(), propagation.HeaderCarrier(sent(t, composite(p), id7)))
	same(t, terncommode.Add(ctx, tag), nil)
	headers := http.Header{}
	composite(p).Inject(ctx, propagation.HeaderCarrier(headers))
	same(t, strings.Count(headers.Get("baggage"), "terncommode="), 1)
	same(t, strings.Contains(headers.Get("baggage"), "tenant=acme"), true)
	same(t, terncommode.From(p.Extract(context.Background(), propagation.HeaderCarrier(headers))), terncommode.Join(id7, tag))
}

func TestWhatArrives(t *testing.T) {
	own, other, lost := terncommode.ToHeader(id7), terncommode.ToHeader(tag), terncommode.Lost()
	both := terncommode.Join(id7, tag)
	for _, row := range []struct {
		headers http.Header
		c       *terncommode.Context // nil where nothing came
	}{
		{http.Header{}, nil}, {http.Header{"Baggage": {"a=b"}}, nil}, {http.Header{"Baggage": {"Terncommode=" + own}}, nil},
		{http.Header{"Terncommode": {own}, "Baggage": {"terncommode=" + other}}, &both},
		{http.Header{"Terncommode": {own, other}}, &both},
		{http.Header{"Baggage": {"terncommode=" + own + ", terncommode=" + other}}, &both},
		{http.Header{"Baggage": {"x=y", "bad key=1,\x80, terncommode = " + own + " ;p=q"}}, &id7},
		{http.Header{"Baggage": {"terncommode=" + own[:len(own)-1]}}, &lost}, {http.Header{"Baggage": {"terncommode"}}, &lost}, {http.Header{"Terncommode": {""}}, &lost},
	} {
		for _, absent := range []terncommode.Context{{}, lost, tag} {
			wanted := absent
			if row.c != nil {
				wanted = *row.c
			}
			p := otelbag.New(absent, otelbag.Header|otelbag.Member)
			same(t, terncommode.From(p.Extract(context.Background(), propagation.HeaderCarrier(row.headers.Clone()))), wanted)
		}
	}
	p := otelbag.New(terncommode.Context{}, otelbag.Header|otelbag.Member)
	same(t, terncommode.From(p.Extract(context.Background(), mapCarrier{"Terncommode": own, "BAGGAGE": "terncommode=" + other})), terncommode.Join(id7, tag))
	same(t, terncommode.From(p.Extract(context.Background(), mapCarrier{"terncommode": ""})), lost)
	carrier := mapCarrier{}
	p.Inject(terncommode.With(context.Background(), id7), carrier)
	same(t, carrier, mapCarrier{"terncommode": own, "baggage": "terncommode=" + own})
}

// A manyCarrier has all values of a key, as later versions of OpenTelemetry do.
type manyCarrier struct{ otelbag.MetadataCarrier }

func (c manyCarrier) Keys() []string {
	return append(c.MetadataCarrier.Keys(), c.MetadataCarrier.Keys()...)
}

// A pairCarrier has a list of keys, in which one may come twice.
type pairCarrier [][2]string

func (c *pairCarrier) Get(key string) string {
	for _, pair := range *c {
		if pair[0] == key {
			return pair[1]
		}
	}
	return ""
}
func (c *pairCarrier) Set(key, value string) { *c = append(pairCarrier{{key, value}}, *c...) }
func (c *pairCarrier) Keys() []string {
	var keys []string
	for _, pair := range *c {
		keys = append(keys, pair[0])
	}
	return keys
}

func TestAKeyThatComesTwice(t *testing.T) {
	own, other, lost := terncommode.ToHeader(id7), terncommode.ToHeader(tag), terncommode.Lost()
	first, second := "terncommode="+own, "terncommode="+other
	both := terncommode.Join(id7, tag)
	for name, row := range map[string]struct {
		carrier func() propagation.TextMapCarrier
		wanted  terncommode.Context
	}{
		"headers": {func() propagation.TextMapCarrier { return propagation.HeaderCarrier{"Terncommode": {own, other}} }, both},
		"headers, case": {func() propagation.TextMapCarrier {
			return propagation.HeaderCarrier{"Terncommode": {own}, "terncommode": {other}}
		}, both},
		"headers, members":  {func() propagation.TextMapCarrier { return propagation.HeaderCarrier{"Baggage": {first, second}} }, both},
		"metadata":          {func() propagation.TextMapCarrier { return otelbag.MetadataCarrier{"terncommode": {own, other}} }, both},
		"metadata, members": {func() propagation.TextMapCarrier { return otelbag.MetadataCarrier{"baggage": {first, "a=b," + second}} }, both},
		"values": {func() propagation.TextMapCarrier {
			return manyCarrier{otelbag.MetadataCarrier{"terncommode": {own, other}}}
		}, both},
		"map":            {func() propagation.TextMapCarrier { return mapCarrier{"terncommode": own, "TERNCOMMODE": other} }, both},
		"map, members":   {func() propagation.TextMapCarrier { return mapCarrier{"baggage": first, "BAGGAGE": second} }, both},
		"pairs":          {func() propagation.TextMapCarrier { return &pairCarrier{{"terncommode", own}, {"terncommode", other}} }, terncommode.Join(id7, lost)},
		"pairs, members": {func() propagation.TextMapCarrier { return &pairCarrier{{"baggage", first}, {"baggage", second}} }, terncommode.Join(id7, lost)},
	} {
		t.Run(name, func(t *testing.T) {
			p := otelbag.New(terncommode.Context{}, otelbag.Header|otelbag.Member)
			same(t, terncommode.From(p.Extract(context.Background(), row.carrier())), row.wanted)
		})
	}
}

// before is a composite in the wrong order.
func before(p propagation.TextMapPropagator) propagation.TextMapPropagator {
	return propagation.NewCompositeTextMapPropagator(propagation.TraceContext{}, p, propagation.Baggage{})
}

func TestNoOldMemberIsSentOn(t *testing.T) {
	member := "terncommode=" + terncommode.ToHeader(id7)
	for _, foreign := range []string{"", ",tenant=acme"} {
		for name, carrier := range map[string]func() propagation.TextMapCarrier{
			"headers":  func() propagation.TextMapCarrier { return propagation.HeaderCarrier{"Baggage": {member + foreign}} },
			"metadata": func() propagation.TextMapCarrier { return otelbag.MetadataCarrier{"baggage": {member + foreign}} },
			"map":      func() propagation.TextMapCarrier { return mapCarrier{"baggage": member + foreign} },
		} {
			for place, order := range map[string]func(propagation.TextMapPropagator) propagation.TextMapPropagator{"after": composite, "before": before} {
				for _, ways := range []otelbag.Ways{otelbag.Header, otelbag.Member, otelbag.Header | otelbag.Member} {
					t.Run(fmt.Sprint(name, place, ways, foreign), func(t *testing.T) {
						p := otelbag.New(terncommode.Lost(), ways)
						came := carrier()
						ctx := order(p).Extract(context.Background(), came)
						same(t, baggage.FromContext(ctx).Member("terncommode").Value(), "")
						same(t, baggage.FromContext(ctx).Member("tenant").Value(), strings.TrimPrefix(foreign, ",tenant="))
						same(t, terncommode.Add(ctx, tag), nil)
						sent := http.Header{}
						order(p).Inject(ctx, propagation.HeaderCarrier(sent))
						found := terncommode.From(otelbag.New(terncommode.Lost(), otelbag.Header|otelbag.Member).Extract(context.Background(), propagation.HeaderCarrier(sent)))
						if wanted := terncommode.From(ctx); found != wanted && found != terncommode.Lost() {
							t.Errorf("%v arrives, where %v was sent", found, wanted)
						}
						// Extracted again, the same message says the same.
						again := order(p).Extract(ctx, came)
						same(t, terncommode.From(again), terncommode.From(ctx))
						same(t, baggage.FromContext(again).Member("terncommode").Value(), "")
						// Another one is another one.
						same(t, terncommode.From(p.Extract(ctx, propagation.HeaderCarrier{})), terncommode.Lost())
					})
				}
			}
		}
	}
}

func TestAnEdge(t *testing.T) {
	member := "terncommode=" + terncommode.ToHeader(id7)
	for _, ways := range []otelbag.Ways{otelbag.Header, otelbag.Member, otelbag.Header | otelbag.Member} {
		for _, order := range []func(propagation.TextMapPropagator) propagation.TextMapPropagator{composite, before} {
			headers := propagation.HeaderCarrier{"Terncommode": {terncommode.ToHeader(id7)}, "Baggage": {member + ",tenant=acme,%74ern" + member[4:] + ",T" + member[1:]}}
			md := otelbag.MetadataCarrier{"terncommode": {terncommode.ToHeader(id7)}, "baggage": {member, member}}
			p := otelbag.Edge(ways)
			ctx := order(p).Extract(context.Background(), headers)
			same(t, terncommode.From(ctx), terncommode.Context{})
			same(t, headers, propagation.HeaderCarrier{"Baggage": {"tenant=acme"}})
			same(t, baggage.FromContext(ctx).String(), "tenant=acme")
			same(t, terncommode.From(order(p).Extract(context.Background(), md)), terncommode.Context{})
			same(t, md, otelbag.MetadataCarrier{})
			sent := propagation.HeaderCarrier{}
			same(t, terncommode.Add(ctx, tag), nil)
			composite(p).Inject(ctx, sent)
			inside := otelbag.New(terncommode.Lost(), ways)
			same(t, terncommode.From(inside.Extract(context.Background(), sent)), tag)
		}
	}
}

// Handler and a propagator that read one request share what it holds.
func TestBesideAHandler(t *testing.T) {
	p := otelbag.New(terncommode.Lost(), otelbag.Header|otelbag.Member)
	serve := func(next http.HandlerFunc) http.Handler {
		return http.HandlerFunc(func(w http.ResponseWriter, r *http.Request) {
			next(w, r.WithContext(composite(p).Extract(r.Context(), propagation.HeaderCarrier(r.Header))))
		})
	}
	inside := func(w http.ResponseWriter, r *http.Request) { terncommode.Add(r.Context(), tag) }
	for name, handler := range map[string]http.Handler{
		"handler outside":    terncommode.Handler(serve(inside), terncommode.Lost()),
		"propagator outside": serve(terncommode.Handler(http.HandlerFunc(inside), terncommode.Lost()).ServeHTTP),
	} {
		for way, headers := range map[string]http.Header{
			"header": {"Terncommode": {terncommode.ToHeader(id7)}}, "member": {"Baggage": {"terncommode=" + terncommode.ToHeader(id7)}},
			"both": {"Terncommode": {terncommode.ToHeader(id7)}, "Baggage": {"terncommode=" + terncommode.ToHeader(id7)}}, "none": {},
		} {
			writer, request := httptest.NewRecorder(), httptest.NewRequest("GET", "/", nil)
			request.Header = headers
			handler.ServeHTTP(writer, request)
			wanted := terncommode.Join(id7, tag)
			if way == "none" || way == "member" && name == "handler outside" {
				// The handler had promised one, and found none.
				wanted = terncommode.Join(wanted, terncommode.Lost())
			}
			if way == "none" {
				wanted = terncommode.Join(tag, terncommode.Lost())
			}
			same(t, terncommode.Extract(writer.Result().Header, terncommode.Context{}), wanted)
		}
	}
}

func TestNoSDKDropsWhatIsSent(t *testing.T) {
	bag := terncommode.MustBag("baggage table 1\n0 0 id scalar fixed32\n0 1 tags set string\n")
	var writes []terncommode.Write
	for k := 0; k < 300; k++ {
		writes = append(writes, terncommode.Set("tags", terncommode.Quote(strings.Repeat("x", k%50)+string(rune('A'+k%26))+string(rune('a'+k/26)))))
	}
	long, err := bag.Update([]terncommode.Context{id7}, writes...)
	same(t, err, nil)
	p := otelbag.New(terncommode.Lost(), otelbag.Member)
	for _, letters := range []int{0, 100, 3000, 5000, 8000, 8150} {
		headers := http.Header{}
		if letters > 0 {
			headers.Set("baggage", "x="+strings.Repeat("y", letters/2)+",z="+strings.Repeat("y", letters/2-4))
		}
		p.Inject(terncommode.With(context.Background(), long), propagation.HeaderCarrier(headers))
		own := strings.Split(headers.Get("baggage"), ",")[0]
		if len(own) > 4096 || len(headers.Get("baggage")) > 8192 {
			t.Errorf("%d letters of %d", len(own), len(headers.Get("baggage")))
		}
		if least := 8100 - letters; len(own) < least && len(own) < 3900 {
			t.Errorf("%d letters, where %d are free", len(own), least)
		}
		if letters <= 5000 {
			headers = hop(known, headers)
		}
		arrived := terncommode.From(p.Extract(context.Background(), propagation.HeaderCarrier(headers)))
		text, exact, err := bag.Text(arrived, "tags")
		same(t, []interface{}{len(text) > 2 || letters > 8000, exact, err}, []interface{}{true, false, nil})
	}
}

func TestAMemberWithoutPlaceIsLeftOut(t *testing.T) {
	bag := terncommode.MustBag("baggage table 1\n0 0 id scalar fixed32\n0 1 tags set string\n")
	p := otelbag.New(terncommode.Lost(), otelbag.Member)
	both := terncommode.Join(id7, tag)
	for c, least := range map[terncommode.Context]string{{}: "terncommode=.AAAAAA,", terncommode.Lost(): "terncommode=AA.CHECK_,", both: "terncommode=AA.CHECK_,"} {
		for letters := 8100; letters <= 8192; letters++ {
			member := "x=" + strings.Repeat("y", 2997) + ","
			foreign := member + member + "z=" + strings.Repeat("y", letters-2*len(member)-2)
			headers := http.Header{"Baggage": {"terncommode=" + terncommode.ToHeader(both) + "," + foreign}}
			p.Inject(terncommode.With(context.Background(), c), propagation.HeaderCarrier(headers))
			sent := headers.Get("baggage")
			if _, err := baggage.Parse(sent); err != nil || !strings.HasSuffix(sent, foreign) {
				t.Fatalf("%d letters beside %d: %v", len(sent), letters, err)
			}
			same(t, sent != foreign, letters+len(least) <= 8192)
			arrived := terncommode.From(p.Extract(context.Background(), propagation.HeaderCarrier(headers)))
			if _, exact, _ := bag.Text(arrived, "tags"); exact && arrived != c {
				t.Fatalf("%v is read as exact, where %v was meant", arrived, c)
			}
		}
	}
}

func TestNoSDKDropsForTheNumberOfMembers(t *testing.T) {
	p := otelbag.New(terncommode.Lost(), otelbag.Member)
	for _, number := range []int{178, 179, 180} {
		var foreign []string
		for k := 0; k < number; k++ {
			foreign = append(foreign, fmt.Sprintf("k%d=1", k))
		}
		headers := http.Header{"Baggage": {strings.Join(foreign, ",")}}
		p.Inject(terncommode.With(context.Background(), id7), propagation.HeaderCarrier(headers))
		found, err := baggage.Parse(headers.Get("baggage"))
		same(t, err, nil)
		same(t, found.Len(), number+map[bool]int{true: 1}[number < 180])
	}
}
