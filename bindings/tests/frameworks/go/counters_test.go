package frameworks

import (
	"context"
	"math/big"
	"net/http"
	"strings"
	"sync/atomic"
	"testing"
	"time"

	"terncommode"
)

// total is what a context says of the counter.
func total(t *testing.T, c terncommode.Context) (string, bool) {
	text, exact, err := bag.Text(c, "hops")
	must(t, err)
	sum, _, _ := strings.Cut(text, "{")
	return sum, exact
}

// Counts are right however often a service is visited: a gateway asks one worker
// ten times beside one another, which asks a leaf each time.
func TestCounters(t *testing.T) {
	inBoth(t, func(m *mesh) {
		leaf := m.service(func(w http.ResponseWriter, r *http.Request) {
			must(t, terncommode.Count(r.Context(), bag, "hops", 100))
			must(t, terncommode.Count(r.Context(), bag, "hops", 50))
		})
		work := func(w http.ResponseWriter, r *http.Request) {
			must(t, terncommode.Count(r.Context(), bag, "hops", 1000))
			m.get(r.Context(), leaf)
		}
		worker, restarted := m.service(work), m.service(work)
		var visits int64
		flaky := m.service(func(w http.ResponseWriter, r *http.Request) {
			work(w, r)
			if atomic.AddInt64(&visits, 1)%3 == 0 {
				panic(http.ErrAbortHandler) // it has worked, and nobody hears of it
			}
		})
		tenTimes := func(do func(ctx context.Context, k int)) http.HandlerFunc {
			return func(w http.ResponseWriter, r *http.Request) {
				var all []func()
				for k := 0; k < 10; k++ {
					k := k
					all = append(all, func() { do(r.Context(), k) })
				}
				group(all...)
				must(t, terncommode.Count(r.Context(), bag, "hops", 7))
			}
		}
		for name, row := range map[string]struct {
			do     func(ctx context.Context, k int)
			wanted string
		}{
			"beside one another": {func(ctx context.Context, k int) { m.get(ctx, worker) }, "11507"},
			"a restart between":  {func(ctx context.Context, k int) { m.get(ctx, []string{worker, restarted}[k/5]) }, "11507"},
			"hedged":             {func(ctx context.Context, k int) { group(func() { m.get(ctx, worker) }, func() { m.get(ctx, worker) }) }, "23007"},
			"retried": {func(ctx context.Context, k int) {
				for tries := 0; tries < 9; tries++ {
					if _, err := m.get(ctx, flaky); err == nil {
						return
					}
				}
			}, "11507"},
			"in branches": {func(ctx context.Context, k int) {
				branch := terncommode.Branch(ctx)
				m.get(branch, worker)
				must(t, terncommode.Count(branch, bag, "hops", 3))
				terncommode.Add(ctx, terncommode.From(branch))
			}, "11537"},
		} {
			ctx := begun()
			_, err := m.get(ctx, m.service(tenTimes(row.do)))
			must(t, err)
			sum, exact := total(t, terncommode.From(ctx))
			is(t, []interface{}{name, sum, exact}, []interface{}{name, row.wanted, true})
		}
	})
}

// What passes a budget is cut, and told: it is never too little and exact.
func TestManyVisits(t *testing.T) {
	m := &mesh{T: t, base: http.DefaultTransport.(*http.Transport).Clone(), said: map[string]bool{}}
	visit := m.service(func(w http.ResponseWriter, r *http.Request) {
		must(t, terncommode.Count(r.Context(), bag, "hops", 1))
	})
	ctx := begun()
	most := 0
	for k := 1; k <= 230; k++ {
		if _, err := m.get(ctx, visit); err != nil {
			t.Fatal(err)
		}
		sum, exact := total(t, terncommode.From(ctx))
		read, _ := new(big.Int).SetString(sum, 10)
		if exact && read.Int64() != int64(k) {
			t.Fatalf("after %d visits %s is read as exact", k, sum)
		}
		if exact {
			most = k
		}
	}
	if most < 130 || most > 160 {
		t.Errorf("%d visits are exact", most)
	}
}

// A visit that is out of time may have counted; a caller that wants to know takes
// failures as lost.
func TestCallsThatAreOutOfTime(t *testing.T) {
	inBoth(t, func(m *mesh) {
		slow := m.service(func(w http.ResponseWriter, r *http.Request) {
			must(t, terncommode.Count(r.Context(), bag, "hops", 1))
			<-r.Context().Done()
		})
		for onFailure, wanted := range map[terncommode.Failure]bool{terncommode.FailureAddsNothing: true, terncommode.FailureIsLost: false} {
			ctx := begun()
			limited, cancel := context.WithTimeout(ctx, 100*time.Millisecond)
			transport := m.transport()
			transport.OnFailure = onFailure
			_, err := ask(limited, &http.Client{Transport: transport}, slow)
			cancel()
			is(t, err != nil, true)
			_, exact := total(t, terncommode.From(ctx))
			is(t, exact, wanted)
		}
	})
}
