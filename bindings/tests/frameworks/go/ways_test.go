package frameworks

import (
	"context"
	"errors"
	"io"
	"log"
	"net/http"
	"net/http/httputil"
	"net/url"
	"strings"
	"sync"
	"testing"
	"time"

	"terncommode"
)

var quiet = log.New(io.Discard, "", 0)

// Each way of doing work in a handler, which asks two others and writes.
func TestWaysToRun(t *testing.T) {
	inBoth(t, func(m *mesh) {
		a, b := m.leaf("a"), m.leaf("b")
		for name, run := range map[string]func(ctx context.Context){
			"one after another": func(ctx context.Context) {
				m.get(ctx, a)
				m.get(ctx, b)
				m.say(ctx, "here")
			},
			"goroutines": func(ctx context.Context) {
				group(func() { m.get(ctx, a) }, func() { m.get(ctx, b) }, func() { m.say(ctx, "here") })
			},
			"cancelled together": func(ctx context.Context) {
				ctx, cancel := context.WithCancel(ctx)
				defer cancel()
				group(func() { m.get(ctx, a) }, func() { m.get(ctx, b); m.say(ctx, "here") })
			},
			"a timeout of each": func(ctx context.Context) {
				for _, url := range []string{a, b} {
					ctx, cancel := context.WithTimeout(ctx, 10*time.Second)
					m.get(ctx, url)
					m.say(ctx, "here")
					cancel()
				}
			},
			"a pool": func(ctx context.Context) {
				jobs, done := make(chan func()), make(chan bool)
				go func() {
					for job := range jobs {
						job()
					}
					close(done)
				}()
				jobs <- func() { m.get(ctx, a) }
				jobs <- func() { m.get(ctx, b); m.say(ctx, "here") }
				close(jobs)
				<-done
			},
			"a step that asks": func(ctx context.Context) {
				terncommode.Change(ctx, func(c terncommode.Context) (terncommode.Context, error) {
					group(func() { m.get(ctx, a) }, func() { m.get(ctx, b) }, func() { m.say(ctx, "here") })
					return c, nil
				})
			},
			"branches that come back": func(ctx context.Context) {
				for _, url := range []string{a, b} {
					branch := terncommode.Branch(ctx)
					m.get(branch, url)
					m.say(branch, "here")
					terncommode.Add(ctx, terncommode.From(branch))
				}
			},
			"many beside one another": func(ctx context.Context) {
				var all []func()
				for k := 0; k < 20; k++ {
					url := []string{a, b}[k%2]
					all = append(all, func() { m.get(ctx, url); m.say(ctx, "here") })
				}
				group(all...)
			},
		} {
			m.T.Run(name, func(t *testing.T) {
				m := &mesh{T: t, isTwo: m.isTwo, base: m.base, said: map[string]bool{}}
				ctx := begun()
				_, err := m.get(ctx, m.service(func(w http.ResponseWriter, r *http.Request) { run(r.Context()) }))
				must(t, err)
				m.reads(terncommode.From(ctx), "exact a b here")
			})
		}
	})
}

func group(tasks ...func()) {
	var all sync.WaitGroup
	for _, task := range tasks {
		all.Add(1)
		go func(task func()) {
			defer all.Done()
			task()
		}(task)
	}
	all.Wait()
}

// Each way to write the reply, and what it says then.
func TestWaysToReply(t *testing.T) {
	inBoth(t, func(m *mesh) {
		content := strings.NewReader(strings.Repeat("x", 5000))
		for name, row := range map[string]struct {
			wanted string
			reply  http.HandlerFunc
		}{
			"nothing": {"exact a", func(w http.ResponseWriter, r *http.Request) { must(t, m.say(r.Context(), "a")) }},
			"an error": {"exact a", func(w http.ResponseWriter, r *http.Request) {
				must(t, m.say(r.Context(), "a"))
				http.Error(w, "no", 500)
			}},
			"late": {"exact a", func(w http.ResponseWriter, r *http.Request) {
				must(t, m.say(r.Context(), "a"))
				io.WriteString(w, "x")
				is(t, m.say(r.Context(), "b"), terncommode.ErrLate)
			}},
			"a stream": {"exact a", func(w http.ResponseWriter, r *http.Request) {
				must(t, m.say(r.Context(), "a"))
				for k := 0; k < 3; k++ {
					w.(http.Flusher).Flush()
					is(t, m.say(r.Context(), "b"), terncommode.ErrLate)
					io.WriteString(w, "x")
				}
				is(t, terncommode.Late(r.Context()), 3)
			}},
			"early hints": {"exact a", func(w http.ResponseWriter, r *http.Request) {
				w.WriteHeader(103)
				must(t, m.say(r.Context(), "a"))
			}},
			"content": {"exact a", func(w http.ResponseWriter, r *http.Request) {
				must(t, m.say(r.Context(), "a"))
				http.ServeContent(w, r, "x.txt", time.Now(), content)
			}},
			"not modified": {"exact a", func(w http.ResponseWriter, r *http.Request) {
				must(t, m.say(r.Context(), "a"))
				w.WriteHeader(304)
			}},
			"a panic before": {"exact", func(w http.ResponseWriter, r *http.Request) {
				m.say(r.Context(), "unheard")
				panic(http.ErrAbortHandler)
			}},
			"a panic after the head": {"exact a", func(w http.ResponseWriter, r *http.Request) {
				must(t, m.say(r.Context(), "a"))
				w.(http.Flusher).Flush()
				panic(http.ErrAbortHandler)
			}},
			"a goroutine that goes on": {"exact a", func(w http.ResponseWriter, r *http.Request) {
				must(t, m.say(r.Context(), "a"))
				ctx, told := r.Context(), make(chan error)
				go func() {
					for terncommode.Late(ctx) == 0 {
						if err := terncommode.Add(ctx, terncommode.Context{}); err != nil {
							told <- m.say(ctx, "b")
						}
					}
				}()
				w.WriteHeader(200)
				is(t, <-told, terncommode.ErrLate)
			}},
		} {
			m.T.Run(name, func(t *testing.T) {
				ctx := begun()
				m.get(ctx, m.service(row.reply))
				m.reads(terncommode.From(ctx), row.wanted)
			})
		}
	})
}

func TestWaysToForget(t *testing.T) {
	inBoth(t, func(m *mesh) {
		a := m.leaf("a")
		// Who asks without the request's context.Context is heard as lost below, and what it got is nowhere.
		ctx := begun()
		m.get(ctx, m.service(func(w http.ResponseWriter, r *http.Request) {
			is(t, m.say(context.Background(), "b"), terncommode.ErrNoContext)
			is(t, terncommode.Count(context.Background(), bag, "hops", 1), terncommode.ErrNoContext)
		}))
		m.reads(terncommode.From(ctx), "exact")
		var came terncommode.Context
		m.get(context.Background(), m.service(func(w http.ResponseWriter, r *http.Request) { came = terncommode.From(r.Context()) }))
		m.reads(came, "partial")
		// A branch that doesn't come back.
		ctx = begun()
		m.get(ctx, m.service(func(w http.ResponseWriter, r *http.Request) {
			branch := terncommode.Branch(r.Context())
			m.get(branch, a)
			m.reads(terncommode.From(branch), "exact a")
		}))
		m.reads(terncommode.From(ctx), "exact")
		// A service that hasn't the package.
		ctx = begun()
		m.get(ctx, m.bare(http.NotFoundHandler()).URL)
		m.reads(terncommode.From(ctx), "partial")
	})
}

func parsed(m *mesh, text string) *url.URL {
	found, err := url.Parse(text)
	must(m, err)
	return found
}

func TestProxies(t *testing.T) {
	inBoth(t, func(m *mesh) {
		a := m.leaf("a")
		proxy := func(base http.RoundTripper) *httputil.ReverseProxy {
			to := httputil.NewSingleHostReverseProxy(parsed(m, a))
			to.Transport, to.ErrorLog = base, quiet
			return to
		}
		for name, row := range map[string]struct {
			base   http.RoundTripper
			wanted string
		}{"with Transport": {m.transport(), "exact a proxy"}, "without": {m.base, "partial proxy"}, "to others": {terncommode.Transport{Base: m.base}, "partial proxy"}} {
			ctx := begun()
			next := proxy(row.base)
			m.get(ctx, m.service(func(w http.ResponseWriter, r *http.Request) {
				must(t, m.say(r.Context(), "proxy"))
				next.ServeHTTP(w, r)
			}))
			t.Log(name)
			m.reads(terncommode.From(ctx), row.wanted)
		}
		// At an edge nothing of a stranger's goes in, and nothing comes out.
		var came terncommode.Context
		inside := m.service(func(w http.ResponseWriter, r *http.Request) {
			came = terncommode.From(r.Context())
			m.say(r.Context(), "inside")
		})
		for _, base := range []http.RoundTripper{m.transport(), m.base} {
			to := httputil.NewSingleHostReverseProxy(parsed(m, inside))
			to.Transport = base
			edge := m.bare(terncommode.Edge(to)).URL
			request, err := http.NewRequest("GET", edge, nil)
			must(t, err)
			stranger, err := bag.Update(nil, terncommode.Set("tags", terncommode.Quote("stranger")))
			must(t, err)
			terncommode.Inject(request.Header, stranger)
			request.Header.Set("Baggage", "terncommode="+terncommode.ToHeader(stranger))
			response, err := m.base.RoundTrip(request)
			must(t, err)
			response.Body.Close()
			found, _ := tags(came)
			is(t, found, "")
			is(t, response.Header.Values("Terncommode"), []string(nil))
			is(t, response.Header.Values("Terncommode-For"), []string(nil))
		}
	})
}

func TestTimeoutHandlers(t *testing.T) {
	inBoth(t, func(m *mesh) {
		for _, isSlow := range []bool{false, true} {
			waits, limit := make(chan error, 1), 20*time.Second
			if isSlow {
				limit = 100 * time.Millisecond
			}
			slow := func(w http.ResponseWriter, r *http.Request) {
				must(t, m.say(r.Context(), "a"))
				if isSlow {
					<-r.Context().Done()
					time.Sleep(50 * time.Millisecond)
				}
				waits <- m.say(r.Context(), "b")
			}
			// Its reply is that of the handler, or its own, with what was said by then.
			ctx := begun()
			inside := terncommode.Handler(http.TimeoutHandler(http.HandlerFunc(slow), limit, "slow"), terncommode.Lost())
			m.get(ctx, m.bare(inside).URL)
			told := <-waits
			found, exact := tags(terncommode.From(ctx))
			is(t, []interface{}{found, exact, told}, map[bool][]interface{}{false: {"a,b", true, nil}, true: {"a", true, terncommode.ErrLate}}[isSlow])
			// Outside of the handler its own reply has no context.
			ctx = begun()
			outside := http.TimeoutHandler(terncommode.Handler(http.HandlerFunc(slow), terncommode.Lost()), limit, "slow")
			m.get(ctx, m.bare(outside).URL)
			<-waits
			found, exact = tags(terncommode.From(ctx))
			is(t, []interface{}{found, exact}, map[bool][]interface{}{false: {"a,b", true}, true: {"", false}}[isSlow])
		}
	})
}

func TestRedirects(t *testing.T) {
	inBoth(t, func(m *mesh) {
		last := m.leaf("last")
		first := m.service(func(w http.ResponseWriter, r *http.Request) {
			m.say(r.Context(), "first")
			http.Redirect(w, r, last, 302)
		})
		ctx := begun()
		_, err := m.get(ctx, first)
		must(t, err)
		m.reads(terncommode.From(ctx), "exact first last")
		// To a host that isn't said nothing is sent, and what it says isn't taken.
		var came []string
		elsewhere := m.bare(http.HandlerFunc(func(w http.ResponseWriter, r *http.Request) {
			came = append(r.Header.Values("Terncommode"), r.Header.Values("Baggage")...)
			terncommode.Inject(w.Header(), terncommode.Lost())
		})).URL
		elsewhere = strings.Replace(elsewhere, "127.0.0.1", "localhost", 1)
		out := m.service(func(w http.ResponseWriter, r *http.Request) {
			m.say(r.Context(), "out")
			http.Redirect(w, r, elsewhere, 302)
		})
		ctx = begun()
		m.get(ctx, out)
		m.reads(terncommode.From(ctx), "exact out")
		is(t, came, []string(nil))
	})
}

// lets is a transport whose first calls fail.
type lets struct {
	http.RoundTripper
	fails int
}

func (l *lets) RoundTrip(request *http.Request) (*http.Response, error) {
	if l.fails > 0 {
		l.fails--
		return nil, errors.New("no")
	}
	return l.RoundTripper.RoundTrip(request)
}

func TestRetriesAndHedges(t *testing.T) {
	inBoth(t, func(m *mesh) {
		a := m.leaf("a")
		busy := m.service(func(w http.ResponseWriter, r *http.Request) {
			m.say(r.Context(), "busy")
			http.Error(w, "busy", 503)
		})
		// A reply that says no is a reply.
		ctx := begun()
		for _, url := range []string{busy, a} {
			m.get(ctx, url)
		}
		m.reads(terncommode.From(ctx), "exact a busy")
		// Below a transport that doesn't tell, a failure is lost.
		ctx = begun()
		client := &http.Client{Transport: terncommode.Transport{Base: &lets{m.base, 1}, Hosts: terncommode.Hosts("127.0.0.1")}}
		ask(ctx, client, a)
		ask(ctx, client, a)
		m.reads(terncommode.From(ctx), "partial a")
		// Above it, a call that wasn't made is none.
		ctx = begun()
		client = &http.Client{Transport: &lets{m.transport(), 1}}
		ask(ctx, client, a)
		ask(ctx, client, a)
		m.reads(terncommode.From(ctx), "exact a")

		// Two beside one another: who loses is cancelled before a byte of its reply came.
		came := make(chan bool, 1)
		slow := m.service(func(w http.ResponseWriter, r *http.Request) {
			m.say(r.Context(), "unheard")
			came <- true
			<-r.Context().Done()
		})
		ctx = begun()
		loses, cancel := context.WithCancel(ctx)
		group(func() { m.get(loses, slow) }, func() { <-came; m.get(ctx, a); cancel() })
		m.reads(terncommode.From(ctx), "exact a")
		// Both reply, and both were heard.
		ctx = begun()
		group(func() { m.get(ctx, a) }, func() { m.get(ctx, busy) })
		m.reads(terncommode.From(ctx), "exact a busy")
	})
}

func TestSwitchedConnections(t *testing.T) {
	m := &mesh{T: t, base: http.DefaultTransport.(*http.Transport).Clone(), said: map[string]bool{}}
	ctx := begun()
	m.get(ctx, m.service(func(w http.ResponseWriter, r *http.Request) {
		must(t, m.say(r.Context(), "a"))
		conn, _, err := w.(http.Hijacker).Hijack()
		must(t, err)
		is(t, m.say(r.Context(), "b"), terncommode.ErrLate)
		io.WriteString(conn, "HTTP/1.1 200 OK\r\nContent-Length: 0\r\n\r\n")
		conn.Close()
	}))
	m.reads(terncommode.From(ctx), "partial")
}
