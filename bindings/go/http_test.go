package terncommode_test

import (
	"bufio"
	"context"
	"errors"
	"io"
	"net"
	"net/http"
	"net/http/httptest"
	"strings"
	"testing"

	"terncommode"
)

func served(t *testing.T, handler http.Handler) (*httptest.Server, *http.Client) {
	server := httptest.NewServer(handler)
	t.Cleanup(server.Close)
	return server, &http.Client{Transport: terncommode.Transport{Hosts: terncommode.Hosts("127.0.0.1")}}
}

// asked is what a client's context is after one request.
func asked(t *testing.T, client *http.Client, url string, c terncommode.Context) terncommode.Context {
	t.Helper()
	ctx := terncommode.With(context.Background(), c)
	request, err := http.NewRequestWithContext(ctx, "GET", url, nil)
	if err != nil {
		t.Fatal(err)
	}
	response, err := client.Do(request)
	if err != nil {
		t.Fatal(err)
	}
	defer response.Body.Close()
	if body, _ := io.ReadAll(response.Body); string(body) != "done" {
		t.Errorf("the body is %q", body)
	}
	same(t, request.Header, http.Header{})
	return terncommode.From(ctx)
}

func TestHandlerAndTransport(t *testing.T) {
	tag := made(t, "02f801020061")
	var came terncommode.Context
	for name, write := range map[string]func(http.ResponseWriter){
		"at once": func(w http.ResponseWriter) { w.Write([]byte("done")) },
		"status":  func(w http.ResponseWriter) { w.WriteHeader(404); w.Write([]byte("done")) },
		"flushed": func(w http.ResponseWriter) { w.(http.Flusher).Flush(); w.Write([]byte("done")) },
		"early":   func(w http.ResponseWriter) { w.WriteHeader(103); w.Write([]byte("done")) },
		"copied":  func(w http.ResponseWriter) { io.Copy(w, strings.NewReader("done")) },
	} {
		t.Run(name, func(t *testing.T) {
			server, client := served(t, terncommode.Handler(http.HandlerFunc(func(w http.ResponseWriter, r *http.Request) {
				came = terncommode.From(r.Context())
				same(t, r.Header.Values("Terncommode"), []string(nil))
				same(t, terncommode.Add(r.Context(), tag), nil)
				write(w)
				same(t, terncommode.Add(r.Context(), terncommode.Lost()), terncommode.ErrLate)
				same(t, terncommode.Late(r.Context()), 1)
			}), terncommode.Context{}))
			same(t, asked(t, client, server.URL, made(t, id7)), terncommode.Join(made(t, id7), tag))
			same(t, came, made(t, id7))
		})
	}
}

func TestAReplyThatIsNeverWritten(t *testing.T) {
	server, client := served(t, terncommode.Handler(http.HandlerFunc(func(w http.ResponseWriter, r *http.Request) {
		terncommode.Add(r.Context(), made(t, id9))
	}), terncommode.Context{}))
	ctx := terncommode.With(context.Background(), made(t, id7))
	request, _ := http.NewRequestWithContext(ctx, "GET", server.URL, nil)
	response, err := client.Do(request)
	same(t, err, nil)
	response.Body.Close()
	same(t, terncommode.From(ctx), made(t, both))
}

func TestWhatIsAbsent(t *testing.T) {
	done := http.HandlerFunc(func(w http.ResponseWriter, r *http.Request) { w.Write([]byte("done")) })
	server, client := served(t, done)
	same(t, asked(t, client, server.URL, made(t, id7)), terncommode.Join(made(t, id7), terncommode.Lost()))

	var came terncommode.Context
	keeps := http.HandlerFunc(func(w http.ResponseWriter, r *http.Request) {
		came = terncommode.From(r.Context())
		w.Write([]byte("done"))
	})
	for _, absent := range list(terncommode.Context{}, terncommode.Lost()) {
		server, _ := served(t, terncommode.Handler(keeps, absent))
		response, err := http.Get(server.URL)
		same(t, err, nil)
		response.Body.Close()
		same(t, came, absent)
		same(t, terncommode.Extract(response.Header, made(t, id9)), absent)
	}
	server, client = served(t, terncommode.Edge(keeps))
	same(t, asked(t, client, server.URL, made(t, id7)), terncommode.Join(made(t, id7), terncommode.Lost()))
	same(t, came, terncommode.Context{})

	server.Close()
	ctx := terncommode.With(context.Background(), made(t, id7))
	request, _ := http.NewRequestWithContext(ctx, "GET", server.URL, nil)
	if _, err := client.Do(request); err == nil {
		t.Error("a server that is closed replied")
	}
	same(t, terncommode.From(ctx), made(t, id7))
}

type taker func(*http.Request) (*http.Response, error)

func (take taker) RoundTrip(request *http.Request) (*http.Response, error) { return take(request) }

func TestWhatIsSentIsCut(t *testing.T) {
	long, err := bag.Update(nil, terncommode.Set("id", "7"), terncommode.Set("tags", terncommode.Quote(strings.Repeat("x", 5000))))
	same(t, err, nil)
	for budget, wanted := range map[uint64]terncommode.Context{0: long.Cut(terncommode.RequestBudget), 10_000: long, 10: long.Cut(10)} {
		var sent terncommode.Context
		transport := terncommode.Transport{Budget: budget, Hosts: terncommode.Hosts("x"), Base: taker(func(request *http.Request) (*http.Response, error) {
			sent = terncommode.Extract(request.Header, terncommode.Lost())
			return nil, errors.New("no reply")
		})}
		request, _ := http.NewRequestWithContext(terncommode.With(context.Background(), long), "GET", "http://x/", nil)
		request.Header.Set("Terncommode", "old")
		transport.RoundTrip(request)
		same(t, sent, wanted)
		same(t, request.Header.Get("Terncommode"), "old")
	}
	writer := httptest.NewRecorder()
	request := httptest.NewRequest("GET", "/", nil)
	terncommode.Inject(request.Header, long)
	terncommode.Handler(http.HandlerFunc(func(w http.ResponseWriter, r *http.Request) {}), terncommode.Lost()).ServeHTTP(writer, request)
	same(t, terncommode.Extract(writer.Result().Header, terncommode.Lost()), long.Cut(terncommode.ReplyBudget))
}

func TestWhoIsTold(t *testing.T) {
	for _, row := range []struct {
		url     string
		isTold  bool
		matches []string
	}{
		{"http://cart/", true, []string{"cart"}}, {"http://CART:80/x", true, []string{"Cart"}}, {"http://cart:81/", true, []string{"cart"}}, {"http://cart/", true, []string{"cart:80"}},
		{"https://cart/", true, []string{"cart:443"}}, {"https://cart/", false, []string{"cart:80"}}, {"http://cart:81/", false, []string{"cart:80", "stock"}},
		{"http://cart.evil/", false, []string{"cart"}}, {"http://evil/cart", false, []string{"cart"}}, {"http://cart@evil/", false, []string{"cart"}}, {"http://cart/", false, nil},
		{"http://[::1]:8080/", true, []string{"::1"}}, {"http://[::1]:8080/", true, []string{"[::1]:8080"}},
	} {
		var sent http.Header
		base := taker(func(request *http.Request) (*http.Response, error) {
			sent = request.Header
			head := http.Header{}
			terncommode.Inject(head, made(t, id9))
			_, check, _ := strings.Cut(request.Header.Get("Terncommode"), ".")
			head.Set("Terncommode-For", check)
			return &http.Response{StatusCode: 200, Header: head, Body: http.NoBody}, nil
		})
		transport := terncommode.Transport{Hosts: terncommode.Hosts(row.matches...), Base: base}
		if row.matches == nil {
			transport.Hosts = nil
		}
		ctx := terncommode.With(context.Background(), made(t, id7))
		request, err := http.NewRequestWithContext(ctx, "GET", row.url, nil)
		same(t, err, nil)
		// What a proxy hands on is taken out.
		request.Header = http.Header{"Terncommode": {"x"}, "Terncommode-Bin": {"x"}, "Baggage": {"a=b, terncommode=x;p,c=d", "terncommode"}, "X": {"y"}}
		response, err := transport.RoundTrip(request)
		same(t, err, nil)
		if row.isTold {
			same(t, terncommode.Extract(sent, terncommode.Lost()), made(t, id7))
			same(t, terncommode.From(ctx), made(t, both))
			same(t, response.Header, http.Header{})
		} else {
			same(t, sent, http.Header{"Baggage": {"a=b,c=d"}, "X": {"y"}})
			same(t, terncommode.From(ctx), made(t, id7))
		}
		same(t, len(request.Header), 4)
	}
}

func TestWhichRequestAReplyAnswers(t *testing.T) {
	other := terncommode.ToHeader(made(t, id9))
	for _, row := range []struct {
		head   func(check string) http.Header
		wanted terncommode.Context
	}{
		{func(check string) http.Header { return http.Header{"Terncommode": {other}, "Terncommode-For": {check}} }, made(t, both)},
		{func(check string) http.Header { return http.Header{"Terncommode": {other}} }, terncommode.Join(made(t, id7), terncommode.Lost())},
		{func(check string) http.Header {
			return http.Header{"Terncommode": {other}, "Terncommode-For": {"AAAAAA"}}
		}, terncommode.Join(made(t, id7), terncommode.Lost())},
		{func(check string) http.Header {
			return http.Header{"Terncommode": {other}, "Terncommode-For": {check, check}}
		}, terncommode.Join(made(t, id7), terncommode.Lost())},
		{func(check string) http.Header { return http.Header{"Terncommode": {other}, "Terncommode-For": {""}} }, terncommode.Join(made(t, id7), terncommode.Lost())},
		{func(check string) http.Header { return http.Header{"Terncommode-For": {check}} }, terncommode.Join(made(t, id7), terncommode.Lost())},
	} {
		transport := terncommode.Transport{Hosts: terncommode.Hosts("x"), Base: taker(func(request *http.Request) (*http.Response, error) {
			_, check, _ := strings.Cut(request.Header.Get("Terncommode"), ".")
			return &http.Response{StatusCode: 200, Header: row.head(check), Body: http.NoBody}, nil
		})}
		ctx := terncommode.With(context.Background(), made(t, id7))
		request, _ := http.NewRequestWithContext(ctx, "GET", "http://x/", nil)
		_, err := transport.RoundTrip(request)
		same(t, err, nil)
		same(t, terncommode.From(ctx), row.wanted)
	}
}

func TestTheHeadersOfAReply(t *testing.T) {
	own, other := terncommode.ToHeader(made(t, id7)), terncommode.ToHeader(made(t, id9))
	for _, row := range []struct {
		came    []string
		answers []string
	}{
		{nil, nil}, {[]string{own}, []string{"Ktg3xw"}}, {[]string{" " + own + " ," + other, other}, []string{"Ktg3xw"}}, {[]string{other, own}, []string{other[len(other)-6:]}},
		{[]string{"x"}, nil}, {[]string{"."}, nil}, {[]string{own + "A"}, nil}, {[]string{own[:len(own)-1]}, nil}, {[]string{"x.a\r\nb:c"}, nil}, {[]string{"x.ABCDE\""}, nil}, {[]string{".AAAAAA"}, []string{"AAAAAA"}},
	} {
		writer, request := httptest.NewRecorder(), httptest.NewRequest("GET", "/", nil)
		request.Header["Terncommode"] = row.came
		terncommode.Handler(http.HandlerFunc(func(http.ResponseWriter, *http.Request) {}), terncommode.Lost()).ServeHTTP(writer, request)
		same(t, writer.Result().Header.Values("Terncommode-For"), row.answers)
		same(t, writer.Result().Header.Values("Cache-Control"), []string{`no-cache="terncommode"`})
	}
	for _, row := range []struct{ said, sent []string }{
		{[]string{"max-age=60"}, []string{`max-age=60, no-cache="terncommode"`}}, {[]string{"a", "b"}, []string{`a, b, no-cache="terncommode"`}},
		{[]string{`No-Cache="Terncommode", a`}, []string{`No-Cache="Terncommode", a`}}, {[]string{`no-cache="x"`}, []string{`no-cache="x", no-cache="terncommode"`}},
	} {
		writer := httptest.NewRecorder()
		terncommode.Handler(http.HandlerFunc(func(w http.ResponseWriter, r *http.Request) { w.Header()["Cache-Control"] = row.said }), terncommode.Lost()).
			ServeHTTP(writer, httptest.NewRequest("GET", "/", nil))
		same(t, writer.Result().Header["Cache-Control"], row.sent)
	}
}

func TestARequestWithoutAContextHasNoReply(t *testing.T) {
	head := http.Header{}
	terncommode.InjectReply(head, http.Header{}, made(t, id7))
	same(t, terncommode.ExtractReply(head, http.Header{}), terncommode.Lost())
	head["Terncommode-For"] = []string{""}
	same(t, terncommode.ExtractReply(head, http.Header{}), terncommode.Lost())
	request := http.Header{}
	terncommode.Inject(request, made(t, id9))
	terncommode.InjectReply(head, request, made(t, id7))
	same(t, terncommode.ExtractReply(head, request), made(t, id7))
}

// What was put into the head by others may be a context that nobody joined.
func TestAHeadThatHasAContext(t *testing.T) {
	writer, request := httptest.NewRecorder(), httptest.NewRequest("GET", "/", nil)
	terncommode.Inject(request.Header, made(t, id7))
	terncommode.Handler(http.HandlerFunc(func(w http.ResponseWriter, r *http.Request) {
		terncommode.Inject(w.Header(), made(t, id9))
		w.Header().Set("Terncommode-For", "BBBBBB")
	}), terncommode.Lost()).ServeHTTP(writer, request)
	same(t, terncommode.Extract(writer.Result().Header, terncommode.Context{}), terncommode.Join(made(t, id7), terncommode.Lost()))
	same(t, writer.Result().Header["Terncommode-For"], []string{"Ktg3xw"})
}

func TestAnEdge(t *testing.T) {
	for name, edge := range map[string]func(http.Handler) http.Handler{
		"empty": terncommode.Edge,
		"reads": func(next http.Handler) http.Handler {
			return terncommode.EdgeWith(next, func(h http.Header) terncommode.Context {
				return terncommode.Ingress(h.Values("Terncommode"), bag, terncommode.Limits{})
			})
		},
	} {
		t.Run(name, func(t *testing.T) {
			writer, request := httptest.NewRecorder(), httptest.NewRequest("GET", "/", nil)
			own := terncommode.ToHeader(made(t, id9))
			terncommode.Inject(request.Header, made(t, id7))
			request.Header["Terncommode-Bin"] = []string{"x"}
			request.Header["Terncommode-Step"], request.Header["terncommode"] = []string{"a.1"}, []string{own}
			request.Header["Baggage"] = []string{"terncommode=" + own + ", a=b", "%74erncommode=" + own + ",+%2574ernCommode ;p=" + own + ",Terncommode-Bin=x"}
			came := request.Header.Clone()
			var ctx context.Context
			edge(http.HandlerFunc(func(w http.ResponseWriter, r *http.Request) {
				ctx = r.Context()
				same(t, r.Header, http.Header{"Baggage": {" a=b"}})
				same(t, terncommode.From(ctx), map[string]terncommode.Context{"empty": {}, "reads": made(t, id7)}[name])
				same(t, terncommode.Add(ctx, made(t, id9)), nil)
				terncommode.Inject(w.Header(), made(t, id9))
				w.Header().Set("Terncommode-For", "x")
				w.Write([]byte("done"))
				same(t, terncommode.Add(ctx, made(t, id9)), terncommode.ErrLate)
			})).ServeHTTP(writer, request)
			same(t, writer.Result().Header, http.Header{"Content-Type": {"text/plain; charset=utf-8"}})
			same(t, request.Header, came)
		})
	}
}

func TestAConnectionThatIsTaken(t *testing.T) {
	found := calls{}
	terncommode.Handler(http.HandlerFunc(func(w http.ResponseWriter, r *http.Request) {
		same(t, terncommode.Add(r.Context(), made(t, id7)), nil)
		w.(http.Hijacker).Hijack()
		same(t, terncommode.Add(r.Context(), made(t, id7)), terncommode.ErrLate)
	}), terncommode.Lost()).ServeHTTP(writers(httptest.NewRecorder(), &found)["hijack"], httptest.NewRequest("GET", "/", nil))
	same(t, found.made, []string{"hijack"})
}

func TestCallsThatFail(t *testing.T) {
	refused := errors.New("refused")
	ours := terncommode.Join(made(t, id7), terncommode.Lost())
	closed := httptest.NewServer(http.NotFoundHandler())
	closed.Close()
	for name, row := range map[string]struct {
		transport terncommode.Transport
		wanted    terncommode.Context
	}{
		"nobody listens":           {terncommode.Transport{}, made(t, id7)},
		"nobody listens, lost":     {terncommode.Transport{OnFailure: terncommode.FailureIsLost}, ours},
		"a base that tells":        {terncommode.Transport{Base: taker(func(r *http.Request) (*http.Response, error) { return http.DefaultTransport.RoundTrip(r) })}, made(t, id7)},
		"a base that doesn't tell": {terncommode.Transport{Base: taker(func(*http.Request) (*http.Response, error) { return nil, refused })}, ours},
	} {
		t.Run(name, func(t *testing.T) {
			row.transport.Hosts = terncommode.Hosts("127.0.0.1")
			ctx := terncommode.With(context.Background(), made(t, id7))
			request, _ := http.NewRequestWithContext(ctx, "GET", closed.URL, nil)
			if _, err := row.transport.RoundTrip(request); err == nil {
				t.Error("it replied")
			}
			same(t, terncommode.From(ctx), row.wanted)
		})
	}
	// A call that was over before it began.
	ctx, cancel := context.WithCancel(terncommode.With(context.Background(), made(t, id7)))
	cancel()
	request, _ := http.NewRequestWithContext(ctx, "GET", closed.URL, nil)
	_, err := terncommode.Transport{Hosts: terncommode.Hosts("127.0.0.1")}.RoundTrip(request)
	same(t, errors.Is(err, context.Canceled), true)
	same(t, terncommode.From(ctx), made(t, id7))
}

// calls are those of a writer beside those of http.ResponseWriter.
type calls struct{ made []string }

func (c *calls) Flush() { c.made = append(c.made, "flush") }

func (c *calls) Hijack() (net.Conn, *bufio.ReadWriter, error) {
	c.made = append(c.made, "hijack")
	return nil, nil, nil
}

func (c *calls) Push(target string, options *http.PushOptions) error {
	c.made = append(c.made, "push")
	return nil
}

// writers are over one writer, with each choice of the calls.
func writers(below http.ResponseWriter, c *calls) map[string]http.ResponseWriter {
	type (
		w = http.ResponseWriter
		f = http.Flusher
		h = http.Hijacker
		p = http.Pusher
	)
	return map[string]http.ResponseWriter{
		"": struct{ w }{below}, "flush": struct {
			w
			f
		}{below, c}, "hijack": struct {
			w
			h
		}{below, c}, "push": struct {
			w
			p
		}{below, c},
		"flush hijack": struct {
			w
			f
			h
		}{below, c, c}, "flush push": struct {
			w
			f
			p
		}{below, c, c}, "hijack push": struct {
			w
			h
			p
		}{below, c, c},
		"flush hijack push": struct {
			w
			f
			h
			p
		}{below, c, c, c},
	}
}

func TestTheWriterStaysWhatItWas(t *testing.T) {
	found := calls{}
	for wanted, below := range writers(httptest.NewRecorder(), &found) {
		found.made = nil
		terncommode.Handler(http.HandlerFunc(func(w http.ResponseWriter, r *http.Request) {
			if flusher, flushes := w.(http.Flusher); flushes {
				flusher.Flush()
			}
			if hijacker, hijacks := w.(http.Hijacker); hijacks {
				hijacker.Hijack()
			}
			if pusher, pushes := w.(http.Pusher); pushes {
				pusher.Push("/", nil)
			}
			same(t, w.(interface{ Unwrap() http.ResponseWriter }).Unwrap(), below)
		}), terncommode.Lost()).ServeHTTP(below, httptest.NewRequest("GET", "/", nil))
		same(t, strings.Join(found.made, " "), wanted)
	}
}

// A taker of files writes what it takes by itself.
type fileTaker struct {
	*httptest.ResponseRecorder
	took []io.Reader
}

func (w *fileTaker) ReadFrom(source io.Reader) (int64, error) {
	w.took = append(w.took, source)
	return io.Copy(w.ResponseRecorder, source)
}

// A source adds to the context while it is read.
type source struct {
	io.Reader
	ctx context.Context
	c   terncommode.Context
}

func (s *source) Read(data []byte) (int, error) {
	terncommode.Add(s.ctx, s.c)
	return s.Reader.Read(data)
}

func TestTheWriterBelowTakesFiles(t *testing.T) {
	tag := made(t, "02f801020061")
	for _, length := range []int{0, 1, 511, 512, 513, 100_000} {
		body := strings.Repeat("x", length)
		recorder := httptest.NewRecorder()
		taker := &fileTaker{ResponseRecorder: recorder}
		for _, below := range []http.ResponseWriter{taker, struct{ http.ResponseWriter }{httptest.NewRecorder()}} {
			var whole io.Reader
			terncommode.Handler(http.HandlerFunc(func(w http.ResponseWriter, r *http.Request) {
				whole = &source{strings.NewReader(body), r.Context(), tag}
				written, err := io.Copy(w, whole)
				same(t, written, int64(length))
				same(t, err, nil)
			}), made(t, id7)).ServeHTTP(below, httptest.NewRequest("GET", "/", nil))
			same(t, terncommode.Extract(below.Header(), terncommode.Lost()), terncommode.Join(made(t, id7), tag))
			if below == taker {
				same(t, taker.took, map[bool][]io.Reader{true: {whole}}[length >= 512])
				same(t, recorder.Body.String(), body)
			}
		}
	}
}
