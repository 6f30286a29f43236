package frameworks

import (
	"context"
	"fmt"
	"io"
	"net/http"
	"net/http/httptest"
	"os"
	"sort"
	"strings"
	"sync"
	"testing"
	"time"

	"terncommode"
)

const table = "baggage table 1\n0 0 id scalar fixed32\n0 1 tags set string\n0 2 hops counter\n0 3 debug taint\n0 4 load map string scalar uint32\n"

var bag = terncommode.MustBag(table)

// isQuick is whether less of everything is run.
var isQuick = os.Getenv("QUICK") != ""

// A mesh is services that speak HTTP/1.1 or HTTP/2 with one another.
type mesh struct {
	*testing.T
	isTwo bool
	base  *http.Transport
	mutex sync.Mutex
	said  map[string]bool // what services wrote in time
}

// inBoth runs a test over HTTP/1.1 and over HTTP/2.
func inBoth(t *testing.T, test func(m *mesh)) {
	for name, isTwo := range map[string]bool{"HTTP1": false, "HTTP2": true} {
		t.Run(name, func(t *testing.T) {
			m := &mesh{T: t, isTwo: isTwo, said: map[string]bool{}}
			server := m.bare(http.NotFoundHandler())
			m.base = server.Client().Transport.(*http.Transport).Clone()
			t.Cleanup(m.base.CloseIdleConnections)
			test(m)
		})
	}
}

// bare is a server of the mesh without anything of the package.
func (m *mesh) bare(handler http.Handler) *httptest.Server {
	server := httptest.NewUnstartedServer(handler)
	server.Config.ErrorLog = quiet
	if m.isTwo {
		server.EnableHTTP2 = true
		server.StartTLS()
	} else {
		server.Start()
	}
	m.Cleanup(server.Close)
	return server
}

// service is a server inside of the mesh, and its URL.
func (m *mesh) service(handler http.HandlerFunc) string {
	return m.bare(terncommode.Handler(handler, terncommode.Lost())).URL
}

// leaf is the URL of a service that writes a tag.
func (m *mesh) leaf(tag string) string {
	return m.service(func(w http.ResponseWriter, r *http.Request) { m.say(r.Context(), tag) })
}

// say writes a tag, and notes it where it was in time.
func (m *mesh) say(ctx context.Context, tag string) error {
	err := terncommode.Change(ctx, says(tag))
	if err == nil {
		m.mutex.Lock()
		defer m.mutex.Unlock()
		m.said[tag] = true
	}
	return err
}

func says(tag string) func(terncommode.Context) (terncommode.Context, error) {
	return func(c terncommode.Context) (terncommode.Context, error) {
		return bag.Update([]terncommode.Context{c}, terncommode.Set("tags", terncommode.Quote(tag)))
	}
}

func (m *mesh) client() *http.Client {
	return &http.Client{Transport: m.transport()}
}

func (m *mesh) transport() terncommode.Transport {
	return terncommode.Transport{Base: m.base, Hosts: terncommode.Hosts("127.0.0.1")}
}

// get asks for a URL and reads the reply to its end.
func (m *mesh) get(ctx context.Context, url string) (int, error) {
	return ask(ctx, m.client(), url)
}

func ask(ctx context.Context, client *http.Client, url string) (int, error) {
	ctx, cancel := context.WithTimeout(ctx, 20*time.Second)
	defer cancel()
	request, err := http.NewRequestWithContext(ctx, "GET", url, nil)
	if err != nil {
		return 0, err
	}
	response, err := client.Do(request)
	if err != nil {
		return 0, err
	}
	defer response.Body.Close()
	_, err = io.Copy(io.Discard, response.Body)
	return response.StatusCode, err
}

// begun is a request of a client that has written nothing.
func begun() context.Context {
	return terncommode.With(context.Background(), terncommode.Context{})
}

// tags are what a context says, in order, with a space between, and whether that
// is exact.
func tags(c terncommode.Context) (string, bool) {
	text, exact, err := bag.Text(c, "tags")
	if err != nil {
		panic(err)
	}
	return strings.ReplaceAll(strings.Trim(text, "{}"), `"`, ""), exact
}

// reads checks what a context says: wanted are the tags that it must have, with
// spaces between, before them `exact` or `partial`. What it has beside them was
// written, in time or late.
func (m *mesh) reads(c terncommode.Context, wanted string) {
	m.Helper()
	found, exact := tags(c)
	text := map[bool]string{true: "exact", false: "partial"}[exact]
	if found != "" {
		text += " " + strings.ReplaceAll(found, ",", " ")
	}
	if text != wanted {
		m.Errorf("%q, not %q", text, wanted)
	}
}

// all are the tags that were written in time.
func (m *mesh) all() string {
	m.mutex.Lock()
	defer m.mutex.Unlock()
	var found []string
	for tag := range m.said {
		found = append(found, tag)
	}
	sort.Strings(found)
	return strings.Join(append([]string{"exact"}, found...), " ")
}

func must(t testing.TB, err error) {
	t.Helper()
	if err != nil {
		t.Error(err)
	}
}

func is(t testing.TB, found, wanted interface{}) {
	t.Helper()
	if fmt.Sprint(found) != fmt.Sprint(wanted) {
		t.Errorf("%v, not %v", found, wanted)
	}
}
