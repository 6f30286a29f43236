package frameworks

import (
	"encoding/hex"
	"math/rand"
	"net/http"
	"net/http/httptest"
	"strings"
	"testing"

	"terncommode"
)

// seeds are contexts that strangers may begin with: good ones, and such with
// junk, markers, and data that aren't spelled as their fields say.
var seeds = []string{"", "00", "02f800050000000007", "02f800050000000007050000000009", "02f800020000050000000007", "02f80005000000000702f80102006102f80202f17702000502f803010002f80402f1780300812c",
	"02f80005000000126704f16a6a6a", "02f80005000000000702f809020078", "02f80005000000000702f80102006100", "02f80005000000000702f16a00", "02f8000300787802f8030100", "02f80202f16302000302000402e96a"}

// hostile are the values of a header as strangers may send them.
func hostile(draw *rand.Rand) []string {
	values := make([]string, 1+draw.Intn(3))
	for k := range values {
		for parts := 1 + draw.Intn(3); parts > 0; parts-- {
			values[k] += "," + part(draw)
		}
		values[k] = values[k][draw.Intn(2):]
	}
	if draw.Intn(20) == 0 {
		values = append(values, strings.Repeat(part(draw)+",", draw.Intn(2000)))
	}
	return values
}

func part(draw *rand.Rand) string {
	data, err := hex.DecodeString(seeds[draw.Intn(len(seeds))])
	if err != nil {
		panic(err)
	}
	for changes := draw.Intn(3); changes > 0 && len(data) > 0; changes-- {
		switch k := draw.Intn(len(data)); draw.Intn(3) {
		case 0:
			data[k] = byte(draw.Intn(256))
		case 1:
			data = append(data[:k], data[k+1:]...)
		default:
			data = append(data[:k:k], append([]byte{byte(draw.Intn(256))}, data[k:]...)...)
		}
	}
	if draw.Intn(4) > 0 {
		if c, err := terncommode.Parse(data); err == nil {
			return terncommode.ToHeader(c)
		}
	}
	text := []byte(terncommode.ToHeader(terncommode.Join()) + hex.EncodeToString(data))
	text[draw.Intn(len(text))] = byte(draw.Intn(256))
	return string(text)
}

// Of 3,000 hostile headers nothing comes in but what the fields may say.
func TestHostileHeaders(t *testing.T) {
	draw := rand.New(rand.NewSource(3))
	public, err := bag.Only("id", "tags", "hops")
	must(t, err)
	exact := 0
	for k := 0; k < 3000; k++ {
		values := hostile(draw)
		came := terncommode.Extract(http.Header{"Terncommode": values}, terncommode.Lost())
		limits := terncommode.Limits{DropPartial: k%2 == 1, Budget: uint64(20 + draw.Intn(100))}
		c := terncommode.Ingress(values, public, limits)
		if uint64(c.Len()) > limits.Budget {
			t.Fatalf("%d bytes, of %d", c.Len(), limits.Budget)
		}
		// All is typed, in normal form, and of these fields.
		normal, err := bag.Update([]terncommode.Context{c})
		if err != nil || normal != c {
			t.Fatalf("%v isn't in normal form: %v", c, err)
		}
		if kept := public.Keep(terncommode.OthersUnsaid, terncommode.NoBudget, c); kept != c {
			t.Fatalf("%v has more than the fields: %v", c, kept)
		}
		exact += sameFields(t, public, c, came, limits.DropPartial)
	}
	if exact < 500 {
		t.Errorf("%d fields are exact", exact)
	}
}

// sameFields counts the fields that are exact, each of which says what came.
func sameFields(t *testing.T, public terncommode.Bag, c, came terncommode.Context, dropsPartial bool) int {
	count := 0
	for _, path := range public.Slots() {
		only, err := public.Only(path)
		must(t, err)
		text, isExact, err := only.Text(c, path)
		must(t, err)
		if !isExact {
			continue
		}
		count++
		wanted, cameExact, err := only.Text(came, path)
		if !dropsPartial && (err != nil || !cameExact || text != wanted) {
			t.Fatalf("%s: %s is exact, and %s came (%v, %v)", path, text, wanted, cameExact, err)
		}
	}
	return count
}

// The same at the edge of a service.
func TestHostileRequests(t *testing.T) {
	draw := rand.New(rand.NewSource(4))
	for k := 0; k < 200; k++ {
		values := hostile(draw)
		request := httptest.NewRequest("GET", "/", nil)
		request.Header["Terncommode"] = values
		request.Header["Baggage"] = []string{"terncommode=" + part(draw) + ",a=b"}
		reply := httptest.NewRecorder()
		terncommode.EdgeWith(http.HandlerFunc(func(w http.ResponseWriter, r *http.Request) {
			is(t, terncommode.From(r.Context()), terncommode.Ingress(values, bag, terncommode.Limits{}))
			is(t, r.Header.Values("Terncommode"), []string(nil))
			if strings.Contains(strings.Join(r.Header["Baggage"], ","), "terncommode=") {
				t.Errorf("%q", r.Header["Baggage"])
			}
		}), func(h http.Header) terncommode.Context {
			return terncommode.Ingress(h.Values("Terncommode"), bag, terncommode.Limits{})
		}).ServeHTTP(reply, request)
		is(t, reply.Result().Header, http.Header{})
	}
}
