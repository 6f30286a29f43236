package terncommode_test

import (
	"bytes"
	"encoding/gob"
	"encoding/json"
	"net/http"
	"strings"
	"testing"

	"terncommode"
)

const alphabet = "ABCDEFGHIJKLMNOPQRSTUVWXYZabcdefghijklmnopqrstuvwxyz0123456789-_"

func TestHeaders(t *testing.T) {
	same(t, terncommode.ToHeader(terncommode.Context{}), ".AAAAAA")
	same(t, terncommode.ToHeader(made(t, id7)), "AvgABQAAAAAH.Ktg3xw")
	for _, digits := range []string{"", id7, both, id7 + "02f801020061", "00"} {
		c := made(t, digits)
		text := terncommode.ToHeader(c)
		same(t, terncommode.FromHeader(text), c)
		for end := 0; end < len(text); end++ {
			same(t, terncommode.FromHeader(text[:end]), terncommode.Lost())
			same(t, terncommode.FromHeader(text[end+1:]), terncommode.Lost())
			for _, letter := range alphabet + ".+/=\r\n\x00\x80" {
				changed := text[:end] + string(letter) + text[end+1:]
				if changed != text {
					same(t, terncommode.FromHeader(changed), terncommode.Lost())
				}
			}
		}
	}
	text := terncommode.ToHeader(made(t, id7))
	for _, value := range []string{"", " ", ".", "AA", text + "=", text + "\n", text + "\r", "\n" + text, text[:4] + "\n" + text[4:], text[:4] + " " + text[4:],
		strings.Replace(text, ".", "..", 1), "A" + text, text + "A", "\xff" + text, text + "\x00", ".AAAAAB", strings.Replace(text, "H.", "I.", 1)} {
		same(t, terncommode.FromHeader(value), terncommode.Lost())
	}
}

func TestSeveralValues(t *testing.T) {
	first, second := made(t, id7), made(t, "02f801020061")
	a, b := terncommode.ToHeader(first), terncommode.ToHeader(second)
	joined := terncommode.Join(first, second)
	same(t, terncommode.FromHeader(a+","+b), joined)
	same(t, terncommode.FromHeader(" \t"+a+" ,\t"+b+" "), joined)
	same(t, terncommode.FromHeader(a+","), terncommode.Join(first, terncommode.Lost()))
	same(t, terncommode.Extract(http.Header{"Terncommode": {a, b}}, terncommode.Lost()), joined)
	same(t, terncommode.Extract(http.Header{"Terncommode": {""}}, first), terncommode.Lost())
	same(t, terncommode.Extract(http.Header{}, first), first)
	headers := http.Header{}
	headers.Add("terncommode", b)
	headers.Add("terncommode", b)
	terncommode.Inject(headers, first)
	same(t, headers, http.Header{"Terncommode": {a}})
}

func TestManyPartsAreReadAtOnce(t *testing.T) {
	first, second := made(t, id7), made(t, "02f801020061")
	a, b := terncommode.ToHeader(first), terncommode.ToHeader(second)
	value := strings.Repeat(a+","+b+", ,x,", 5000)
	same(t, terncommode.FromHeader(value), terncommode.Join(first, second, terncommode.Lost()))
	same(t, terncommode.Extract(http.Header{"Terncommode": {a, a, b}}, terncommode.Lost()), terncommode.Join(first, second))
	var parts []string
	for k := 0; k < 300; k++ {
		c, err := bag.Update(nil, terncommode.Set("tags", terncommode.Quote(string(rune('a'+k%26))+strings.Repeat("x", k))))
		same(t, err, nil)
		parts = append(parts, terncommode.ToHeader(c))
	}
	text, exact, err := bag.Text(terncommode.FromHeader(strings.Join(parts, ",")), "tags")
	same(t, []interface{}{strings.Count(text, ",") + 1, exact, err}, []interface{}{300, true, nil})
}

func TestBinary(t *testing.T) {
	for _, digits := range []string{"", id7, both, id7 + "02f801020061", "00"} {
		c := made(t, digits)
		sent := terncommode.ToBinary(c)
		same(t, terncommode.FromBinary(sent), c)
		for end := range sent {
			same(t, terncommode.FromBinary(sent[:end]), terncommode.Lost())
		}
	}
	same(t, terncommode.FromBinary(data(t, id7)), made(t, id7)) // of a sender of version 2.0
	same(t, terncommode.FromBinary(data(t, "80")), terncommode.Lost())
	same(t, terncommode.FromBinary(nil), terncommode.Lost())
}

// A message is what an application may send as JSON, or keep.
type message struct {
	Text    string
	Context terncommode.Context
	Later   *terncommode.Context `json:",omitempty"`
}

func TestJSON(t *testing.T) {
	c := made(t, id7)
	sent, err := json.Marshal(message{"x", c, &c})
	same(t, []interface{}{string(sent), err}, []interface{}{`{"Text":"x","Context":"AvgABQAAAAAH.Ktg3xw","Later":"AvgABQAAAAAH.Ktg3xw"}`, nil})
	keyed, err := json.Marshal(map[terncommode.Context]int{c: 1})
	same(t, []interface{}{string(keyed), err}, []interface{}{`{"AvgABQAAAAAH.Ktg3xw":1}`, nil})
	for text, wanted := range map[string]terncommode.Context{
		string(sent): c, `{"Context":".AAAAAA"}`: {}, `{"Context":""}`: terncommode.Lost(), `{"Context":"AvgABQAAAAAH.Ktg3x"}`: terncommode.Lost(),
		`{"Context":null}`: terncommode.Lost(), `{}`: made(t, id9),
	} {
		came := message{Context: made(t, id9)}
		same(t, json.Unmarshal([]byte(text), &came), nil)
		same(t, came.Context, wanted)
	}
	for _, text := range []string{`{"Context":{}}`, `{"Context":[]}`, `{"Context":7}`, `{"Context":true}`} {
		came := message{Context: terncommode.Lost()}
		if err := json.Unmarshal([]byte(text), &came); err == nil {
			t.Errorf("%s is read as %v", text, came.Context)
		}
	}
	counts := map[terncommode.Context]int{}
	same(t, json.Unmarshal(keyed, &counts), nil)
	same(t, counts, map[terncommode.Context]int{c: 1})
}

func TestGob(t *testing.T) {
	for _, c := range list(made(t, id7), terncommode.Lost(), terncommode.Context{}) {
		var kept bytes.Buffer
		same(t, gob.NewEncoder(&kept).Encode(message{Context: c}), nil)
		came := message{}
		same(t, gob.NewDecoder(&kept).Decode(&came), nil)
		same(t, came.Context, c)
	}
	var c terncommode.Context
	same(t, c.UnmarshalBinary(nil), nil)
	same(t, c, terncommode.Lost())
}
