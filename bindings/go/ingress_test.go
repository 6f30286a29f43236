package terncommode_test

import (
	"strings"
	"testing"

	"terncommode"
)

const deepTable = "baggage table 1\n" +
	"0 0 client scalar (string,uint32)\n" +
	"0 1 peak greatest int64\n" +
	"0 2 flags map string taint\n" +
	"0 3 use map bytes bag\n1 0 cpu counter\n1 1 names set string\n1 2 deep map bool map int32 counter\n" +
	"0 4 plain bag\n1 0 yes scalar bool\n1 1 seen set bytes\n"

func TestWhatStrangersMaySayComesIn(t *testing.T) {
	deep := terncommode.MustBag(deepTable)
	c, err := deep.Update(nil,
		terncommode.Set("client", `("a,\"}]){:\\",7)`), terncommode.Set("peak", "-5"), terncommode.Set("flags", `"a:b":on`), terncommode.Set("flags", `"}":on`),
		terncommode.Set("use", `0x6b:.cpu="w":3`), terncommode.Set("use", `0x6b:.cpu="v":4`), terncommode.Set("use", `0x6b:.names="x,y"`), terncommode.Set("use", `0x:.names=""`),
		terncommode.Set("use", `0x6b:.deep=true:-7:0xff:0`), terncommode.Set("plain.yes", "false"), terncommode.Set("plain.seen", "0x00"))
	if err != nil {
		t.Fatal(err)
	}
	same(t, terncommode.Ingress([]string{terncommode.ToHeader(c)}, deep, terncommode.Limits{}), c)
	some, err := deep.Only("peak", "plain")
	same(t, err, nil)
	same(t, terncommode.Ingress([]string{terncommode.ToHeader(c)}, some, terncommode.Limits{}), some.Keep(terncommode.OthersUnsaid, terncommode.NoBudget, c))
	same(t, terncommode.Ingress(nil, deep, terncommode.Limits{}), terncommode.Context{})
}

func TestIngress(t *testing.T) {
	text := func(digits string) string { return terncommode.ToHeader(made(t, digits)) }
	long, err := bag.Update(list(made(t, id7)), terncommode.Set("tags", terncommode.Quote(strings.Repeat("x", 2000))), terncommode.Set("tags", `"a"`))
	same(t, err, nil)
	var many []string
	for k := 0; k < 17; k++ {
		many = append(many, terncommode.ToHeader(made(t, "02f80005000000000"+string("0123456789abcdefg"[k%16]))))
	}
	many[16] = text("02f801020061")
	for _, row := range []struct {
		values []string
		limits terncommode.Limits
		digits string
		isLost bool
	}{
		{[]string{text(id7)}, terncommode.Limits{}, id7, false},
		{[]string{text(id7), text("02f801020061")}, terncommode.Limits{}, id7 + "02f801020061", false},
		{[]string{text(both)}, terncommode.Limits{}, id7, false},
		{[]string{text("02f80005000000126704f16a6a6a")}, terncommode.Limits{}, "02f800050000001267", false}, // junk below id
		{[]string{text("02f80005000000000702f809020078")}, terncommode.Limits{}, id7, false},                // a field of nobody
		{[]string{"x"}, terncommode.Limits{}, "", true},
		{[]string{text(id7) + ",x"}, terncommode.Limits{}, id7, true},
		{[]string{""}, terncommode.Limits{}, "", true},
		{[]string{text("00" + id7)}, terncommode.Limits{}, id7, true},
		{[]string{text(id7 + "02f80100")}, terncommode.Limits{}, id7, true},
		{[]string{text(ill)}, terncommode.Limits{}, "", true},
		{[]string{text("02f800030078780" + "2f801020061")}, terncommode.Limits{}, "02f801020061", true},
		{[]string{terncommode.ToHeader(long)}, terncommode.Limits{}, id7 + "02f801020061", true},
		{[]string{terncommode.ToHeader(long)}, terncommode.Limits{Text: 2002}, digitsOf(long), false},
		{[]string{terncommode.ToHeader(long)}, terncommode.Limits{Text: 2002, Budget: 30}, digitsOf(long.Cut(30)), false},
		{[]string{strings.Repeat("x", 8193)}, terncommode.Limits{}, "", true},
		{[]string{text(id7)}, terncommode.Limits{Length: 18}, "", true},
		{[]string{text(id7)}, terncommode.Limits{Length: 19}, id7, false},
		{[]string{text(id7), text(id7)}, terncommode.Limits{Length: 38}, "", true},
		{many, terncommode.Limits{}, "", true},
		{many[1:], terncommode.Limits{}, "02f80005000000000102f801020061", false},
		{many, terncommode.Limits{Parts: 17}, "02f80005000000000002f801020061", false},
		{[]string{strings.Repeat(text(id7)+",", 50) + text(id9)}, terncommode.Limits{}, id7, false}, // equal parts count once
	} {
		wanted := made(t, row.digits)
		limits := row.limits
		limits.DropPartial = true
		same(t, terncommode.Ingress(row.values, bag, limits), wanted)
		if row.isLost {
			wanted = terncommode.Join(wanted, terncommode.Lost())
		}
		same(t, terncommode.Ingress(row.values, bag, row.limits), wanted)
	}
	same(t, terncommode.Ingress([]string{text(id7)}, terncommode.Bag{}, terncommode.Limits{}), terncommode.Context{})
	// A key of which nothing is said is no write, so it is told.
	same(t, terncommode.Ingress([]string{text("02f80402f17800")}, bag, terncommode.Limits{}), terncommode.Lost())
}
