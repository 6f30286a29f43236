package terncommode_test

import (
	"bytes"
	"encoding/hex"
	"errors"
	"fmt"
	"reflect"
	"strings"
	"sync"
	"testing"

	"terncommode"
)

const (
	table = "baggage table 1\n0 0 id scalar fixed32\n0 1 tags set string\n0 2 hops counter\n0 3 debug taint\n0 4 load map string scalar uint32\n"
	id7   = "02f800050000000007"
	id9   = "02f800050000000009"
	both  = "02f800050000000007050000000009"
	ill   = "02f800020000050000000007"
)

var bag = terncommode.MustBag(table)

func data(t testing.TB, digits string) []byte {
	t.Helper()
	b, err := hex.DecodeString(digits)
	if err != nil {
		t.Fatal(err)
	}
	return b
}

func made(t testing.TB, digits string) terncommode.Context {
	t.Helper()
	c, err := terncommode.Parse(data(t, digits))
	if err != nil {
		t.Fatalf("%s: %v", digits, err)
	}
	return c
}

func digitsOf(c terncommode.Context) string {
	return hex.EncodeToString(c.Bytes())
}

func same(t *testing.T, found, wanted interface{}) {
	t.Helper()
	if !reflect.DeepEqual(found, wanted) {
		t.Errorf("%v, not %v", found, wanted)
	}
}

func list(contexts ...terncommode.Context) []terncommode.Context {
	return contexts
}

func TestAJoinIsTheMerge(t *testing.T) {
	first, second := made(t, id7), made(t, id9)
	same(t, terncommode.Join(first, second), made(t, both))
	same(t, terncommode.Join(second, first, first), made(t, both))
	same(t, terncommode.Join(), terncommode.Context{})
	same(t, terncommode.Join(first), first)
	same(t, terncommode.Join(terncommode.Context{}, first), first)
	same(t, digitsOf(terncommode.Join(terncommode.Lost(), first)), "00"+id7)
	same(t, digitsOf(terncommode.Lost()), "00")
}

func TestAContextIsAValue(t *testing.T) {
	counts := map[terncommode.Context]int{made(t, id7): 1}
	counts[made(t, "ffffff020000000000000009"+id7)]++
	same(t, counts[made(t, id7)], 2)
	c := made(t, id7)
	c.Bytes()[0] = 9
	same(t, c, made(t, id7))
	same(t, c.String(), "context of 9 bytes "+id7)
	same(t, c.Len(), 9)
	given := data(t, id7)
	c, _ = terncommode.Parse(given)
	given[8] = 9
	same(t, c, made(t, id7))
}

func TestManyInputs(t *testing.T) {
	for _, count := range []int{0, 1, 2, 15, 16, 17, 1000} {
		var contexts []terncommode.Context
		var wanted strings.Builder
		for k := 0; k < count; k++ {
			wanted.WriteString(fmt.Sprintf("05%010x", k))
			contexts = append(contexts, made(t, fmt.Sprintf("02f80005%010x", count-1-k)))
		}
		merged := terncommode.Join(contexts...)
		if count > 0 {
			same(t, digitsOf(merged), "02f800"+wanted.String())
		}
		updated, err := bag.Update(contexts)
		if count > 0 {
			same(t, digitsOf(updated), "02f800050000000000")
		}
		same(t, err, nil)
	}
}

func TestCuts(t *testing.T) {
	c := terncommode.Join(made(t, id7), made(t, "02f801020061"))
	for _, row := range []struct {
		form   terncommode.Form
		budget uint64
		digits string
	}{
		{terncommode.FormOne, 15, id7 + "02f801020061"}, {terncommode.FormOne, 14, id7 + "02f80100"}, {terncommode.FormOne, 9, "02f80000"},
		{terncommode.FormOne, 1, "00"}, {terncommode.FormOne, 0, "00"}, {terncommode.FormOne, terncommode.NoBudget, id7 + "02f801020061"},
		{terncommode.FormTwo, 27, id7 + "02f801020061"}, {terncommode.FormTwo, 26, id7 + "02f80100"}, {terncommode.FormTwo, 13, "00"}, {terncommode.FormTwo, 0, "00"},
	} {
		same(t, digitsOf(c.CutIn(row.form, row.budget)), row.digits)
		if row.form == terncommode.FormOne {
			same(t, c.Cut(row.budget), c.CutIn(row.form, row.budget))
		}
	}
	same(t, hex.EncodeToString(made(t, id7).BytesIn(terncommode.FormTwo)), "ffffff020000000000000009"+id7)
	same(t, terncommode.Context{}.Cut(0), terncommode.Context{})
	defer func() { same(t, recover() != nil, true) }()
	c.CutIn(3, 5)
}

func TestLongAtoms(t *testing.T) {
	blobs := terncommode.MustBag("baggage table 1\n0 0 id scalar fixed32\n0 1 blob set bytes\n")
	long := terncommode.Set("blob", terncommode.Hex(bytes.Repeat([]byte("x"), 70000)))
	_, err := blobs.Update(nil, terncommode.Set("id", "7"), long)
	same(t, err, terncommode.BadWrite{Line: 2, Path: "blob", Text: long.Text, Shape: "set bytes"})
	c, err := blobs.InForm(terncommode.FormTwo).Update(nil, terncommode.Set("id", "7"), long)
	same(t, err, nil)
	same(t, bytes.HasPrefix(c.Bytes(), []byte("\xff\xff\xff\x02")), true)
	same(t, digitsOf(c.Cut(69000)), id7+"02f80100")
	text, exact, err := blobs.Text(c, "blob")
	same(t, []interface{}{len(text), exact, err}, []interface{}{140004, true, nil})
}

func TestFaults(t *testing.T) {
	for _, row := range []struct {
		digits string
		offset int
		code   terncommode.Code
		name   string
	}{
		{"80", 0, terncommode.CutLength, "CutLength"}, {"02f8000205", 3, terncommode.CutBody, "CutBody"}, {"03f80000", 0, terncommode.BadIndex, "BadIndex"},
		{"0102", 0, terncommode.BadPrefix, "BadPrefix"}, {"02f00000", 0, terncommode.LevelJump, "LevelJump"}, {"02f80102f800", 3, terncommode.OutOfOrder, "OutOfOrder"},
		{"8100", 0, terncommode.LongForm, "LongForm"}, {"ffffff020000000000000001" + "0000", 4, terncommode.BadCount, "BadCount"}, {"ffffff", 0, terncommode.AtomTooLong, "AtomTooLong"},
	} {
		c, err := terncommode.Parse(data(t, row.digits))
		same(t, c, terncommode.Context{})
		var fault terncommode.Fault
		same(t, errors.As(err, &fault), true)
		same(t, fault, terncommode.Fault{Input: 0, Offset: row.offset, Code: row.code})
		same(t, fault.Code.String(), row.name)
	}
	same(t, terncommode.Fault{Input: 1, Offset: 6, Code: terncommode.CutBody}.Error(), "context 1: CutBody at byte 6")
	same(t, terncommode.Code(77).String(), "Code(77)")
}

func TestUpdatesAreTheStepsOfAService(t *testing.T) {
	hops, err := bag.Only("hops")
	same(t, err, nil)
	for _, row := range []struct {
		bag    terncommode.Bag
		inputs []terncommode.Context
		writes []terncommode.Write
		budget uint64
		digits string
	}{
		{bag, list(made(t, both)), nil, terncommode.NoBudget, id7},
		{bag, nil, nil, terncommode.NoBudget, ""},
		{terncommode.Bag{}, list(made(t, both)), nil, terncommode.NoBudget, both},
		{bag, list(made(t, both)), []terncommode.Write{terncommode.Set("id", "5"), terncommode.Set("hops", `"w":3`)}, terncommode.NoBudget, "02f80005000000000502f80202f177020003"},
		{bag, list(made(t, "02f80202f177020003")), []terncommode.Write{terncommode.Set("hops", `"w":5`)}, terncommode.NoBudget, "02f80202f177020005"},
		{bag, list(made(t, both)), []terncommode.Write{terncommode.Set("tags", `"a"`)}, 13, "02f80005000000000702f80100"},
		{hops, list(made(t, both), made(t, "02f80202f177020003020005")), nil, terncommode.NoBudget, both + "02f80202f177020005"},
		{hops, list(made(t, ill)), nil, terncommode.NoBudget, ill},
	} {
		c, err := row.bag.UpdateWithin(row.budget, row.inputs, row.writes...)
		same(t, err, nil)
		same(t, digitsOf(c), row.digits)
	}
}

func TestWhatAnUpdateRefuses(t *testing.T) {
	for _, row := range []struct {
		inputs []terncommode.Context
		writes []terncommode.Write
		err    error
	}{
		{list(made(t, id7), made(t, ill)), nil, terncommode.IllTyped{Input: 1, Offset: 3}},
		{nil, []terncommode.Write{terncommode.Set("id", "")}, terncommode.BadWrite{Line: 1, Path: "id", Shape: "scalar fixed32"}},
		{nil, []terncommode.Write{terncommode.Set("", "")}, terncommode.NoField{Line: 1}},
		{nil, []terncommode.Write{terncommode.Set("id", "5"), terncommode.Set("idd", "4")}, terncommode.NoField{Line: 2, Path: "idd"}},
		{nil, []terncommode.Write{terncommode.Set("id", "5"), terncommode.Set("id", "6\nid 7")}, terncommode.BadWrite{Line: 2, Path: "id", Text: "6\nid 7", Shape: "scalar fixed32"}},
		{nil, []terncommode.Write{terncommode.Set("id 5\nid", "6")}, terncommode.NoField{Line: 1, Path: "id 5\nid"}},
		{nil, []terncommode.Write{terncommode.Set("id ", "6")}, terncommode.NoField{Line: 1, Path: "id "}},
		{nil, []terncommode.Write{terncommode.Set("tags", terncommode.Quote("\xff"))}, terncommode.BadWrite{Line: 1, Path: "tags", Text: "\"\xff\"", Shape: "set string"}},
	} {
		c, err := bag.Update(row.inputs, row.writes...)
		same(t, c, terncommode.Context{})
		same(t, err, row.err)
	}
	_, err := bag.Receive(data(t, "ffffff02000000000000000c"+ill))
	same(t, err, terncommode.IllTyped{Input: 0, Offset: 15})
	_, err = bag.Receive(data(t, "80"))
	same(t, err, terncommode.Fault{Code: terncommode.CutLength})
	c, err := bag.Receive(data(t, both))
	same(t, []interface{}{c, err}, []interface{}{made(t, id7), nil})
}

func TestARefusedWriteSaysItsField(t *testing.T) {
	id := terncommode.Set("id", "5")
	for _, row := range []struct {
		writes []terncommode.Write
		text   string
	}{
		{[]terncommode.Write{terncommode.Set("nope", "1")}, `write 1: no field "nope"`}, {[]terncommode.Write{id, terncommode.Set("", "1")}, `write 2: no field ""`},
		{[]terncommode.Write{id, terncommode.Set("id ", "1")}, `write 2: no field "id "`}, {[]terncommode.Write{id, id, terncommode.Set("id", "x")}, `write 3: no write to "id", a scalar fixed32: "x"`}, {[]terncommode.Write{terncommode.Set("tags", "x\x1b"+strings.Repeat("é", 40))}, `write 1: no write to "tags", a set string: "x\x1b` + strings.Repeat("é", 31) + `.."`},
	} {
		_, err := bag.Update(nil, row.writes...)
		same(t, err.Error(), row.text)
		_, err = bag.UpdateWithin(100, list(made(t, id7)), row.writes...)
		same(t, err.Error(), row.text)
	}
	_, _, err := bag.Text(terncommode.Context{}, "nope")
	same(t, err.Error(), `no field "nope"`)
	_, err = bag.Only("id", "nope")
	same(t, err.Error(), `no field "nope"`)
}

func TestReadings(t *testing.T) {
	c, err := bag.Update(list(made(t, id7)), terncommode.Set("tags", terncommode.Quote("C:\\x\"\n\x7fé")), terncommode.Set("hops", terncommode.Hex([]byte("w"))+":3"))
	same(t, err, nil)
	for _, row := range []struct {
		c          terncommode.Context
		path, text string
		exact      bool
	}{
		{c, "id", "7", true}, {c, "tags", `{"C:\\x\"\x0a\x7fé"}`, true}, {c, "hops", "3{0x77:3}", true}, {c, "debug", "off", true}, {c, "load", "{}", true},
		{c.Cut(13), "id", "7", true}, {c.Cut(13), "tags", "{}", false}, {terncommode.Lost(), "id", "-", false},
	} {
		text, exact, err := bag.Text(row.c, row.path)
		same(t, []interface{}{text, exact, err}, []interface{}{row.text, row.exact, nil})
	}
	block, err := bag.Report(made(t, id7))
	same(t, []interface{}{block, err}, []interface{}{"bytes " + id7 + "\nid exact 7\ntags exact {}\nhops exact 0{}\ndebug exact off\nload exact {}\n", nil})
	_, _, err = bag.Text(c, "load.eur")
	same(t, err, terncommode.NoField{Path: "load.eur"})
	_, _, err = bag.Text(made(t, ill), "tags")
	same(t, err, terncommode.IllTyped{Input: 0, Offset: 3})
	_, err = bag.Report(made(t, ill))
	same(t, err, terncommode.IllTyped{Input: 0, Offset: 3})
	same(t, terncommode.Quote("a\"\\\x00"), `"a\"\\\x00"`)
}

func TestTables(t *testing.T) {
	for _, row := range []struct {
		text string
		line int
		code terncommode.TableCode
		name string
	}{
		{"", 1, terncommode.TableHead, "Head"}, {table[:len(table)-1], 6, terncommode.TableForm, "Form"}, {table + "0 4 x taint\n", 7, terncommode.TableOrder, "Order"},
		{table + "1 5 x taint\n", 7, terncommode.TableDepth, "Depth"}, {table + "0 5 id taint\n", 7, terncommode.TableDuplicateField, "DuplicateField"},
	} {
		_, err := terncommode.NewBag(row.text)
		same(t, err, terncommode.BadTable{Line: row.line, Code: row.code})
		same(t, row.code.String(), row.name)
	}
	same(t, bag.Slots(), []string{"id", "tags", "hops", "debug", "load"})
	same(t, bag.Table(), table)
	same(t, terncommode.Bag{}.Slots(), []string{})
	defer func() { same(t, recover() != nil, true) }()
	terncommode.MustBag("x")
}

func TestExcerpts(t *testing.T) {
	lines := []string{"0 0 a bag", "1 0 x taint", "1 1 e bag", "1 2 m map string bag", "2 0 y taint", "2 1 b bag", "3 0 z counter", "1 3 w counter", "0 1 q taint"}
	deep := terncommode.MustBag("baggage table 1\n" + strings.Join(lines, "\n") + "\n")
	same(t, deep.Slots(), []string{"a.x", "a.m", "a.w", "q"})
	for _, row := range []struct {
		paths []string
		kept  []int
	}{
		{nil, nil}, {[]string{"a"}, []int{0, 1, 2, 3, 4, 5, 6, 7}}, {[]string{"a.e"}, []int{0, 2}}, {[]string{"a.m"}, []int{0, 3, 4, 5, 6}},
		{[]string{"q", "a.w"}, []int{0, 7, 8}}, {[]string{"q", "q"}, []int{8}},
	} {
		wanted := "baggage table 1\n"
		for _, line := range row.kept {
			wanted += lines[line] + "\n"
		}
		only, err := deep.Only(row.paths...)
		same(t, []interface{}{only.Table(), err}, []interface{}{wanted, nil})
	}
	for _, path := range []string{"a.m.y", "m", "a.", "", "a.m.b", "A"} {
		_, err := deep.Only("q", path)
		same(t, err, terncommode.NoField{Path: path})
	}
}

func TestPlaces(t *testing.T) {
	places := bag.Places(made(t, id7+"02f80100"))
	same(t, places, []terncommode.Place{{3, 6, terncommode.Exact}, {12, 1, terncommode.Partial}, {13, 0, terncommode.Partial}, {13, 0, terncommode.Partial}, {13, 0, terncommode.Partial}})
	same(t, bag.Places(made(t, ill))[0], terncommode.Place{3, 0, terncommode.Misspelled})
	same(t, terncommode.Bag{}.Places(made(t, ill)), []terncommode.Place{})
}

func TestWhatLeaves(t *testing.T) {
	c := made(t, "02f80005000000000702f80102006102f80202f17702000502f803010002f80402f1780300812c")
	some, _ := bag.Only("id", "debug")
	same(t, digitsOf(some.Keep(terncommode.OthersUnsaid, terncommode.NoBudget, c)), id7+"02f8030100")
	same(t, digitsOf(some.Keep(terncommode.OthersCut, terncommode.NoBudget, c)), id7+"02f8010002f803010002f80400")
	same(t, some.Keep(terncommode.OthersCut, 10, c), some.Keep(terncommode.OthersCut, terncommode.NoBudget, c).Cut(10))
}

func TestBesideOneAnother(t *testing.T) {
	var group sync.WaitGroup
	for worker := 0; worker < 8; worker++ {
		group.Add(1)
		go func() {
			defer group.Done()
			merged := terncommode.Context{}
			for k := 0; k < 200; k++ {
				c, err := bag.Update(list(merged, terncommode.Lost()), terncommode.Set("tags", terncommode.Quote(fmt.Sprint(k%20))))
				if err != nil {
					t.Error(err)
				}
				merged = c
			}
			if len(merged.Bytes()) == 0 {
				t.Error("nothing")
			}
		}()
	}
	group.Wait()
}

func TestTextsForPeople(t *testing.T) {
	for text, wanted := range map[string]string{
		"": "", `{"a\"é日"}`: `{"a\"é日"}`, "a\n\x00\x1b[1m\x7f": `a\n\x00\x1b[1m\x7f`, "\u0080\u0085\u009b\u009f\u00a0": `\u0080\u0085\u009b\u009f` + "\u00a0", "\u2028\u2029": `\u2028\u2029`,
		"\u2029\u202a\u202e\u202f": `\u2029\u202a\u202e` + "\u202f", "\u2065\u2066\u2069\u206a": "\u2065" + `\u2066\u2069` + "\u206a", "\xff\uFFFD\xc2": `\xff` + "\uFFFD" + `\xc2`,
	} {
		same(t, terncommode.Escape(text), wanted)
	}
	for shown, wanted := range map[interface{}]string{
		terncommode.Exact: "exact", terncommode.Partial: "partial", terncommode.Misspelled: "misspelled", terncommode.State(9): "State(9)", terncommode.FormTwo: "form two", terncommode.OthersCut: "cut",
		terncommode.OthersUnsaid: "unsaid", bag: "bag of id, tags, hops, debug, load", terncommode.Bag{}: "bag of ", made(t, id7): "context of 9 bytes " + id7,
	} {
		same(t, fmt.Sprintf("%v", shown), wanted)
	}
	many := "baggage table 1\n"
	for k := 0; k < 20; k++ {
		many += fmt.Sprintf("0 %d f%d taint\n", k, k)
	}
	same(t, strings.HasSuffix(terncommode.MustBag(many).String(), ", f15, and 4 more"), true)
}

// A short context says a long text, where a map has keys to bags of many fields.
func TestTextsAreBounded(t *testing.T) {
	lines := "baggage table 1\n0 0 m map fixed32 bag\n"
	for k := 0; k < 100; k++ {
		lines += fmt.Sprintf("1 %d field_number_%d scalar fixed32\n", k, k)
	}
	wide := terncommode.MustBag(lines)
	var writes []terncommode.Write
	for k := 0; k < 600; k++ {
		writes = append(writes, terncommode.Set("m", fmt.Sprintf("%d:.field_number_0=1", k)))
	}
	c, err := wide.Update(nil, writes...)
	same(t, err, nil)
	long, err := wide.ReportWithin(1<<30, c)
	same(t, []interface{}{len(long) > terncommode.TextLimit, err}, []interface{}{true, nil})
	for _, limit := range []int{len(long) - 1, 0, -1} {
		text, err := wide.ReportWithin(limit, c)
		wanted := limit
		if limit < 0 {
			wanted = 0
		}
		same(t, []interface{}{text, err}, []interface{}{"", terncommode.TooLong{Size: len(long), Limit: wanted}})
	}
	text, err := wide.ReportWithin(len(long), c)
	same(t, []interface{}{text == long, err}, []interface{}{true, nil})
	_, err = wide.Report(c)
	same(t, err, terncommode.TooLong{Size: len(long), Limit: terncommode.TextLimit})
	_, _, err = wide.Text(c, "m")
	var tooLong terncommode.TooLong
	same(t, errors.As(err, &tooLong), true)
	same(t, err.Error(), fmt.Sprintf("the text has %d bytes, and 1048576 are allowed", tooLong.Size))
	text, exact, err := wide.TextWithin(1<<30, c, "m")
	same(t, []interface{}{len(text), exact, err}, []interface{}{tooLong.Size, true, nil})
}
