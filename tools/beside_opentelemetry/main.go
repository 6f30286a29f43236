// Measures what a service does that merges the baggage of two branches and sends it on: by this library, from C and from Go, and by
// OpenTelemetry's Go baggage, which has no merge, with the same content. The ways take turns, and processor time is counted.
package main

/*
#cgo pkg-config: baggage
#include <baggage.h>

static baggage_answer forwards(long times, const uint8_t *first, size_t first_len, const uint8_t *second, size_t second_len,
                               uint8_t *room, size_t room_len) {
    baggage_answer answer = {0};
    for (long i = 0; i < times; i++)
        answer = baggage_forward(BAGGAGE_FORM_ONE, first, first_len, second, second_len, BAGGAGE_NO_BUDGET, room, room_len);
    return answer;
}
*/
import "C"

import (
	"fmt"
	"log"
	"sort"
	"strconv"
	"strings"
	"syscall"
	"time"

	"go.opentelemetry.io/otel"
	"go.opentelemetry.io/otel/baggage"

	"terncommode"
)

const (
	rounds = 5
	aRound = 100 * time.Millisecond

	// What `baggage table examples/checkout.bdl Checkout` prints.
	table = "baggage table 1\n0 0 id scalar fixed32\n0 1 tags set string\n0 2 hops counter\n0 3 debug taint\n0 4 load map string scalar uint32\n"
)

// An entry is one of the 33 that each branch brings: an id, 16 tags, the counts of 8 writers and 8 amounts.
type entry struct{ kind, name, value string }

// entriesOf are those of a branch. Half of all names stand in both branches.
func entriesOf(branch int) []entry {
	all := []entry{{"id", "", strconv.Itoa(4711 + branch)}}
	of := func(kind string, count int, value func(i int) string) {
		for i := branch * count / 2; i < count+branch*count/2; i++ {
			all = append(all, entry{kind, fmt.Sprintf("name%02d", i), value(i)})
		}
	}
	of("tags", 16, func(i int) string { return "1" })
	of("hops", 8, func(i int) string { return strconv.Itoa(i + branch) })
	of("load", 8, func(i int) string { return strconv.Itoa(1000 + i + branch) })
	return all
}

// contextOf is the context that says these entries.
func contextOf(bag terncommode.Bag, entries []entry) []byte {
	var writes []terncommode.Write
	for _, e := range entries {
		name := terncommode.Quote(e.name)
		switch e.kind {
		case "id":
			writes = append(writes, terncommode.Set("id", e.value))
		case "tags":
			writes = append(writes, terncommode.Set("tags", name))
		default:
			writes = append(writes, terncommode.Set(e.kind, name+":"+e.value))
		}
	}
	context, err := bag.Update(nil, writes...)
	check(err)
	return context.Bytes()
}

// headerOf is the header of OpenTelemetry's baggage that says these entries.
func headerOf(entries []entry) string {
	var members []string
	for _, e := range entries {
		members = append(members, strings.TrimSuffix(e.kind+"."+e.name, ".")+"="+e.value)
	}
	return strings.Join(members, ",")
}

// joined is the member that stays of two with one key: the lesser, and of counts the greater.
func joined(first, second baggage.Member) baggage.Member {
	a, err := strconv.Atoi(first.Value())
	check(err)
	b, err := strconv.Atoi(second.Value())
	check(err)
	if (a <= b) != strings.HasPrefix(first.Key(), "hops.") {
		return first
	}
	return second
}

func parsed(header string) baggage.Baggage {
	all, err := baggage.Parse(header)
	check(err)
	return all
}

// byHand merges two headers by a map of all members, of which one baggage is made.
func byHand(first, second string) string {
	all := map[string]baggage.Member{}
	for _, member := range parsed(first).Members() {
		all[member.Key()] = member
	}
	for _, member := range parsed(second).Members() {
		if other, both := all[member.Key()]; both {
			member = joined(other, member)
		}
		all[member.Key()] = member
	}
	members := make([]baggage.Member, 0, len(all))
	for _, member := range all {
		members = append(members, member)
	}
	merged, err := baggage.New(members...)
	check(err)
	return merged.String()
}

// bySetMember merges two headers by setting each member of the second in the first.
func bySetMember(first, second string) string {
	all := parsed(first)
	for _, member := range parsed(second).Members() {
		if other := all.Member(member.Key()); other.Key() != "" {
			member = joined(other, member)
		}
		var err error
		all, err = all.SetMember(member)
		check(err)
	}
	return all.String()
}

// inGo merges two contexts by the Go package: each is checked, and the merge is handed out as bytes.
func inGo(first, second []byte) []byte {
	a, err := terncommode.Parse(first)
	check(err)
	b, err := terncommode.Parse(second)
	check(err)
	return terncommode.Join(a, b).Bytes()
}

func check(err error) {
	if err != nil {
		log.Fatal(err)
	}
}

// processorTime is what all threads of this process have used so far, the collector's too.
func processorTime() time.Duration {
	var usage syscall.Rusage
	check(syscall.Getrusage(syscall.RUSAGE_SELF, &usage))
	return time.Duration(usage.Utime.Nano() + usage.Stime.Nano())
}

// microseconds is the processor time of one turn, over so many turns that they take about as long as a round.
func microseconds(turns func(times int)) float64 {
	for times := 1; ; times *= 4 {
		begun := processorTime()
		turns(times)
		if took := processorTime() - begun; aRound < took {
			return float64(took.Nanoseconds()) / 1000 / float64(times)
		}
	}
}

func main() {
	bag := terncommode.MustBag(table)
	first, second := contextOf(bag, entriesOf(0)), contextOf(bag, entriesOf(1))
	one, other := headerOf(entriesOf(0)), headerOf(entriesOf(1))
	room := make([]byte, len(first)+len(second)+12)
	inC := func(times int) {
		answer := C.forwards(C.long(times), (*C.uint8_t)(&first[0]), C.size_t(len(first)), (*C.uint8_t)(&second[0]), C.size_t(len(second)),
			(*C.uint8_t)(&room[0]), C.size_t(len(room)))
		if answer.status != C.BAGGAGE_OK {
			log.Fatal("status ", answer.status)
		}
	}
	inC(1)
	if merged := inGo(first, second); string(merged) != string(room[:len(merged)]) {
		log.Fatal("the calls from C and from Go differ")
	}
	if a, b := members(byHand(one, other)), members(bySetMember(one, other)); a != b {
		log.Fatal("both ways of OpenTelemetry differ:\n", a, "\n", b)
	}
	fmt.Printf("%d and %d bytes here, %d and %d letters there; microseconds of processor time of one merge, in %d rounds\n", len(first), len(second), len(one), len(other), rounds)
	ways := []struct {
		name  string
		turns func(times int)
	}{
		{"this library, from C", inC},
		{"this library, by the Go package", func(times int) {
			for i := 0; i < times; i++ {
				inGo(first, second)
			}
		}},
		{"OpenTelemetry " + otel.Version() + ", joined by hand", func(times int) {
			for i := 0; i < times; i++ {
				byHand(one, other)
			}
		}},
		{"OpenTelemetry " + otel.Version() + ", by SetMember", func(times int) {
			for i := 0; i < times; i++ {
				bySetMember(one, other)
			}
		}},
	}
	times := make([][]float64, len(ways))
	for round := 0; round < rounds; round++ {
		for i, way := range ways {
			times[i] = append(times[i], microseconds(way.turns))
		}
	}
	for i, way := range ways {
		sort.Float64s(times[i])
		fmt.Printf("%-44s least %8.2f  median %8.2f  greatest %8.2f\n", way.name, times[i][0], times[i][rounds/2], times[i][rounds-1])
	}
}

// members are those of a header in the order of their texts.
func members(header string) string {
	all := strings.Split(header, ",")
	sort.Strings(all)
	return strings.Join(all, ",")
}
