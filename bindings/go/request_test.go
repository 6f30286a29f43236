package terncommode_test

import (
	"context"
	"errors"
	"fmt"
	"math"
	"strings"
	"sync"
	"testing"

	"terncommode"
)

// put is a step that gives a context, whatever is there.
func put(c terncommode.Context) func(terncommode.Context) (terncommode.Context, error) {
	return func(terncommode.Context) (terncommode.Context, error) { return c, nil }
}

// says is a step that writes.
func says(writes ...terncommode.Write) func(terncommode.Context) (terncommode.Context, error) {
	return func(c terncommode.Context) (terncommode.Context, error) { return bag.Update(list(c), writes...) }
}

func TestTheContextThatIsHeld(t *testing.T) {
	first, second := made(t, id7), made(t, "02f801020061")
	ctx := terncommode.With(context.Background(), first)
	branch := terncommode.Branch(ctx)
	same(t, terncommode.Add(branch, second), nil)
	same(t, terncommode.From(ctx), first)
	same(t, terncommode.From(branch), terncommode.Join(first, second))
	same(t, terncommode.Add(ctx, terncommode.From(branch)), nil)
	same(t, terncommode.From(ctx), terncommode.Join(first, second))

	ctx = terncommode.With(context.Background(), first)
	failure := errors.New("no")
	same(t, terncommode.Change(ctx, func(terncommode.Context) (terncommode.Context, error) { return second, failure }), failure)
	same(t, terncommode.From(ctx), first)
	same(t, terncommode.Change(ctx, put(second)), nil)
	same(t, terncommode.From(ctx), second)
}

func TestWhereNoRequestRuns(t *testing.T) {
	nowhere := context.Background()
	same(t, terncommode.From(nowhere), terncommode.Lost())
	same(t, terncommode.End(nowhere), terncommode.Lost())
	same(t, terncommode.Add(nowhere, made(t, id7)), terncommode.ErrNoContext)
	same(t, terncommode.Change(nowhere, nil), terncommode.ErrNoContext)
	same(t, terncommode.Count(nowhere, bag, "hops", 1), terncommode.ErrNoContext)
	same(t, terncommode.Late(nowhere), 0)
	same(t, terncommode.From(terncommode.Branch(nowhere)), terncommode.Lost())
	reply := terncommode.Expect(nowhere)
	reply.Began()
	reply.Failed()
	same(t, reply.Came(made(t, id7)), terncommode.ErrNoContext)
}

func TestAStepRunsUnlocked(t *testing.T) {
	a, b := made(t, id7), made(t, "02f801020061")
	ctx := terncommode.With(context.Background(), terncommode.Context{})
	same(t, terncommode.Change(ctx, func(c terncommode.Context) (terncommode.Context, error) {
		same(t, terncommode.From(ctx), c)
		same(t, terncommode.Add(ctx, a), nil)
		same(t, terncommode.Change(ctx, says()), nil)
		return terncommode.Join(c, b), nil
	}), nil)
	same(t, terncommode.From(ctx), terncommode.Join(a, b))
}

func TestAfterTheEnd(t *testing.T) {
	a, b := made(t, id7), made(t, "02f801020061")
	ctx := terncommode.With(context.Background(), a)
	same(t, terncommode.End(ctx), a)
	same(t, terncommode.Late(ctx), 0)
	same(t, terncommode.Add(ctx, b), terncommode.ErrLate)
	same(t, terncommode.Change(ctx, says(terncommode.Set("debug", "on"))), terncommode.ErrLate)
	same(t, terncommode.Count(ctx, bag, "hops", 2), terncommode.ErrLate)
	same(t, terncommode.Expect(ctx).Came(a), terncommode.ErrLate)
	same(t, terncommode.Late(ctx), 4)
	// It goes on with what is sent later.
	text, exact, err := bag.Text(terncommode.From(ctx), "debug")
	same(t, []interface{}{text, exact, err}, []interface{}{"on", true, nil})
	branch := terncommode.Branch(ctx)
	same(t, terncommode.Add(branch, a), nil)
}

func TestReplies(t *testing.T) {
	a, b, lost := made(t, id7), made(t, "02f801020061"), terncommode.Lost()
	for name, row := range map[string]struct {
		ends   func(*terncommode.Reply)
		wanted terncommode.Context
	}{
		"came":                       {func(r *terncommode.Reply) { r.Came(b) }, terncommode.Join(a, b)},
		"began and came":             {func(r *terncommode.Reply) { r.Began(); r.Began(); r.Came(b); r.Failed() }, terncommode.Join(a, b)},
		"failed":                     {func(r *terncommode.Reply) { r.Failed(); r.Began() }, a},
		"began and failed":           {func(r *terncommode.Reply) { r.Began(); r.Failed() }, terncommode.Join(a, lost)},
		"began":                      {func(r *terncommode.Reply) { r.Began() }, terncommode.Join(a, lost)},
		"began, failed and came yet": {func(r *terncommode.Reply) { r.Began(); r.Failed(); r.Came(b) }, terncommode.Join(a, b, lost)},
	} {
		t.Run(name, func(t *testing.T) {
			ctx := terncommode.With(context.Background(), a)
			row.ends(terncommode.Expect(ctx))
			same(t, terncommode.From(ctx), row.wanted)
			same(t, terncommode.From(terncommode.Branch(ctx)), row.wanted)
			same(t, terncommode.End(ctx), row.wanted)
		})
	}
}

func TestWhatIsWrittenWhileAReplyIsOpen(t *testing.T) {
	ctx := terncommode.With(context.Background(), made(t, id7))
	first, second := terncommode.Expect(ctx), terncommode.Expect(ctx)
	first.Began()
	second.Began()
	same(t, terncommode.Change(ctx, func(c terncommode.Context) (terncommode.Context, error) {
		// All that looks at it sees the marker.
		_, exact, err := bag.Text(c, "id")
		same(t, []interface{}{exact, err}, []interface{}{false, nil})
		same(t, bag.Places(c)[0].State, terncommode.Partial)
		same(t, digitsOf(c), "00"+id7)
		same(t, []interface{}{c.Len(), c.String()}, []interface{}{10, "context of 10 bytes 00" + id7})
		same(t, terncommode.FromHeader(terncommode.ToHeader(c)), terncommode.From(ctx))
		same(t, terncommode.FromBinary(terncommode.ToBinary(c)), terncommode.From(ctx))
		same(t, c.Cut(100), terncommode.From(ctx))
		same(t, bag.Keep(terncommode.OthersCut, 100, c), terncommode.From(ctx))
		same(t, terncommode.From(terncommode.With(ctx, c)), terncommode.From(ctx))
		_, err = bag.Update(list(terncommode.Join(c, made(t, ill))))
		same(t, err, terncommode.IllTyped{Input: 0, Offset: 4})
		return bag.Update(list(terncommode.Join(c, terncommode.Context{})), terncommode.Set("debug", "on"))
	}), nil)
	same(t, terncommode.Count(ctx, bag, "hops", 1), nil)
	first.Came(terncommode.Context{})
	_, exact, _ := bag.Text(terncommode.From(ctx), "debug")
	same(t, exact, false)
	second.Came(terncommode.Context{})
	text, exact, _ := bag.Text(terncommode.From(ctx), "debug")
	same(t, []interface{}{text, exact}, []interface{}{"on", true})

	// What a step joins itself stays, and so does what it cuts.
	for _, step := range []func(terncommode.Context) (terncommode.Context, error){
		put(terncommode.Lost()), func(c terncommode.Context) (terncommode.Context, error) { return c.Cut(100), nil },
		func(c terncommode.Context) (terncommode.Context, error) { return bag.UpdateWithin(100, list(c)) },
	} {
		ctx := terncommode.With(context.Background(), made(t, id7))
		reply := terncommode.Expect(ctx)
		reply.Began()
		same(t, terncommode.Change(ctx, step), nil)
		reply.Came(terncommode.Context{})
		_, exact, _ := bag.Text(terncommode.From(ctx), "id")
		same(t, exact, false)
	}
}

func TestCounts(t *testing.T) {
	ctx := terncommode.With(context.Background(), terncommode.Context{})
	var group sync.WaitGroup
	for k := 0; k < 20; k++ {
		group.Add(2)
		go func() { defer group.Done(); terncommode.Count(ctx, bag, "hops", 3) }()
		go func() { defer group.Done(); terncommode.Add(ctx, made(t, id7)) }()
	}
	group.Wait()
	branch := terncommode.Branch(ctx)
	same(t, terncommode.Count(branch, bag, "hops", 5), nil)
	same(t, terncommode.Count(ctx, bag, "hops", 7), nil)
	same(t, terncommode.Add(ctx, terncommode.From(branch)), nil)
	text, exact, err := bag.Text(terncommode.From(ctx), "hops")
	same(t, []interface{}{text[:3], strings.Count(text, ":"), exact, err}, []interface{}{"72{", 2, true, nil})
	same(t, terncommode.From(ctx).Len() < 9+4+2*15, true)

	same(t, terncommode.Count(ctx, bag, "nope", 1), terncommode.NoField{Line: 1, Path: "nope"})
	err = terncommode.Count(ctx, bag, "tags", 1)
	if refused, isBad := err.(terncommode.BadWrite); !isBad || refused.Path != "tags" {
		t.Errorf("%v", err)
	}
	same(t, terncommode.Count(ctx, bag, "hops", math.MaxUint64) != nil, true)
	same(t, terncommode.Count(ctx, bag, "hops", math.MaxUint64-67), nil)
	text, _, _ = bag.Text(terncommode.From(ctx), "hops")
	same(t, strings.Contains(text, fmt.Sprint(uint64(math.MaxUint64))), true)

	// Where what came is ill typed, counts are held all the same.
	ctx = terncommode.With(context.Background(), made(t, ill))
	same(t, terncommode.Count(ctx, bag, "hops", 1), nil)
	hops, _ := bag.Only("hops")
	text, exact, err = hops.Text(terncommode.From(ctx), "hops")
	same(t, []interface{}{text[:2], exact, err}, []interface{}{"1{", true, nil})
}

// What is counted belongs to a slot, which two tables may name in two ways; one
// name may be that of two slots.
func TestCountsOfTwoTables(t *testing.T) {
	first := terncommode.MustBag("baggage table 1\n0 2 hops counter\n0 3 sub bag\n1 2 hops counter\n0 4 load map bytes greatest uint64\n")
	second := terncommode.MustBag("baggage table 1\n0 2 jumps counter\n0 3 below bag\n1 0 hops scalar bool\n1 2 jumps counter\n1 3 hop counter\n0 5 hops counter\n")
	ctx := terncommode.With(context.Background(), terncommode.Context{})
	for _, each := range []struct {
		bag  terncommode.Bag
		path string
		n    uint64
	}{
		{first, "hops", 2}, {second, "jumps", 3}, {second, "hops", 5}, {first, "hops", 7}, // numbers 2, 2, 5, 2
		{first, "sub.hops", 11}, {second, "below.jumps", 13}, {second, "below.hop", 17}, // numbers 3.2, 3.2, 3.3
	} {
		same(t, terncommode.Count(ctx, each.bag, each.path, each.n), nil)
	}
	// What is refused isn't counted elsewhere: a bag, a scalar, a map of which the write of a count is an entry.
	same(t, terncommode.Count(ctx, first, "sub", 1), terncommode.NoField{Line: 1, Path: "sub"})
	for path, in := range map[string]terncommode.Bag{"below.hops": second, "load": first} {
		err := terncommode.Count(ctx, in, path, 1)
		if refused, isBad := err.(terncommode.BadWrite); !isBad || refused.Path != path {
			t.Errorf("%s: %v", path, err)
		}
	}
	same(t, terncommode.Count(ctx, first, "sub.hops", 0), nil)
	for path, total := range map[string]string{"jumps": "12{", "hops": "5{", "below.jumps": "24{", "below.hop": "17{"} {
		text, exact, err := second.Text(terncommode.From(ctx), path)
		same(t, []interface{}{path, text[:strings.Index(text, "{")+1], exact, err}, []interface{}{path, total, true, nil})
	}
}

func TestTwoReadersOfOneMessage(t *testing.T) {
	a, b := made(t, id7), made(t, "02f801020061")
	outer := terncommode.Arrived(context.Background(), "first", a, true)
	same(t, terncommode.Arrived(outer, "second", b, true), outer)
	same(t, terncommode.From(outer), terncommode.Join(a, b))
	// What is read after it is another message.
	for _, reader := range []string{"first", "second", "third"} {
		same(t, terncommode.From(terncommode.Arrived(outer, reader, b, true)), b)
	}
	outer = terncommode.Arrived(context.Background(), "first", a, true)
	same(t, terncommode.Arrived(outer, "second", terncommode.Lost(), false), outer)
	same(t, terncommode.From(outer), a)
	outer = terncommode.Arrived(context.Background(), "first", a, true)
	same(t, terncommode.From(terncommode.Arrived(outer, "first", b, true)), b)
	same(t, terncommode.From(terncommode.Arrived(terncommode.Branch(outer), "second", b, true)), b)
}

func TestAllThatIsAddedBesideOneAnother(t *testing.T) {
	ctx := terncommode.With(context.Background(), terncommode.Context{})
	var group sync.WaitGroup
	for k := 0; k < 50; k++ {
		group.Add(2)
		go func(k int) {
			defer group.Done()
			c, _ := bag.Update(nil, terncommode.Set("tags", terncommode.Quote(string(rune('A'+k)))))
			terncommode.Add(ctx, c)
		}(k)
		go func(k int) {
			defer group.Done()
			terncommode.Change(ctx, func(c terncommode.Context) (terncommode.Context, error) {
				return bag.Update(list(c), terncommode.Set("tags", terncommode.Quote(string(rune('a'+k)))))
			})
		}(k)
	}
	group.Wait()
	text, exact, err := bag.Text(terncommode.From(ctx), "tags")
	same(t, []interface{}{strings.Count(text, ","), exact, err}, []interface{}{81, true, nil})
}
