package terncommode

import (
	"context"
	"crypto/rand"
	"errors"
	"fmt"
	"math"
	"sync"
)

var (
	// ErrNoContext is that no request runs here: a context.Context carries no
	// context of baggage, and what was to be added is held nowhere.
	ErrNoContext = errors.New("terncommode: no request runs here: its context.Context carries no context of baggage")

	// ErrLate is that the reply of this request has been sent, so its caller
	// doesn't hear of what was added. It is held all the same, and goes on with
	// calls that are sent later.
	ErrLate = errors.New("terncommode: the reply has been sent without what was added")
)

type key struct{}

// A request is one visit of a service, for all that run beside one another in it.
type request struct {
	mutex  sync.Mutex
	held   Context           // what was said here, and what came
	open   int               // replies that have begun and haven't come
	writer []byte            // of counts; nil before the first
	totals map[string]uint64 // by the numbers of the counter
	ended  bool
	late   int
	reader string // who began it, as long as another may read the same message
}

func requestIn(ctx context.Context) *request {
	found, _ := ctx.Value(key{}).(*request)
	return found
}

// With begins a request: a context.Context that holds a context of baggage.
// What is added to it isn't added to the one that ctx holds.
func With(ctx context.Context, c Context) context.Context {
	return context.WithValue(ctx, key{}, &request{held: c.closed()})
}

// Arrived begins a request with what a reader of its message found: c is absent
// where nothing was found. Handler, grpcbag and otelbag are such readers. Where
// two of different names read one message, one inside the other, they share the
// request that the first began, and what the second found is joined to it.
func Arrived(ctx context.Context, reader string, c Context, isFound bool) context.Context {
	if r := requestIn(ctx); r != nil && r.meets(reader, c, isFound) {
		return ctx
	}
	ctx = With(ctx, c)
	requestIn(ctx).reader = reader
	return ctx
}

// meets is whether the message of this request is still to be read by another
// reader, which then adds what it found.
func (r *request) meets(reader string, c Context, isFound bool) bool {
	r.mutex.Lock()
	defer r.mutex.Unlock()
	if r.reader == "" || r.reader == reader {
		return false
	}
	r.reader = ""
	if isFound {
		r.held = Join(r.held, c.closed())
	}
	return true
}

// Branch begins a request with what ctx holds now. What is added to the branch
// comes back only where somebody adds it: Add(ctx, From(branch)). It counts
// under a writer of its own. Goroutines need no branch.
func Branch(ctx context.Context) context.Context {
	return With(ctx, From(ctx))
}

// From is the context that ctx holds now, which is what is sent with each call.
// It is joined with Lost while a reply has begun and hasn't come, and Lost where
// no request runs.
func From(ctx context.Context) Context {
	r := requestIn(ctx)
	if r == nil {
		return Lost()
	}
	r.mutex.Lock()
	defer r.mutex.Unlock()
	return r.seen().closed()
}

// Add joins a context to the one that ctx holds. In which order they are added
// doesn't matter. The error is ErrNoContext or ErrLate.
func Add(ctx context.Context, c Context) error {
	r := requestIn(ctx)
	if r == nil {
		return ErrNoContext
	}
	r.mutex.Lock()
	defer r.mutex.Unlock()
	r.held = Join(r.held, c.closed())
	return r.told()
}

// Change puts what step makes of the context that ctx holds in its place, unless
// step fails. Step may take its time and may come back to ctx: nothing is locked
// meanwhile. Where others added in the meantime, its result is joined to theirs.
// The error is that of step, ErrNoContext, or ErrLate.
//
//	err := terncommode.Change(ctx, func(c terncommode.Context) (terncommode.Context, error) {
//		return bag.Update([]terncommode.Context{c}, terncommode.Set("debug", "on"))
//	})
func Change(ctx context.Context, step func(Context) (Context, error)) error {
	r := requestIn(ctx)
	if r == nil {
		return ErrNoContext
	}
	r.mutex.Lock()
	before, seen := r.held, r.seen()
	r.mutex.Unlock()
	after, err := step(seen)
	if err != nil {
		return err
	}
	// Whether a reply is open is the request's to say, and not the result's.
	after.open = false
	r.mutex.Lock()
	defer r.mutex.Unlock()
	if r.held == before {
		r.held = after
	} else {
		r.held = Join(r.held, after)
	}
	return r.told()
}

// Count adds n to the counter at a path of the bag, under a writer that this
// request alone has: eight random bytes. A visit takes 13 to 15 bytes of the
// context, however often it counts. The error is a NoField, a BadWrite,
// ErrNoContext or ErrLate; it is another one where the sum passes 2^64 - 1.
func Count(ctx context.Context, bag Bag, path string, n uint64) error {
	r := requestIn(ctx)
	if r == nil {
		return ErrNoContext
	}
	r.mutex.Lock()
	defer r.mutex.Unlock()
	if err := r.count(bag, path, n); err != nil {
		return err
	}
	return r.told()
}

// End ends the request, and is what goes back to its caller. A reply that has
// begun and hasn't come is lost in it. Handler and grpcbag call it where the
// head of a reply, or its trailer, is written. Without a request it is Lost.
func End(ctx context.Context) Context {
	r := requestIn(ctx)
	if r == nil {
		return Lost()
	}
	r.mutex.Lock()
	defer r.mutex.Unlock()
	r.ended = true
	return r.seen().closed()
}

// Late is how many calls have added something after the end of the request.
func Late(ctx context.Context) int {
	r := requestIn(ctx)
	if r == nil {
		return 0
	}
	r.mutex.Lock()
	defer r.mutex.Unlock()
	return r.late
}

// seen is what a reader of the request sees.
func (r *request) seen() Context {
	c := r.held
	c.open = r.open > 0
	return c
}

// told is whether the caller hears of what was added.
func (r *request) told() error {
	if r.ended {
		r.late++
		return ErrLate
	}
	return nil
}

// count keeps totals by the numbers on the way to a counter: they are all that is
// sent of its name, which may be another one in another table.
func (r *request) count(bag Bag, path string, n uint64) error {
	if r.writer == nil {
		r.writer, r.totals = make([]byte, 8), map[string]uint64{}
		if _, err := rand.Read(r.writer); err != nil {
			panic(fmt.Sprintf("terncommode: the system has no random bytes: %v", err))
		}
	}
	numbers, shape := numbersOf(bag.Table(), path)
	if n > math.MaxUint64-r.totals[numbers] {
		return fmt.Errorf("terncommode: the count of %q passes 2^64 - 1", path)
	}
	total := r.totals[numbers] + n
	write := Set(path, fmt.Sprintf("%s:%d", Hex(r.writer), total))
	said, err := bag.Update(nil, write)
	if err == nil && shape != "counter" { // a map may take the text as that of an entry
		err = BadWrite{Line: 1, Path: path, Text: write.Text, Shape: shape}
	}
	if err != nil {
		return err
	}
	r.totals[numbers] = total
	if updated, err := bag.Update([]Context{r.held}, write); err == nil {
		r.held = updated
	} else { // what came is ill typed
		r.held = Join(r.held, said)
	}
	return nil
}

// A Reply is one that a request awaits.
type Reply struct {
	request *request // nil where none runs
	begun   bool
	settled bool
}

// Expect says that a reply is awaited, where a client isn't one of this package:
//
//	reply := terncommode.Expect(ctx)
//	defer reply.Failed()
//	...
//	reply.Began() // with the first message of a stream, or before Failed where a byte came
//	...
//	err := reply.Came(c)
func Expect(ctx context.Context) *Reply {
	return &Reply{request: requestIn(ctx)}
}

// Began says that something of the reply is here, and may be said again. From
// now on the request is joined with Lost, also in what it sends.
func (r *Reply) Began() {
	if r.request == nil {
		return
	}
	r.request.mutex.Lock()
	defer r.request.mutex.Unlock()
	if !r.begun && !r.settled {
		r.begun = true
		r.request.open++
	}
}

// Came says that the context of the reply is here: it takes the place of Lost.
// The error is ErrNoContext or ErrLate, as that of Add.
func (r *Reply) Came(c Context) error {
	if r.request == nil {
		return ErrNoContext
	}
	r.request.mutex.Lock()
	defer r.request.mutex.Unlock()
	r.settle(c.closed())
	return r.request.told()
}

// Failed says that the reply won't come. If it has begun, the request stays
// joined with Lost, and else nothing is added. After Came it does nothing.
func (r *Reply) Failed() {
	if r.request == nil {
		return
	}
	r.request.mutex.Lock()
	defer r.request.mutex.Unlock()
	if r.settled {
		return
	}
	if r.begun {
		r.settle(Lost())
	}
	r.settled = true
}

func (r *Reply) settle(c Context) {
	if r.begun && !r.settled {
		r.request.open--
	}
	r.settled = true
	r.request.held = Join(r.request.held, c)
}
