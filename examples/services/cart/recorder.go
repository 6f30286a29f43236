package main

import (
	"crypto/rand"
	"encoding/hex"
	"errors"
	"fmt"
	"hash/fnv"
	"io"
	"log"
	"os"
	"regexp"
	"strings"
	"sync"
	"sync/atomic"

	"terncommode"
)

// stepHeader names the step whose context a message carries: NAME:CHECK, so that
// a name which was cut or changed on the way names no step.
const stepHeader = "Terncommode-Step"

var stepName = regexp.MustCompile(`^[A-Za-z0-9_.-]{1,63}$`)

// A step is a context, and the name of the step that made it; the name is empty
// where nothing is recorded.
type step struct {
	name string
	c    terncommode.Context
}

// A recorder does a service's steps, and records each by one write to a file
// that only grows.
type recorder struct {
	instance string
	bag      terncommode.Bag
	count    uint64
	lock     sync.Mutex
	file     *os.File // nil where nothing is recorded
}

// newRecorder names an instance: eight letters that nobody can foretell follow
// the service's name, so no stranger names a step to come. The log is for its
// owner alone: it has contexts whole.
func newRecorder(service string, bag terncommode.Bag) *recorder {
	r := &recorder{instance: service + "-" + drawn(4), bag: bag}
	folder := os.Getenv("RECORDING")
	if folder == "" {
		return r
	}
	file, err := os.OpenFile(folder+"/"+r.instance+".log", os.O_WRONLY|os.O_APPEND|os.O_CREATE, 0o600)
	if err != nil {
		log.Printf("nothing is recorded: %v", err)
		return r
	}
	r.file = file
	return r
}

// drawn is so many random bytes, in digits.
func drawn(size int) string {
	random := make([]byte, size)
	if _, err := rand.Read(random); err != nil {
		log.Fatal(err)
	}
	return hex.EncodeToString(random)
}

// newWriter is the writer of one visit's counts, which no two visits share.
func newWriter() string {
	return "0x" + drawn(8)
}

// named is what a message says of the step whose context it carries.
func named(name string) string {
	sum := fnv.New32a()
	_, _ = io.WriteString(sum, name)
	return fmt.Sprintf("%s:%08x", name, sum.Sum32())
}

// senderOf is the step that a message names; "" where it names none.
func senderOf(values []string) string {
	if len(values) != 1 {
		return ""
	}
	name, _, _ := strings.Cut(values[0], ":")
	if !stepName.MatchString(name) || named(name) != values[0] {
		return ""
	}
	return name
}

// receive takes a message that came with this context, which these values say.
// Where it names no step, or hasn't one context that can be read, it is recorded
// as one from outside.
func (r *recorder) receive(c terncommode.Context, values []string, sender string) (step, error) {
	act := "forward"
	if sender == "" || len(values) != 1 || c == terncommode.Lost() {
		act = "recv"
	}
	if sender == "" {
		sender = "-"
	}
	here, err := r.update([]terncommode.Context{c})
	if err != nil {
		return step{}, err
	}
	return r.record(act, sender, digits(c), here), nil
}

// set writes a text to a field.
func (r *recorder) set(s step, path, text string) (step, error) {
	c, err := r.update([]terncommode.Context{s.c}, terncommode.Set(path, text))
	if err != nil {
		return step{}, err
	}
	return r.record("set", s.name, path+" "+text, c), nil
}

// join merges what came together here.
func (r *recorder) join(steps ...step) (step, error) {
	var names []string
	var contexts []terncommode.Context
	for _, s := range steps {
		names, contexts = append(names, s.name), append(contexts, s.c)
	}
	c, err := r.update(contexts)
	if err != nil {
		return step{}, err
	}
	return r.record("join", strings.Join(names, " "), "-", c), nil
}

// cut is what is sent over a channel with a budget: the step itself where it
// fits.
func (r *recorder) cut(s step, budget uint64) step {
	if uint64(s.c.Len()) <= budget {
		return s
	}
	return r.record("trim", s.name, fmt.Sprint(budget), s.c.Cut(budget))
}

// update is a step of the bag. What isn't typed as the table says stays as it
// is, as at a service that doesn't know the field, beside what is written here.
func (r *recorder) update(contexts []terncommode.Context, writes ...terncommode.Write) (terncommode.Context, error) {
	c, err := r.bag.Update(contexts, writes...)
	if illTyped := (terncommode.IllTyped{}); !errors.As(err, &illTyped) {
		return c, err
	}
	own, err := r.bag.Update(nil, writes...)
	return terncommode.Join(append(contexts, own)...), err
}

func (r *recorder) record(act, parents, rest string, c terncommode.Context) step {
	name := fmt.Sprintf("%s.%d", r.instance, atomic.AddUint64(&r.count, 1))
	if !r.append(fmt.Sprintf("%s\t%s\t%s\t%s\t%s\n", name, act, parents, rest, digits(c))) {
		name = ""
	}
	return step{name, c}
}

// append says whether the line is recorded. One that can't be written whole is
// the last one: the service goes on without its log.
func (r *recorder) append(line string) bool {
	r.lock.Lock()
	defer r.lock.Unlock()
	if r.file == nil {
		return false
	}
	_, err := r.file.WriteString(line)
	if err == nil {
		return true
	}
	log.Printf("the log can't be written, and nothing more is recorded: %v", err)
	_ = r.file.Close()
	r.file = nil
	return false
}

func digits(c terncommode.Context) string {
	if c.Len() == 0 {
		return "-"
	}
	return hex.EncodeToString(c.Bytes())
}
