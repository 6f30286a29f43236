package frameworks

import (
	"bytes"
	"context"
	"io"
	"math/rand"
	"net"
	"net/http"
	"strings"
	"sync"
	"testing"
	"time"

	"terncommode"
)

// damages change the head of a message. A nil is that nothing of it is handed
// on.
var damages = map[string]func(draw *rand.Rand, head string) []byte{
	"drops the header": func(_ *rand.Rand, head string) []byte { return without(head, "Terncommode") },
	"drops whose":      func(_ *rand.Rand, head string) []byte { return without(head, "Terncommode-For") },
	"blanks the value": onValue(func(_ *rand.Rand, value string) string { return "" }),
	"cuts the value":   onValue(func(draw *rand.Rand, value string) string { return value[:draw.Intn(len(value))] }),
	"cuts its front":   onValue(func(draw *rand.Rand, value string) string { return value[1+draw.Intn(len(value)):] }),
	"changes a letter": onValue(func(draw *rand.Rand, value string) string {
		k := draw.Intn(len(value))
		return value[:k] + string("Ax0-_.,; "[draw.Intn(9)]) + value[k+1:]
	}),
	"doubles the value": onValue(func(_ *rand.Rand, value string) string { return value + "," + value }),
	"doubles the line":  onValue(func(_ *rand.Rand, value string) string { return value + "\r\nTerncommode: " + value }),
	"adds one that is cut": onValue(func(draw *rand.Rand, value string) string {
		return value + "\r\nterncommode: " + value[:draw.Intn(len(value))]
	}),
	"adds a blank": onValue(func(_ *rand.Rand, value string) string { return value + "," }),
	"lower case": func(_ *rand.Rand, head string) []byte {
		return []byte(strings.Replace(head, "Terncommode:", "terncommode:", 1))
	},
	"blanks around":      onValue(func(_ *rand.Rand, value string) string { return " \t" + value + " \t" }),
	"folds the line":     onValue(func(_ *rand.Rand, value string) string { return value[:5] + "\r\n " + value[5:] }),
	"a null byte":        onValue(func(_ *rand.Rand, value string) string { return value[:5] + "\x00" + value[5:] }),
	"lower case letters": onValue(func(_ *rand.Rand, value string) string { return strings.ToLower(value) }),
	"percent":            onValue(func(_ *rand.Rand, value string) string { return strings.ReplaceAll(value, ".", "%2E") }),
	"quotes":             onValue(func(_ *rand.Rand, value string) string { return `"` + value + `"` }),
	"a hundred lines more": func(_ *rand.Rand, head string) []byte {
		return []byte(strings.Replace(head, "\r\n", "\r\n"+strings.Repeat("X: y\r\n", 150), 1))
	},
	"nothing of it": func(_ *rand.Rand, head string) []byte { return nil },
	"half of it":    func(draw *rand.Rand, head string) []byte { return []byte(head[:1+draw.Intn(len(head)-3)]) },
	"garbage":       func(_ *rand.Rand, head string) []byte { return []byte("\x16\x03\x01\r\n\r\n") },
	// As a cache gives one request the reply to another.
	"another's": func(draw *rand.Rand, head string) []byte {
		c, err := bag.Update(nil, terncommode.Set("tags", `"another"`))
		if err != nil {
			panic(err)
		}
		head = string(without(head, "Terncommode-For"))
		changed := onValue(func(*rand.Rand, string) string { return terncommode.ToHeader(c) })(draw, head)
		return bytes.Replace(changed, []byte("\r\n"), []byte("\r\nTerncommode-For: BBBBBB\r\n"), 1)
	},
}

func onValue(change func(draw *rand.Rand, value string) string) func(*rand.Rand, string) []byte {
	const name = "\r\nTerncommode: "
	return func(draw *rand.Rand, head string) []byte {
		at := strings.Index(head, name)
		if at < 0 {
			return []byte(head)
		}
		at += len(name)
		end := at + strings.Index(head[at:], "\r\n")
		if end == at {
			return []byte(head)
		}
		return []byte(head[:at] + change(draw, head[at:end]) + head[end:])
	}
}

func without(head, name string) []byte {
	lines := strings.Split(head, "\r\n")
	kept := lines[:0]
	for _, line := range lines {
		if !strings.HasPrefix(line, name+":") {
			kept = append(kept, line)
		}
	}
	return []byte(strings.Join(kept, "\r\n"))
}

// A relay stands before a service and damages one of its next messages.
type relay struct {
	mutex     sync.Mutex
	draw      *rand.Rand
	damage    func(*rand.Rand, string) []byte // of the next message; nil for none
	onReply   bool
	swallowed bool // nothing of the reply was handed on
}

// next takes the damage of a direction.
func (r *relay) next(isReply bool) func(*rand.Rand, string) []byte {
	r.mutex.Lock()
	defer r.mutex.Unlock()
	damage := r.damage
	if damage == nil || r.onReply != isReply {
		return nil
	}
	r.damage = nil
	return damage
}

func (r *relay) hand(from, to net.Conn, isReply bool) bool {
	var head []byte
	buffer := make([]byte, 1)
	for !bytes.HasSuffix(head, []byte("\r\n\r\n")) {
		if _, err := from.Read(buffer); err != nil {
			break
		}
		head = append(head, buffer[0])
	}
	if damage := r.next(isReply); damage != nil && len(head) > 3 {
		changed := damage(r.draw, string(head))
		r.swallowed = changed == nil && isReply
		isWhole := bytes.HasSuffix(changed, []byte("\r\n\r\n"))
		head = changed
		if !isWhole {
			to.Write(head)
			return false
		}
	}
	to.Write(head)
	return true
}

// serve hands connections on, each for one message and its reply.
func (r *relay) serve(t *testing.T, to string) string {
	listener, err := net.Listen("tcp", "127.0.0.1:0")
	if err != nil {
		t.Fatal(err)
	}
	t.Cleanup(func() { listener.Close() })
	go func() {
		for {
			conn, err := listener.Accept()
			if err != nil {
				return
			}
			go func() {
				defer conn.Close()
				below, err := net.DialTimeout("tcp", strings.TrimPrefix(to, "http://"), time.Second)
				if err != nil {
					return
				}
				defer below.Close()
				if r.hand(conn, below, false) && r.hand(below, conn, true) {
					io.Copy(conn, below)
				}
			}()
		}
	}()
	return "http://" + listener.Addr().String()
}

// A client asks a gateway, which asks two others. One message of the six is
// damaged in some way. What the client reads as exact is all that was written,
// but for replies of which no byte came.
func TestDamagedMessages(t *testing.T) {
	m := &mesh{T: t, base: &http.Transport{DisableKeepAlives: true}, said: map[string]bool{}}
	draw := rand.New(rand.NewSource(1))
	relays := map[string]*relay{}
	named := func(name, url string) string {
		relays[name] = &relay{draw: rand.New(rand.NewSource(2))}
		return relays[name].serve(t, url)
	}
	left, right := named("left", m.leaf("left")), named("right", m.leaf("right"))
	gateway := named("gateway", m.service(func(w http.ResponseWriter, r *http.Request) {
		group(func() { m.get(r.Context(), left) }, func() { m.get(r.Context(), right) })
		m.say(r.Context(), "gateway")
	}))
	rounds, exact, partial := 6, 0, 0
	if isQuick {
		rounds = 1
	}
	for round := 0; round < rounds; round++ {
		for name, damage := range damages {
			for where, relay := range relays {
				for _, onReply := range []bool{false, true} {
					if isQuick && draw.Intn(3) > 0 {
						continue
					}
					relay.damage, relay.onReply, relay.swallowed = damage, onReply, false
					m.said = map[string]bool{}
					ctx, cancel := context.WithTimeout(begun(), 5*time.Second)
					m.get(ctx, gateway)
					cancel()
					found, isExact := tags(terncommode.From(ctx))
					relay.damage = nil
					if !isExact {
						partial++
						continue
					}
					exact++
					if wanted := m.heard(where, relay.swallowed); found != wanted {
						t.Errorf("%s at %s, on the reply %v: %q is exact, and %q was written", name, where, onReply, found, wanted)
					}
				}
			}
		}
	}
	if exact == 0 || partial == 0 {
		t.Errorf("%d exact, %d partial", exact, partial)
	}
	t.Logf("%d exact, %d partial", exact, partial)
}

// heard are the tags that were written and of whose replies a byte came.
func (m *mesh) heard(where string, isSwallowed bool) string {
	said := m.said
	if isSwallowed {
		delete(said, where)
	}
	if isSwallowed && where == "gateway" {
		said = nil
	}
	var found []string
	for _, tag := range []string{"gateway", "left", "right"} {
		if said[tag] {
			found = append(found, tag)
		}
	}
	return strings.Join(found, ",")
}
