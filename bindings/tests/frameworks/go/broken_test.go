package frameworks

import (
	"bufio"
	"context"
	"io"
	"net"
	"net/http"
	"strings"
	"testing"
	"time"

	"terncommode"
)

// A brokenReply is what a server of its own does with a connection, once it has
// read the request and made the lines of a good reply with the tag "there".
type brokenReply func(conn *net.TCPConn, good []string)

func send(parts ...string) brokenReply {
	return func(conn *net.TCPConn, good []string) {
		for _, part := range parts {
			part = strings.Replace(part, "GOOD", strings.Join(good, "\r\n"), 1)
			io.WriteString(conn, strings.Replace(part, "HALF", strings.Join(good, "\r\n")[:40], 1))
		}
	}
}

func andThen(first brokenReply, second func(conn *net.TCPConn)) brokenReply {
	return func(conn *net.TCPConn, good []string) {
		first(conn, good)
		second(conn)
	}
}

func reset(conn *net.TCPConn)  { conn.SetLinger(0) }
func silent(conn *net.TCPConn) { io.Copy(io.Discard, conn) }

// brokenServer answers each connection so, and gives its address.
func brokenServer(t *testing.T, reply brokenReply) string {
	listener, err := net.Listen("tcp", "127.0.0.1:0")
	if err != nil {
		t.Fatal(err)
	}
	t.Cleanup(func() { listener.Close() })
	go func() {
		for {
			conn, err := listener.Accept()
			if err != nil {
				return
			}
			go func() {
				defer conn.Close()
				request, err := http.ReadRequest(bufio.NewReader(conn))
				if err == nil {
					reply(conn.(*net.TCPConn), goodLines(request))
				}
			}()
		}
	}()
	return "http://" + listener.Addr().String()
}

func goodLines(request *http.Request) []string {
	c, err := bag.Update([]terncommode.Context{terncommode.Extract(request.Header, terncommode.Lost())}, terncommode.Set("tags", `"there"`))
	if err != nil {
		panic(err)
	}
	value := request.Header.Get("Terncommode")
	return []string{"HTTP/1.1 200 OK", "Terncommode: " + terncommode.ToHeader(c), "Terncommode-For: " + value[strings.Index(value, ".")+1:], "Content-Length: 4", "", "done"}
}

// patience is how long a client waits for a reply.
func patience(name string) time.Duration {
	if strings.Contains(name, "silent") {
		return 700 * time.Millisecond
	}
	return 20 * time.Second
}

// The ways in which a reply breaks, and what its caller reads then.
func TestBrokenReplies(t *testing.T) {
	const heard, lost, never = "exact here there", "partial here", "exact here"
	for name, row := range map[string]struct {
		reply  brokenReply
		wanted string
	}{
		"whole":                       {send("GOOD"), heard},
		"closed before a byte":        {send(), never},
		"reset before a byte":         {andThen(send(), reset), never},
		"silent":                      {andThen(send(), silent), never},
		"half a head, closed":         {send("HALF"), lost},
		"half a head, reset":          {andThen(send("HALF"), func(conn *net.TCPConn) { time.Sleep(50 * time.Millisecond); reset(conn) }), lost},
		"half a head, silent":         {andThen(send("HALF"), silent), lost},
		"one byte":                    {send("H"), lost},
		"garbage":                     {send("garbage\r\n\r\nGOOD"), lost},
		"two heads":                   {send("HTTP/1.1 103 Early Hints\r\n\r\nGOOD"), heard},
		"early hints alone":           {send("HTTP/1.1 103 Early Hints\r\n\r\n"), lost},
		"two hundred lines":           {send("HTTP/1.1 200 OK\r\n", strings.Repeat("X: y\r\n", 200), "Content-Length: 0\r\n\r\n"), lost},
		"a line of 70,000":            {send("HTTP/1.1 200 OK\r\nX: ", strings.Repeat("x", 70_000), "\r\nContent-Length: 0\r\n\r\n"), lost},
		"a head of 12 MB":             {send("HTTP/1.1 200 OK\r\n", strings.Repeat("X: "+strings.Repeat("y", 1000)+"\r\n", 12_000), "\r\n"), lost},
		"a folded line":               {send("HTTP/1.1 200 OK\r\nTerncommode: AA\r\n BB\r\nContent-Length: 0\r\n\r\n"), lost},
		"a null byte":                 {send("HTTP/1.1 200 OK\r\nTerncommode: A\x00A\r\nContent-Length: 0\r\n\r\n"), lost},
		"no body":                     {func(conn *net.TCPConn, good []string) { send(strings.Join(good[:5], "\r\n")+"\r\n")(conn, good) }, heard},
		"a bad gateway without":       {send("HTTP/1.1 502 Bad Gateway\r\nContent-Length: 0\r\n\r\n"), lost},
		"without the header":          {send("HTTP/1.1 200 OK\r\nContent-Length: 0\r\n\r\n"), lost},
		"with another request's":      {func(conn *net.TCPConn, good []string) { good[2] = "Terncommode-For: AAAAAA"; send("GOOD")(conn, good) }, lost},
		"without whose it is":         {func(conn *net.TCPConn, good []string) { good[2] = "X: y"; send("GOOD")(conn, good) }, lost},
		"with a cut header":           {func(conn *net.TCPConn, good []string) { good[1] = good[1][:len(good[1])-9]; send("GOOD")(conn, good) }, lost},
		"with a header twice":         {func(conn *net.TCPConn, good []string) { good[3] = good[1] + "\r\n" + good[3]; send("GOOD")(conn, good) }, heard},
		"with a second that is blank": {func(conn *net.TCPConn, good []string) { good[1] += ","; send("GOOD")(conn, good) }, "partial here there"},
	} {
		row := row
		t.Run(name, func(t *testing.T) {
			t.Parallel()
			m := &mesh{T: t, said: map[string]bool{}}
			base := http.DefaultTransport.(*http.Transport).Clone()
			defer base.CloseIdleConnections()
			url := brokenServer(t, row.reply)
			ctx := begun()
			must(t, m.say(ctx, "here"))
			limited, cancel := context.WithTimeout(ctx, patience(name))
			defer cancel()
			ask(limited, &http.Client{Transport: terncommode.Transport{Base: base, Hosts: terncommode.Hosts("127.0.0.1")}}, url)
			m.reads(terncommode.From(ctx), row.wanted)
			if row.wanted == never {
				ctx := begun()
				must(t, m.say(ctx, "here"))
				limited, cancel := context.WithTimeout(ctx, patience(name))
				defer cancel()
				ask(limited, &http.Client{Transport: terncommode.Transport{Base: base, Hosts: terncommode.Hosts("127.0.0.1"), OnFailure: terncommode.FailureIsLost}}, url)
				m.reads(terncommode.From(ctx), lost)
			}
		})
	}
}
