// The cart of the shop knows the tags and the hops. It asks the stock over gRPC
// where it is built with the tag grpc and is told where the stock is.
//
//	cart [STOCK]     serves on a free port, which it prints; STOCK is a port
//
// TABLE names the file of the table, and RECORDING the folder for the log;
// without it nothing is recorded. WAIT_SECONDS says how long a peer is waited
// for, 10 where it isn't set.
package main

import (
	"fmt"
	"log"
	"net"
	"net/http"
	"os"
	"strconv"
	"strings"
	"time"

	"terncommode"
)

const (
	linesMax    = 100
	headMax     = 64 << 10
	slackOfHead = 4 << 10 // what net/http reads beyond its limit
	atOnce      = 64
)

// A stock takes a step to another service, and gives what comes back; nothing
// where no reply comes.
type stock interface {
	reserve(r *recorder, s step) (back step, came bool, err error)
}

type cart struct {
	*recorder
	stock stock         // nil where there is none
	slots chan struct{} // how many requests are served at once
}

func (c cart) ServeHTTP(w http.ResponseWriter, request *http.Request) {
	if linesOf(request.Header) > linesMax {
		http.Error(w, "too many lines", http.StatusRequestHeaderFieldsTooLarge)
		return
	}
	c.slots <- struct{}{}
	defer func() { <-c.slots }()
	last, err := c.serve(request)
	if err != nil {
		http.Error(w, err.Error(), http.StatusInternalServerError)
		return
	}
	reply := w.Header()
	terncommode.Inject(reply, last.c)
	reply.Set("Cache-Control", `no-cache="terncommode"`)
	if check := checkOf(request.Header.Get(terncommode.Header)); check != "" {
		reply.Set(terncommode.ForHeader, check)
	}
	if last.name != "" {
		reply.Set(stepHeader, named(last.name))
	}
}

func (c cart) serve(request *http.Request) (step, error) {
	values := strings.Split(strings.Join(request.Header.Values(terncommode.Header), ","), ",")
	s, err := c.receive(terncommode.Extract(request.Header, terncommode.Lost()), values, senderOf(request.Header.Values(stepHeader)))
	if err != nil {
		return s, err
	}
	if s, err = c.set(s, "tags", terncommode.Quote("coupon")); err != nil {
		return s, err
	}
	if s, err = c.set(s, "hops", newWriter()+":3"); err != nil {
		return s, err
	}
	if s, err = c.withStock(s); err != nil {
		return s, err
	}
	return c.cut(s, terncommode.ReplyBudget), nil
}

// withStock is the merge of the step and of what the stock says, if that is
// there.
func (c cart) withStock(s step) (step, error) {
	if c.stock == nil {
		return s, nil
	}
	back, came, err := c.stock.reserve(c.recorder, c.cut(s, terncommode.GRPCBudget))
	if err != nil || !came {
		return s, err
	}
	return c.join(s, back)
}

func linesOf(header http.Header) int {
	lines := 1 // that of the host is no more among them
	for _, values := range header {
		lines += len(values)
	}
	return lines
}

// checkOf is the check in the first part of a context's text, if it has one.
func checkOf(value string) string {
	part := strings.Trim(strings.SplitN(value, ",", 2)[0], " \t")
	dot := strings.LastIndexByte(part, '.')
	if dot < 0 || len(part)-dot-1 != 6 {
		return ""
	}
	return part[dot+1:]
}

// wait is for how long a peer is waited for.
func wait() time.Duration {
	if seconds, err := strconv.Atoi(os.Getenv("WAIT_SECONDS")); err == nil && seconds > 0 {
		return time.Duration(seconds) * time.Second
	}
	return 10 * time.Second
}

func main() {
	table, err := os.ReadFile(os.Getenv("TABLE"))
	if err != nil {
		log.Fatal(err)
	}
	knows, err := terncommode.MustBag(string(table)).Only("tags", "hops")
	if err != nil {
		log.Fatal(err)
	}
	shop := cart{recorder: newRecorder("cart", knows), slots: make(chan struct{}, atOnce)}
	if len(os.Args) > 1 {
		if shop.stock, err = dial(os.Args[1]); err != nil {
			log.Fatal(err)
		}
	}
	listener, err := net.Listen("tcp", "127.0.0.1:0")
	if err != nil {
		log.Fatal(err)
	}
	fmt.Println(listener.Addr().(*net.TCPAddr).Port)
	// Where no descriptor is left, Serve accepts again a little later.
	server := http.Server{
		Handler: shop, MaxHeaderBytes: headMax - slackOfHead,
		ReadTimeout: wait(), WriteTimeout: 3 * wait(), IdleTimeout: wait(),
	}
	log.Fatal(server.Serve(listener))
}
