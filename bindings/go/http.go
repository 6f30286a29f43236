package terncommode

import (
	"bufio"
	"io"
	"net"
	"net/http"
)

// handlerReader is the name of Handler and Edge as readers.
const handlerReader = "terncommode.Handler"

// Handler gives next the context of each request in the request's
// context.Context, and sends back on the reply what that holds when the reply's
// head is written, cut to ReplyBudget. Absent is the context of a request
// without one: Context{} where requests begin, and Lost() after services that
// send one. It trusts who asks; Edge is for requests from outside.
//
// The head is written with the first byte of the reply, or by WriteHeader. What
// is added after that is late: Add, Change and Count say so.
//
// The header is taken out of the request, so that next doesn't hand it on as it
// came. A reply that already has the header, from a service that was asked by
// other means than Transport, counts as lost. The reply's Cache-Control gets the
// directive no-cache="terncommode", so that no cache gives the context of one
// request to another.
func Handler(next http.Handler, absent Context) http.Handler {
	return http.HandlerFunc(func(w http.ResponseWriter, r *http.Request) {
		ctx := Arrived(r.Context(), handlerReader, Extract(r.Header, absent), len(r.Header.Values(Header)) > 0)
		inside := r.WithContext(ctx)
		inside.Header = r.Header.Clone()
		inside.Header.Del(Header)
		serve(next, w, inside, func(head http.Header) {
			c := End(ctx)
			if len(head.Values(Header)) > 0 {
				c = Join(c, Lost())
			}
			InjectReply(head, r.Header, c.Cut(ReplyBudget))
		})
	})
}

// Edge is Handler for requests from outside, where anybody may write any field
// of a header: each request begins with the empty context, and no context is sent
// back. What the request carries is taken out of it: the headers Terncommode and
// Terncommode-Bin, and the member of the header baggage. So next can't hand it
// on, whatever it is.
func Edge(next http.Handler) http.Handler {
	return EdgeWith(next, func(http.Header) Context { return Context{} })
}

// EdgeWith is Edge where a request begins with what begin makes of its headers,
// as they came. Ingress is for what strangers may say.
//
//	terncommode.EdgeWith(next, func(h http.Header) terncommode.Context {
//		return terncommode.Ingress(h.Values(terncommode.Header), public, terncommode.Limits{})
//	})
func EdgeWith(next http.Handler, begin func(http.Header) Context) http.Handler {
	return http.HandlerFunc(func(w http.ResponseWriter, r *http.Request) {
		ctx := Arrived(With(r.Context(), Context{}), handlerReader, begin(r.Header), true)
		inside := r.WithContext(ctx)
		inside.Header = r.Header.Clone()
		takeOut(inside.Header)
		serve(next, w, inside, func(head http.Header) {
			End(ctx)
			takeOut(head)
		})
	})
}

// serve calls next, and begin with the headers of the reply before its head is
// written.
func serve(next http.Handler, w http.ResponseWriter, r *http.Request, begin func(http.Header)) {
	reply := &replyWriter{ResponseWriter: w, begin: begin}
	next.ServeHTTP(reply.asItWas(), r)
	reply.begins()
}

// A replyWriter is told when the head of the reply is written.
type replyWriter struct {
	http.ResponseWriter
	begin   func(http.Header)
	isBegun bool
}

func (w *replyWriter) begins() {
	if !w.isBegun {
		w.isBegun = true
		w.begin(w.Header())
	}
}

func (w *replyWriter) WriteHeader(status int) {
	if status >= 200 || status == http.StatusSwitchingProtocols {
		w.begins()
	}
	w.ResponseWriter.WriteHeader(status)
}

func (w *replyWriter) Write(data []byte) (int, error) {
	w.begins()
	return w.ResponseWriter.Write(data)
}

// firstPart is how many bytes ReadFrom hands to Write.
const firstPart = 512

// ReadFrom is called by io.Copy. The first part goes through Write, so the
// header says what was added while it was read; the writer below takes the rest,
// of a file by sendfile.
func (w *replyWriter) ReadFrom(source io.Reader) (int64, error) {
	first, err := io.Copy(struct{ io.Writer }{w}, io.LimitReader(source, firstPart))
	if err != nil || first < firstPart {
		return first, err
	}
	rest, err := io.Copy(w.ResponseWriter, source)
	return first + rest, err
}

// Unwrap is for http.ResponseController.
func (w *replyWriter) Unwrap() http.ResponseWriter {
	return w.ResponseWriter
}

// asItWas is the writer with those of the calls of http.Flusher, http.Hijacker
// and http.Pusher that the one below it has, and with that of io.ReaderFrom in
// any case. Others aren't handed on, as those of io.StringWriter and of
// http.CloseNotifier.
func (w *replyWriter) asItWas() http.ResponseWriter {
	if _, flushes := w.ResponseWriter.(http.Flusher); flushes {
		return flushing{w}.asItWas()
	}
	_, hijacks := w.ResponseWriter.(http.Hijacker)
	pusher, pushes := w.ResponseWriter.(http.Pusher)
	switch {
	case hijacks && pushes:
		return struct {
			*replyWriter
			http.Hijacker
			http.Pusher
		}{w, hijacking{w}, pusher}
	case hijacks:
		return struct {
			*replyWriter
			http.Hijacker
		}{w, hijacking{w}}
	case pushes:
		return struct {
			*replyWriter
			http.Pusher
		}{w, pusher}
	}
	return w
}

type flushing struct{ *replyWriter }

func (w flushing) Flush() {
	w.begins()
	w.ResponseWriter.(http.Flusher).Flush()
}

// asItWas is that of a writer that can be flushed.
func (w flushing) asItWas() http.ResponseWriter {
	_, hijacks := w.ResponseWriter.(http.Hijacker)
	pusher, pushes := w.ResponseWriter.(http.Pusher)
	switch {
	case hijacks && pushes:
		return struct {
			flushing
			http.Hijacker
			http.Pusher
		}{w, hijacking{w.replyWriter}, pusher}
	case hijacks:
		return struct {
			flushing
			http.Hijacker
		}{w, hijacking{w.replyWriter}}
	case pushes:
		return struct {
			flushing
			http.Pusher
		}{w, pusher}
	}
	return w
}

// A hijacking writer lets its connection go, so nothing goes back by it any
// more.
type hijacking struct{ w *replyWriter }

func (h hijacking) Hijack() (net.Conn, *bufio.ReadWriter, error) {
	h.w.begins()
	return h.w.ResponseWriter.(http.Hijacker).Hijack()
}
