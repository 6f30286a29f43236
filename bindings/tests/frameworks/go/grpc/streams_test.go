package grpc_test

import (
	"context"
	"io"
	"net"
	"strings"
	"sync"
	"testing"
	"time"

	"google.golang.org/grpc"
	"google.golang.org/grpc/codes"
	"google.golang.org/grpc/metadata"
	"google.golang.org/grpc/status"
	"google.golang.org/grpc/test/bufconn"

	"terncommode"
	"terncommode/grpcbag"
)

var bag = terncommode.MustBag("baggage table 1\n0 0 id scalar fixed32\n0 1 tags set string\n0 2 hops counter\n")

// reads is what a context says: `exact` or `partial`, and its tags.
func reads(t *testing.T, c terncommode.Context) string {
	text, exact, err := bag.Text(c, "tags")
	if err != nil {
		t.Error(err)
	}
	found := strings.ReplaceAll(strings.NewReplacer("{", "", "}", "", `"`, "").Replace(text), ",", " ")
	return strings.TrimSpace(map[bool]string{true: "exact ", false: "partial "}[exact] + found)
}

func is(t *testing.T, found, wanted interface{}) {
	t.Helper()
	if found != wanted {
		t.Errorf("%v, not %v", found, wanted)
	}
}

func say(ctx context.Context, tag string) error {
	return terncommode.Change(ctx, func(c terncommode.Context) (terncommode.Context, error) {
		return bag.Update([]terncommode.Context{c}, terncommode.Set("tags", terncommode.Quote(tag)))
	})
}

// raw is a codec of bytes, so that no message has to be generated.
type raw struct{}

func (raw) Marshal(v interface{}) ([]byte, error) { return *v.(*[]byte), nil }
func (raw) Unmarshal(data []byte, v interface{}) error {
	*v.(*[]byte) = append([]byte(nil), data...)
	return nil
}
func (raw) Name() string   { return "raw" }
func (raw) String() string { return "raw" }

// handle is what the service does, in the stream Do and in the call Ask.
type handle func(stream grpc.ServerStream) error

func described(do handle) *grpc.ServiceDesc {
	ask := func(server interface{}, ctx context.Context, decode func(interface{}) error, interceptor grpc.UnaryServerInterceptor) (interface{}, error) {
		handler := func(ctx context.Context, request interface{}) (interface{}, error) {
			reply := []byte("reply")
			return &reply, do(called{ctx: ctx})
		}
		if interceptor == nil {
			return handler(ctx, nil)
		}
		return interceptor(ctx, nil, &grpc.UnaryServerInfo{Server: server, FullMethod: "/Service/Ask"}, handler)
	}
	return &grpc.ServiceDesc{
		ServiceName: "Service", HandlerType: (*interface{})(nil), Methods: []grpc.MethodDesc{{MethodName: "Ask", Handler: ask}},
		Streams: []grpc.StreamDesc{{StreamName: "Do", ServerStreams: true, ClientStreams: true, Handler: func(_ interface{}, stream grpc.ServerStream) error { return do(stream) }}},
	}
}

// called is a call as a stream that sends nothing.
type called struct {
	grpc.ServerStream
	ctx context.Context
}

func (c called) Context() context.Context  { return c.ctx }
func (c called) SendMsg(interface{}) error { return nil }

type service struct {
	server *grpc.Server
	conn   *grpc.ClientConn
}

// start starts a service, and gives a connection to it.
func start(t *testing.T, do handle, options ...grpc.ServerOption) service {
	listener := bufconn.Listen(1 << 16)
	server := grpc.NewServer(append(options, grpc.CustomCodec(raw{}))...)
	server.RegisterService(described(do), do)
	go server.Serve(listener)
	t.Cleanup(server.Stop)
	conn, err := grpc.Dial("service", grpc.WithInsecure(), grpc.WithContextDialer(func(context.Context, string) (net.Conn, error) { return listener.Dial() }),
		grpc.WithDefaultCallOptions(grpc.ForceCodec(raw{})), grpc.WithUnaryInterceptor(grpcbag.UnaryClientInterceptor(terncommode.FailureAddsNothing)),
		grpc.WithStreamInterceptor(grpcbag.StreamClientInterceptor(terncommode.FailureAddsNothing)))
	if err != nil {
		t.Fatal(err)
	}
	t.Cleanup(func() { conn.Close() })
	return service{server, conn}
}

func trusted() []grpc.ServerOption {
	return []grpc.ServerOption{grpc.UnaryInterceptor(grpcbag.UnaryServerInterceptor(terncommode.Lost())), grpc.StreamInterceptor(grpcbag.StreamServerInterceptor(terncommode.Lost()))}
}

// messages sends so many.
func messages(stream grpc.ServerStream, count int) error {
	for k := 0; k < count; k++ {
		message := []byte{byte(k)}
		if err := stream.SendMsg(&message); err != nil {
			return err
		}
	}
	return nil
}

func begun(t *testing.T) context.Context {
	ctx := terncommode.With(context.Background(), terncommode.Context{})
	is(t, say(ctx, "client"), nil)
	return ctx
}

func open(t *testing.T, ctx context.Context, conn *grpc.ClientConn) grpc.ClientStream {
	stream, err := conn.NewStream(ctx, &grpc.StreamDesc{ServerStreams: true, ClientStreams: true}, "/Service/Do")
	if err != nil {
		t.Fatal(err)
	}
	return stream
}

// take receives so many messages, or all where count is below 0.
func take(stream grpc.ClientStream, count int) error {
	for ; count != 0; count-- {
		var message []byte
		if err := stream.RecvMsg(&message); err != nil {
			return err
		}
	}
	return nil
}

func TestEndsOfStreams(t *testing.T) {
	const whole, lost, never = "exact client server", "partial client", "exact client"
	says := func(count int, err error) handle {
		return func(stream grpc.ServerStream) error {
			is(t, say(stream.Context(), "server"), nil)
			if failed := messages(stream, count); failed != nil {
				return failed
			}
			return err
		}
	}
	waits := func(count int) handle {
		return func(stream grpc.ServerStream) error {
			is(t, say(stream.Context(), "server"), nil)
			messages(stream, count)
			time.Sleep(3 * time.Second) // longer than anybody waits
			return nil
		}
	}
	blank := func(stream grpc.ServerStream) error {
		stream.SetTrailer(metadata.Pairs(grpcbag.Key, ""))
		return messages(stream, 3)
	}
	for name, row := range map[string]struct {
		do     handle
		serves []grpc.ServerOption
		ends   func(ctx context.Context, s service)
		wanted string
	}{
		"to the end":       {says(3, nil), trusted(), func(ctx context.Context, s service) { is(t, take(open(t, ctx, s.conn), -1), io.EOF) }, whole},
		"no message":       {says(0, nil), trusted(), func(ctx context.Context, s service) { is(t, take(open(t, ctx, s.conn), -1), io.EOF) }, whole},
		"an error after 3": {says(3, status.Error(codes.NotFound, "no")), trusted(), func(ctx context.Context, s service) { take(open(t, ctx, s.conn), -1) }, whole},
		"an error at once": {says(0, status.Error(codes.NotFound, "no")), trusted(), func(ctx context.Context, s service) { take(open(t, ctx, s.conn), -1) }, whole},
		"dies after 3": {waits(3), trusted(), func(ctx context.Context, s service) {
			stream := open(t, ctx, s.conn)
			take(stream, 3)
			s.server.Stop()
			take(stream, -1)
		}, lost},
		"dies after 3, not looked at": {waits(3), trusted(), func(ctx context.Context, s service) { take(open(t, ctx, s.conn), 3); s.server.Stop() }, lost},
		"gone": {says(0, nil), trusted(), func(ctx context.Context, s service) {
			s.server.Stop()
			s.conn.NewStream(ctx, &grpc.StreamDesc{ServerStreams: true}, "/Service/Do")
		}, never},
		"takes one and cancels": {waits(3), trusted(), func(ctx context.Context, s service) {
			ctx, cancel := context.WithCancel(ctx)
			stream := open(t, ctx, s.conn)
			take(stream, 1)
			cancel()
			take(stream, -1)
		}, lost},
		"cancels before one": {waits(0), trusted(), func(ctx context.Context, s service) {
			ctx, cancel := context.WithCancel(ctx)
			stream := open(t, ctx, s.conn)
			cancel()
			take(stream, -1)
		}, lost},
		"takes one and leaves it": {waits(3), trusted(), func(ctx context.Context, s service) {
			ctx, cancel := context.WithCancel(ctx)
			defer cancel()
			take(open(t, ctx, s.conn), 1)
		}, lost},
		"looks at its head and leaves it": {waits(3), trusted(), func(ctx context.Context, s service) {
			ctx, cancel := context.WithCancel(ctx)
			defer cancel()
			_, err := open(t, ctx, s.conn).Header()
			is(t, err, nil)
		}, lost},
		"out of time after 3": {waits(3), trusted(), func(ctx context.Context, s service) {
			ctx, cancel := context.WithTimeout(ctx, 800*time.Millisecond)
			defer cancel()
			is(t, status.Code(take(open(t, ctx, s.conn), -1)), codes.DeadlineExceeded)
		}, lost},
		"ends without the key":         {func(stream grpc.ServerStream) error { return messages(stream, 3) }, nil, func(ctx context.Context, s service) { take(open(t, ctx, s.conn), -1) }, lost},
		"ends at once without the key": {func(grpc.ServerStream) error { return nil }, nil, func(ctx context.Context, s service) { take(open(t, ctx, s.conn), -1) }, lost},
		"an error without the key":     {func(grpc.ServerStream) error { return status.Error(codes.NotFound, "no") }, nil, func(ctx context.Context, s service) { take(open(t, ctx, s.conn), -1) }, lost},
		"an error of unavailability":   {func(grpc.ServerStream) error { return status.Error(codes.Unavailable, "no") }, nil, func(ctx context.Context, s service) { take(open(t, ctx, s.conn), -1) }, lost},
		"a trailer that is blank":      {blank, nil, func(ctx context.Context, s service) { take(open(t, ctx, s.conn), -1) }, lost},
		"one reply":                    {says(1, nil), trusted(), single, whole},
		"one reply, and an error":      {says(0, status.Error(codes.NotFound, "no")), trusted(), single, whole},
		"one reply without the key":    {func(stream grpc.ServerStream) error { return messages(stream, 1) }, nil, single, lost},
		"one reply that is out of time": {waits(0), trusted(), func(ctx context.Context, s service) {
			ctx, cancel := context.WithTimeout(ctx, 300*time.Millisecond)
			defer cancel()
			single(ctx, s)
		}, lost},
	} {
		t.Run(name, func(t *testing.T) {
			s := start(t, row.do, row.serves...)
			ctx := begun(t)
			row.ends(ctx, s)
			is(t, reads(t, terncommode.From(ctx)), row.wanted)
			is(t, reads(t, terncommode.End(ctx)), row.wanted)
		})
	}
}

// single is a stream with one reply.
func single(ctx context.Context, s service) {
	stream, err := s.conn.NewStream(ctx, &grpc.StreamDesc{ClientStreams: true}, "/Service/Do")
	if err == nil && stream.CloseSend() == nil {
		take(stream, 1)
	}
}

// In the midst of a stream all that is read and sent is partial, and what is
// written then is exact at its end.
func TestInTheMidst(t *testing.T) {
	goOn := make(chan bool)
	s := start(t, func(stream grpc.ServerStream) error {
		messages(stream, 1)
		<-goOn
		return say(stream.Context(), "server")
	}, trusted()...)
	ctx := begun(t)
	stream := open(t, ctx, s.conn)
	is(t, reads(t, terncommode.From(ctx)), "exact client")
	take(stream, 1)
	is(t, reads(t, terncommode.From(ctx)), "partial client")
	is(t, say(ctx, "midst"), nil)
	is(t, terncommode.Count(ctx, bag, "hops", 1), nil)
	is(t, reads(t, terncommode.From(terncommode.Branch(ctx))), "partial client midst")
	close(goOn)
	is(t, take(stream, -1), io.EOF)
	is(t, reads(t, terncommode.From(ctx)), "exact client midst server")
}

func TestCalls(t *testing.T) {
	ask := func(ctx context.Context, s service) error {
		var request, reply []byte
		return s.conn.Invoke(ctx, "/Service/Ask", &request, &reply)
	}
	says := func(err error) handle {
		return func(stream grpc.ServerStream) error {
			is(t, say(stream.Context(), "server"), nil)
			return err
		}
	}
	waits := func(stream grpc.ServerStream) error {
		time.Sleep(time.Second)
		return nil
	}
	for name, row := range map[string]struct {
		do     handle
		serves []grpc.ServerOption
		isGone bool
		wanted string
	}{
		"a reply":                    {says(nil), trusted(), false, "exact client server"},
		"an error":                   {says(status.Error(codes.Internal, "no")), trusted(), false, "exact client server"},
		"without the key":            {func(grpc.ServerStream) error { return nil }, nil, false, "partial client"},
		"an error without the key":   {func(grpc.ServerStream) error { return status.Error(codes.NotFound, "no") }, nil, false, "partial client"},
		"unavailable, and not by it": {says(nil), trusted(), true, "exact client"},
		"out of time":                {waits, trusted(), false, "partial client"},
	} {
		t.Run(name, func(t *testing.T) {
			s := start(t, row.do, row.serves...)
			if row.isGone {
				s.server.Stop()
			}
			ctx := begun(t)
			patience := 20 * time.Second
			if name == "out of time" {
				patience = 300 * time.Millisecond
			}
			limited, cancel := context.WithTimeout(ctx, patience)
			defer cancel()
			ask(limited, s)
			is(t, reads(t, terncommode.From(ctx)), row.wanted)
		})
	}
	// A reply that is too long for the client was one, whether its trailer is seen or not.
	s := start(t, says(nil), trusted()...)
	ctx := begun(t)
	var request, reply []byte
	err := s.conn.Invoke(ctx, "/Service/Ask", &request, &reply, grpc.MaxCallRecvMsgSize(1))
	is(t, status.Code(err), codes.ResourceExhausted)
	if found := reads(t, terncommode.From(ctx)); found != "partial client" && found != "exact client server" {
		t.Error(found)
	}
	// Ten beside one another.
	ctx = begun(t)
	var all sync.WaitGroup
	for k := 0; k < 10; k++ {
		all.Add(1)
		go func() { defer all.Done(); ask(ctx, s); say(ctx, "here") }()
	}
	all.Wait()
	is(t, reads(t, terncommode.From(ctx)), "exact client here server")
}
