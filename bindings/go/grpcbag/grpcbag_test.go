package grpcbag_test

import (
	"context"
	"errors"
	"io"
	"net"
	"reflect"
	"testing"

	"google.golang.org/grpc"
	"google.golang.org/grpc/codes"
	"google.golang.org/grpc/metadata"
	"google.golang.org/grpc/status"
	"google.golang.org/grpc/test/bufconn"

	"terncommode"
	"terncommode/grpcbag"
)

var (
	id7  = parsed("\x02\xf8\x00\x05\x00\x00\x00\x00\x07")
	tag  = parsed("\x02\xf8\x01\x02\x00a")
	lost = terncommode.Lost()
)

func parsed(data string) terncommode.Context {
	c, err := terncommode.Parse([]byte(data))
	if err != nil {
		panic(err)
	}
	return c
}

func same(t *testing.T, found, wanted interface{}) {
	t.Helper()
	if !reflect.DeepEqual(found, wanted) {
		t.Errorf("%v, not %v", found, wanted)
	}
}

// raw is a codec of bytes, so that no message has to be generated.
type raw struct{}

func (raw) Marshal(v interface{}) ([]byte, error) { return *v.(*[]byte), nil }
func (raw) Unmarshal(data []byte, v interface{}) error {
	*v.(*[]byte) = append([]byte(nil), data...)
	return nil
}
func (raw) Name() string   { return "raw" }
func (raw) String() string { return "raw" }

// A stock is the service that is called.
type stock struct {
	came []terncommode.Context
	say  func(ctx context.Context) error
}

func (s *stock) count(ctx context.Context) error {
	s.came = append(s.came, terncommode.From(ctx))
	return s.say(ctx)
}

var description = grpc.ServiceDesc{
	ServiceName: "Stock",
	HandlerType: (*interface{})(nil),
	Methods: []grpc.MethodDesc{{MethodName: "Count", Handler: func(server interface{}, ctx context.Context, decode func(interface{}) error, interceptor grpc.UnaryServerInterceptor) (interface{}, error) {
		var request []byte
		if err := decode(&request); err != nil {
			return nil, err
		}
		handler := func(ctx context.Context, request interface{}) (interface{}, error) {
			reply := []byte("reply")
			return &reply, server.(*stock).count(ctx)
		}
		if interceptor == nil {
			return handler(ctx, &request)
		}
		return interceptor(ctx, &request, &grpc.UnaryServerInfo{Server: server, FullMethod: "/Stock/Count"}, handler)
	}}},
	Streams: []grpc.StreamDesc{{StreamName: "All", ServerStreams: true, ClientStreams: true, Handler: func(server interface{}, stream grpc.ServerStream) error {
		var request []byte
		for {
			if err := stream.RecvMsg(&request); err == io.EOF {
				return server.(*stock).count(stream.Context())
			} else if err != nil {
				return err
			}
			if err := stream.SendMsg(&request); err != nil {
				return err
			}
		}
	}}},
}

// connected gives a connection to a new server with the stock.
func connected(t *testing.T, served *stock, options ...grpc.ServerOption) *grpc.ClientConn {
	listener := bufconn.Listen(1 << 16)
	server := grpc.NewServer(append(options, grpc.CustomCodec(raw{}))...)
	server.RegisterService(&description, served)
	go server.Serve(listener)
	t.Cleanup(server.Stop)
	conn, err := grpc.Dial("stock", grpc.WithInsecure(), grpc.WithContextDialer(func(context.Context, string) (net.Conn, error) { return listener.Dial() }),
		grpc.WithDefaultCallOptions(grpc.ForceCodec(raw{})), grpc.WithUnaryInterceptor(grpcbag.UnaryClientInterceptor(terncommode.FailureAddsNothing)), grpc.WithStreamInterceptor(grpcbag.StreamClientInterceptor(terncommode.FailureAddsNothing)))
	if err != nil {
		t.Fatal(err)
	}
	t.Cleanup(func() { conn.Close() })
	return conn
}

func both(absent terncommode.Context) []grpc.ServerOption {
	return []grpc.ServerOption{grpc.UnaryInterceptor(grpcbag.UnaryServerInterceptor(absent)), grpc.StreamInterceptor(grpcbag.StreamServerInterceptor(absent))}
}

func unary(ctx context.Context, conn *grpc.ClientConn) error {
	request, reply := []byte("request"), []byte(nil)
	err := conn.Invoke(ctx, "/Stock/Count", &request, &reply)
	if err == nil && string(reply) != "reply" {
		err = errors.New(string(reply))
	}
	return err
}

func streamed(ctx context.Context, conn *grpc.ClientConn) error {
	stream, err := conn.NewStream(ctx, &grpc.StreamDesc{ServerStreams: true, ClientStreams: true}, "/Stock/All")
	if err != nil {
		return err
	}
	for k := 0; k < 3; k++ {
		request, reply := []byte{byte(k)}, []byte(nil)
		if err := stream.SendMsg(&request); err != nil {
			return err
		}
		if err := stream.RecvMsg(&reply); err != nil {
			return err
		}
	}
	if err := stream.CloseSend(); err != nil {
		return err
	}
	var reply []byte
	if err := stream.RecvMsg(&reply); err != io.EOF {
		return err
	}
	return nil
}

var calls = map[string]func(context.Context, *grpc.ClientConn) error{"unary": unary, "streamed": streamed}

func TestACallAndItsTrailer(t *testing.T) {
	for name, call := range calls {
		t.Run(name, func(t *testing.T) {
			served := &stock{say: func(ctx context.Context) error { terncommode.Add(ctx, tag); return nil }}
			conn := connected(t, served, both(terncommode.Context{})...)
			ctx := terncommode.With(metadata.AppendToOutgoingContext(context.Background(), "other", "x", grpcbag.Key, "old"), id7)
			same(t, call(ctx, conn), nil)
			same(t, served.came, []terncommode.Context{id7})
			same(t, terncommode.From(ctx), terncommode.Join(id7, tag))
			md, _ := metadata.FromOutgoingContext(ctx)
			same(t, md.Get(grpcbag.Key), []string{"old"})
		})
	}
}

func TestACallThatFails(t *testing.T) {
	for name, call := range calls {
		t.Run(name, func(t *testing.T) {
			served := &stock{say: func(ctx context.Context) error {
				terncommode.Add(ctx, tag)
				return status.Error(codes.NotFound, "none")
			}}
			conn := connected(t, served, both(lost)...)
			ctx := terncommode.With(context.Background(), id7)
			same(t, status.Code(call(ctx, conn)), codes.NotFound)
			same(t, terncommode.From(ctx), terncommode.Join(id7, tag))

			// The server replied, and its context is missing.
			bare := connected(t, served)
			ctx = terncommode.With(context.Background(), id7)
			same(t, status.Code(call(ctx, bare)), codes.NotFound)
			same(t, terncommode.From(ctx), terncommode.Join(id7, lost))
		})
	}
}

func TestWhatIsAbsent(t *testing.T) {
	for name, call := range calls {
		t.Run(name, func(t *testing.T) {
			served := &stock{say: func(context.Context) error { return nil }}
			bare := connected(t, served)
			ctx := terncommode.With(context.Background(), id7)
			same(t, call(ctx, bare), nil)
			same(t, terncommode.From(ctx), terncommode.Join(id7, lost))
			same(t, served.came, []terncommode.Context{lost})
		})
	}
	for _, absent := range []terncommode.Context{{}, lost, id7} {
		same(t, grpcbag.Extract(metadata.MD{}, absent), absent)
		same(t, grpcbag.Extract(nil, absent), absent)
		same(t, grpcbag.Extract(metadata.Pairs(grpcbag.Key, "\x80"), absent), lost)
		same(t, grpcbag.Extract(metadata.Pairs(grpcbag.Key, string(id7.Bytes()), grpcbag.Key, string(tag.Bytes())), absent), terncommode.Join(id7, tag))
		same(t, grpcbag.Extract(metadata.Pairs(grpcbag.Key, string(terncommode.ToBinary(id7)), grpcbag.Key, ""), absent), terncommode.Join(id7, lost))
		same(t, grpcbag.Extract(metadata.Pairs(grpcbag.Key, ""), absent), lost)
		for sent := string(terncommode.ToBinary(id7)); sent != ""; sent = sent[:len(sent)-1] {
			same(t, grpcbag.Extract(metadata.Pairs(grpcbag.Key, sent[:len(sent)-1]), absent), lost)
		}
	}
}

// What the attempts before have said nobody but gRPC has seen.
func TestACallThatGRPCRetries(t *testing.T) {
	for _, attempts := range []bool{false, true} {
		md, wanted := metadata.Pairs(grpcbag.Key, string(terncommode.ToBinary(id7))), id7
		if attempts {
			md.Set("grpc-previous-rpc-attempts", "1")
			wanted = terncommode.Join(id7, lost)
		}
		held := lost
		ctx := metadata.NewIncomingContext(context.Background(), md)
		grpcbag.UnaryServerInterceptor(lost)(ctx, nil, nil, func(ctx context.Context, _ interface{}) (interface{}, error) {
			held = terncommode.From(ctx)
			return nil, nil
		})
		same(t, held, wanted)
	}
}

// A stream that the server ends has a reply, also where nobody asks for it.
func TestAStreamThatIsLeftWhenItCantBeSentTo(t *testing.T) {
	served := &stock{say: func(ctx context.Context) error { return terncommode.Add(ctx, tag) }}
	conn := connected(t, served, append(both(lost), grpc.MaxRecvMsgSize(10))...)
	ctx := terncommode.With(context.Background(), id7)
	stream, err := conn.NewStream(ctx, &grpc.StreamDesc{ServerStreams: true, ClientStreams: true}, "/Stock/All")
	same(t, err, nil)
	long := make([]byte, 100)
	for err == nil {
		err = stream.SendMsg(&long)
	}
	same(t, err, io.EOF)
	same(t, terncommode.From(ctx), terncommode.Join(id7, lost))
}

func TestAServerThatIsGone(t *testing.T) {
	conn, err := grpc.Dial("gone", grpc.WithInsecure(), grpc.WithContextDialer(func(context.Context, string) (net.Conn, error) { return nil, errors.New("gone") }),
		grpc.WithDefaultCallOptions(grpc.ForceCodec(raw{})), grpc.WithUnaryInterceptor(grpcbag.UnaryClientInterceptor(terncommode.FailureAddsNothing)), grpc.WithStreamInterceptor(grpcbag.StreamClientInterceptor(terncommode.FailureAddsNothing)))
	same(t, err, nil)
	defer conn.Close()
	for _, call := range calls {
		ctx := terncommode.With(context.Background(), id7)
		same(t, status.Code(call(ctx, conn)), codes.Unavailable)
		same(t, terncommode.From(ctx), id7)
	}
	conn, err = grpc.Dial("gone", grpc.WithInsecure(), grpc.WithContextDialer(func(context.Context, string) (net.Conn, error) { return nil, errors.New("gone") }),
		grpc.WithDefaultCallOptions(grpc.ForceCodec(raw{})), grpc.WithUnaryInterceptor(grpcbag.UnaryClientInterceptor(terncommode.FailureIsLost)), grpc.WithStreamInterceptor(grpcbag.StreamClientInterceptor(terncommode.FailureIsLost)))
	same(t, err, nil)
	defer conn.Close()
	for _, call := range calls {
		ctx := terncommode.With(context.Background(), id7)
		same(t, status.Code(call(ctx, conn)), codes.Unavailable)
		same(t, terncommode.From(ctx), terncommode.Join(id7, lost))
	}
}

// What strangers send isn't read, isn't handed on, and gets no answer.
func TestAnEdge(t *testing.T) {
	for name, call := range calls {
		t.Run(name, func(t *testing.T) {
			var late error
			var ended context.Context
			served := &stock{say: func(ctx context.Context) error {
				md, _ := metadata.FromIncomingContext(ctx)
				same(t, []interface{}{md.Get(grpcbag.Key), append(md.Get("terncommode"), md.Get("terncommode-step")...), md.Get("baggage"), md.Get("other")}, []interface{}{[]string(nil), []string(nil), []string{"a=b"}, []string{"x"}})
				ended = ctx
				return terncommode.Add(ctx, tag)
			}}
			conn := connected(t, served, grpc.UnaryInterceptor(grpcbag.UnaryServerEdge()), grpc.StreamInterceptor(grpcbag.StreamServerEdge()))
			ctx := metadata.AppendToOutgoingContext(context.Background(), "other", "x", "terncommode", "y", "terncommode-step", "a.1", "baggage", "a=b,terncommode=z,%74erncommode=z,%2574erncommode=z")
			ctx = terncommode.With(ctx, id7)
			same(t, call(ctx, conn), nil)
			same(t, served.came, []terncommode.Context{{}})
			same(t, terncommode.From(ctx), terncommode.Join(id7, lost))
			late = terncommode.Add(ended, tag)
			same(t, late, terncommode.ErrLate)
		})
	}
}

func TestWhatIsTakenOutOfTheMetadata(t *testing.T) {
	for name, call := range calls {
		t.Run(name, func(t *testing.T) {
			served := &stock{say: func(ctx context.Context) error {
				md, _ := metadata.FromIncomingContext(ctx)
				same(t, md.Get(grpcbag.Key), []string(nil))
				return nil
			}}
			conn := connected(t, served, both(lost)...)
			same(t, call(terncommode.With(context.Background(), id7), conn), nil)
			same(t, served.came, []terncommode.Context{id7})
		})
	}
}

func TestWhatIsSentIsCut(t *testing.T) {
	bag := terncommode.MustBag("baggage table 1\n0 0 id scalar fixed32\n0 1 blob set bytes\n")
	long, err := bag.Update([]terncommode.Context{id7}, terncommode.Set("blob", terncommode.Hex(make([]byte, 10_000))))
	same(t, err, nil)
	served := &stock{say: func(ctx context.Context) error { terncommode.Add(ctx, long); return nil }}
	conn := connected(t, served, both(lost)...)
	ctx := terncommode.With(context.Background(), long)
	same(t, unary(ctx, conn), nil)
	same(t, served.came, []terncommode.Context{long.Cut(terncommode.GRPCBudget)})
	same(t, terncommode.From(ctx), terncommode.Join(long, terncommode.Join(long.Cut(terncommode.GRPCBudget), long).Cut(terncommode.GRPCBudget)))
}
