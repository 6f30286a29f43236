//go:build grpc

package main

import (
	"context"
	"sync/atomic"

	"google.golang.org/grpc"
	"google.golang.org/grpc/metadata"
	"google.golang.org/grpc/stats"

	"terncommode"
	"terncommode/grpcbag"
)

// A remoteStock is the stock over gRPC. The context goes in the metadata of the
// call and comes back in the trailer, with the name of the step beside it.
type remoteStock struct {
	conn *grpc.ClientConn
}

func dial(port string) (stock, error) {
	conn, err := grpc.Dial("127.0.0.1:"+port, grpc.WithInsecure(), grpc.WithStatsHandler(departures{}), grpc.WithDefaultCallOptions(grpc.ForceCodec(raw{})))
	return remoteStock{conn}, err
}

// reserve says that nothing came only where the request didn't go out: of a call
// that failed later, gRPC doesn't say whether a byte of the reply came.
func (s remoteStock) reserve(r *recorder, sent step) (back step, came bool, err error) {
	md := metadata.MD{}
	if sent.name != "" {
		md.Set(stepHeader, named(sent.name))
	}
	grpcbag.Inject(md, sent.c)
	var isOut uint32
	ctx, cancel := context.WithTimeout(context.WithValue(context.Background(), departure{}, &isOut), wait())
	defer cancel()
	var trailer metadata.MD
	var reply []byte
	err = s.conn.Invoke(metadata.NewOutgoingContext(ctx, md), "/shop.Stock/Reserve", []byte("two"), &reply, grpc.Trailer(&trailer))
	if err != nil && atomic.LoadUint32(&isOut) == 0 {
		return step{}, false, nil
	}
	back, err = r.receive(grpcbag.Extract(trailer, terncommode.Lost()), trailer.Get(grpcbag.Key), senderOf(trailer.Get(stepHeader)))
	return back, err == nil, err
}

// departure is the key of what becomes 1 when a call's request goes out.
type departure struct{}

// departures tells each call that its request goes out.
type departures struct{}

func (departures) TagRPC(ctx context.Context, _ *stats.RPCTagInfo) context.Context { return ctx }

func (departures) HandleRPC(ctx context.Context, event stats.RPCStats) {
	isOut, isAsked := ctx.Value(departure{}).(*uint32)
	if _, isHeader := event.(*stats.OutHeader); isHeader && isAsked {
		atomic.StoreUint32(isOut, 1)
	}
}

func (departures) TagConn(ctx context.Context, _ *stats.ConnTagInfo) context.Context { return ctx }

func (departures) HandleConn(context.Context, stats.ConnStats) {}

// raw is the codec of messages that are bytes.
type raw struct{}

func (raw) Name() string { return "raw" }

func (raw) Marshal(message interface{}) ([]byte, error) { return message.([]byte), nil }

func (raw) Unmarshal(data []byte, message interface{}) error {
	*message.(*[]byte) = data
	return nil
}
