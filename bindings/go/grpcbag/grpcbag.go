// Package grpcbag carries contexts of baggage over gRPC: with a call in its
// metadata, and back in its trailer.
package grpcbag

import (
	"context"
	"strings"

	"google.golang.org/grpc/metadata"

	"terncommode"
	"terncommode/internal/members"
)

// Key is the key of the metadata, whose values are the bytes of contexts.
const Key = "terncommode-bin"

const (
	reader     = "terncommode/grpcbag"
	baggageKey = "baggage"

	// A call that gRPC itself retries has this key. What came back from the
	// attempts before is seen by nobody but gRPC.
	attemptsKey = "grpc-previous-rpc-attempts"
)

// Inject sets the context in metadata, in place of any that is there.
func Inject(md metadata.MD, c terncommode.Context) {
	md.Set(Key, string(terncommode.ToBinary(c)))
}

// Extract is the context that came in metadata: the merge of all that it says,
// Lost where it can't be read, and absent where there is none.
func Extract(md metadata.MD, absent terncommode.Context) terncommode.Context {
	values := md.Get(Key)
	if len(values) == 0 {
		return absent
	}
	found := make([]terncommode.Context, len(values))
	for k, value := range values {
		found[k] = terncommode.FromBinary([]byte(value))
	}
	return terncommode.Join(found...)
}

// outgoing is ctx with the context that it holds in the metadata to be sent.
func outgoing(ctx context.Context) context.Context {
	md, _ := metadata.FromOutgoingContext(ctx)
	md = md.Copy()
	Inject(md, terncommode.From(ctx).Cut(terncommode.GRPCBudget))
	return metadata.NewOutgoingContext(ctx, md)
}

// incoming is ctx with the context that came in the metadata, out of which it is
// taken, so that a proxy doesn't hand it on as it came.
func incoming(ctx context.Context, absent terncommode.Context) context.Context {
	md, _ := metadata.FromIncomingContext(ctx)
	c := Extract(md, absent)
	if len(md.Get(attemptsKey)) > 0 {
		c = terncommode.Join(c, terncommode.Lost())
	}
	isFound := len(md.Get(Key)) > 0
	md = md.Copy()
	delete(md, Key)
	return terncommode.Arrived(metadata.NewIncomingContext(ctx, md), reader, c, isFound)
}

// outside is ctx with the empty context, whatever came in the metadata. All that
// carries contexts is taken out of it.
func outside(ctx context.Context) context.Context {
	md, _ := metadata.FromIncomingContext(ctx)
	md = md.Copy()
	for key := range md {
		if members.IsOwn(key) {
			delete(md, key)
		}
	}
	if others, isWhole := members.Others(md.Get(baggageKey)); !isWhole {
		delete(md, baggageKey)
		if len(others) > 0 {
			md.Set(baggageKey, strings.Join(others, ","))
		}
	}
	ctx = terncommode.With(metadata.NewIncomingContext(ctx, md), terncommode.Context{})
	return terncommode.Arrived(ctx, reader, terncommode.Context{}, true)
}

// back is the trailer with what goes back to the caller.
func back(ctx context.Context) metadata.MD {
	md := metadata.MD{}
	Inject(md, terncommode.End(ctx).Cut(terncommode.GRPCBudget))
	return md
}
