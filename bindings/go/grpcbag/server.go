package grpcbag

import (
	"context"

	"google.golang.org/grpc"

	"terncommode"
)

// UnaryServerInterceptor gives the handler the context of each call in its
// context.Context, and sends back in the trailer what that holds when the
// handler ends. Absent is the context of a call without one:
// terncommode.Context{} where requests begin, and terncommode.Lost() after
// services that send one. It trusts who calls; UnaryServerEdge is for calls from
// outside.
func UnaryServerInterceptor(absent terncommode.Context) grpc.UnaryServerInterceptor {
	return func(ctx context.Context, request interface{}, _ *grpc.UnaryServerInfo, handler grpc.UnaryHandler) (interface{}, error) {
		ctx = incoming(ctx, absent)
		reply, err := handler(ctx, request)
		if failed := grpc.SetTrailer(ctx, back(ctx)); failed != nil && err == nil {
			err = failed
		}
		return reply, err
	}
}

// StreamServerInterceptor does the same for streams. What the handler says for
// any of its messages goes back with the trailer, once.
func StreamServerInterceptor(absent terncommode.Context) grpc.StreamServerInterceptor {
	return func(server interface{}, stream grpc.ServerStream, _ *grpc.StreamServerInfo, handler grpc.StreamHandler) error {
		ctx := incoming(stream.Context(), absent)
		err := handler(server, serverStream{stream, ctx})
		stream.SetTrailer(back(ctx))
		return err
	}
}

// UnaryServerEdge is for calls from outside, where anybody may write any field:
// each begins with the empty context, and no context is sent back. What the
// metadata carries is taken out of it: terncommode-bin, terncommode, and the
// member of W3C's baggage.
func UnaryServerEdge() grpc.UnaryServerInterceptor {
	return func(ctx context.Context, request interface{}, _ *grpc.UnaryServerInfo, handler grpc.UnaryHandler) (interface{}, error) {
		ctx = outside(ctx)
		defer terncommode.End(ctx)
		return handler(ctx, request)
	}
}

// StreamServerEdge does the same for streams.
func StreamServerEdge() grpc.StreamServerInterceptor {
	return func(server interface{}, stream grpc.ServerStream, _ *grpc.StreamServerInfo, handler grpc.StreamHandler) error {
		ctx := outside(stream.Context())
		defer terncommode.End(ctx)
		return handler(server, serverStream{stream, ctx})
	}
}

type serverStream struct {
	grpc.ServerStream
	ctx context.Context
}

func (s serverStream) Context() context.Context {
	return s.ctx
}
