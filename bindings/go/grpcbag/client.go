package grpcbag

import (
	"context"
	"io"

	"google.golang.org/grpc"
	"google.golang.org/grpc/codes"
	"google.golang.org/grpc/metadata"
	"google.golang.org/grpc/peer"
	"google.golang.org/grpc/status"

	"terncommode"
)

// UnaryClientInterceptor sends the context that the call's context.Context
// holds, and adds to it what the trailer brings. A reply without a context is
// Lost, also where its status is an error. So is a call that failed once it had
// a connection, since gRPC doesn't tell whether a byte of a reply came; one that
// never had one is what onFailure says. It is for a connection to one's own services: contexts go
// to whoever listens there.
//
// Of a call that gRPC itself retries only the last reply is seen, and the rest
// is Lost: a server with an interceptor of this package says so. Retry above the
// interceptor, and each reply counts.
func UnaryClientInterceptor(onFailure terncommode.Failure) grpc.UnaryClientInterceptor {
	return func(ctx context.Context, method string, request, reply interface{}, conn *grpc.ClientConn, invoke grpc.UnaryInvoker, options ...grpc.CallOption) error {
		var trailer metadata.MD
		var server peer.Peer
		options = append(options[:len(options):len(options)], grpc.Trailer(&trailer), grpc.Peer(&server))
		expected := terncommode.Expect(ctx)
		err := invoke(outgoing(ctx), method, request, reply, conn, options...)
		settle(expected, err, trailer, server.Addr != nil, onFailure)
		return err
	}
}

// StreamClientInterceptor does the same for streams. From the first message on
// the context is joined with Lost, until RecvMsg has said that the stream is at
// its end and the trailer is there. A stream that fails or is cancelled is lost;
// one that is left stays lost, if a message of it came.
func StreamClientInterceptor(onFailure terncommode.Failure) grpc.StreamClientInterceptor {
	return func(ctx context.Context, description *grpc.StreamDesc, conn *grpc.ClientConn, method string, stream grpc.Streamer, options ...grpc.CallOption) (grpc.ClientStream, error) {
		expected := terncommode.Expect(ctx)
		opened, err := stream(outgoing(ctx), description, conn, method, options...)
		if err != nil {
			settle(expected, err, nil, false, onFailure)
			return nil, err
		}
		return &clientStream{ClientStream: opened, reply: expected, isSingle: !description.ServerStreams, onFailure: onFailure}, nil
	}
}

// settle says what became of a reply, which ended with this error and brought
// this trailer. Where the call had a connection, a byte of it may have come.
func settle(reply *terncommode.Reply, err error, trailer metadata.MD, wasConnected bool, onFailure terncommode.Failure) {
	if err == nil || len(trailer.Get(Key)) > 0 {
		// Where no request runs nobody holds it; a late one is counted.
		_ = reply.Came(Extract(trailer, terncommode.Lost()))
		return
	}
	if wasConnected || len(trailer) > 0 || !isSilent(err) || onFailure == terncommode.FailureIsLost {
		reply.Began()
	}
	reply.Failed()
}

// isSilent is whether an error is one of those that a call ends with that heard
// nothing. The others may stand for a reply that came and was refused: one that
// is too long, or that isn't gRPC's.
func isSilent(err error) bool {
	switch status.Code(err) {
	case codes.Unavailable, codes.DeadlineExceeded, codes.Canceled:
		return true
	}
	return false
}

// A clientStream is received from by one goroutine at a time, as gRPC demands.
type clientStream struct {
	grpc.ClientStream
	reply     *terncommode.Reply
	isSingle  bool // a stream with one reply ends with it
	isEnded   bool
	onFailure terncommode.Failure
}

func (s *clientStream) Header() (metadata.MD, error) {
	header, err := s.ClientStream.Header()
	if err == nil {
		s.reply.Began()
	}
	return header, err
}

// SendMsg says io.EOF where the other side has ended the stream, which was a
// reply: what it was RecvMsg says, to whoever asks.
func (s *clientStream) SendMsg(message interface{}) error {
	err := s.ClientStream.SendMsg(message)
	if err == io.EOF {
		s.reply.Began()
	}
	return err
}

func (s *clientStream) RecvMsg(message interface{}) error {
	err := s.ClientStream.RecvMsg(message)
	switch {
	case s.isEnded:
	case err == nil && !s.isSingle:
		s.reply.Began()
	default:
		s.isEnded = true
		s.ends(err)
	}
	return err
}

// ends is called once the stream is at its end, so that the trailer is there.
func (s *clientStream) ends(err error) {
	if err == io.EOF {
		err = nil
	}
	settle(s.reply, err, s.ClientStream.Trailer(), true, s.onFailure)
}
