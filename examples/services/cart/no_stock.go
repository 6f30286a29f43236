//go:build !grpc

package main

import "errors"

func dial(string) (stock, error) {
	return nil, errors.New("this cart is built without gRPC, so it has no stock to ask")
}
