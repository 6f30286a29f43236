//go:build !terncommode_flags

package terncommode

// #cgo pkg-config: baggage
import "C"
