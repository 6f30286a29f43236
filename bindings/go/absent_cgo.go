//go:build !cgo

package terncommode

// The work is done by a shared library of C, so a program is built with cgo:
// CGO_ENABLED=1, which is the default where it isn't built for another system,
// and a C compiler.
var _ = terncommode_is_built_with_CGO_ENABLED_1_and_a_C_compiler
