//go:build !cgo

package sdtool

// The library is in C, so nothing of this package is left without cgo.
var _ int = "sdtool needs cgo: build with CGO_ENABLED=1 and a C compiler"
