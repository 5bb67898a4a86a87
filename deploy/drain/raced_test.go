//go:build race

package main

// whether Go's race detector watches
const isRaced = true
