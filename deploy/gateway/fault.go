package main

import (
	"fmt"
	"net/http"
)

// A fault is an answer of the gateway's own, to a request that the server is not asked about.
type fault struct {
	status int
	text   string
}

func (it *fault) Error() string { return it.text }

// badRequest is Loki's answer to all that it can't read.
func badRequest(format string, words ...any) error {
	return &fault{http.StatusBadRequest, fmt.Sprintf(format, words...)}
}

func tooLarge(format string, words ...any) error {
	return &fault{http.StatusRequestEntityTooLarge, fmt.Sprintf(format, words...)}
}
