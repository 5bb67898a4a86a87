// needleazure-gateway takes pushes as Loki's shippers send them, and sends them on to a Needleazure server. Its manual
// page has its words; docs/API.md has what it takes and answers.
package main

import (
	"context"
	"errors"
	"flag"
	"fmt"
	"log"
	"net"
	"net/http"
	"os"
	"os/signal"
	"runtime/debug"
	"syscall"
	"time"
)

const (
	headTime = 10 * time.Second
	bodyTime = 60 * time.Second
	keptTime = 120 * time.Second
	// for the pushes under way at a stop
	stopTime = 30 * time.Second
	mostHead = 16_384
)

func main() {
	log.SetFlags(0)
	log.SetPrefix("needleazure-gateway: ")
	given, err := readWords(os.Args[1:])
	if errors.Is(err, flag.ErrHelp) {
		fmt.Println(usage)
		return
	}
	if err != nil {
		fmt.Fprintf(os.Stderr, "needleazure-gateway: %s\n%s\n", err, usage)
		os.Exit(2)
	}
	// (beside the budget what isn't collected yet: with less it would do little else than collect)
	if os.Getenv("GOMEMLIMIT") == "" {
		debug.SetMemoryLimit(given.memory + given.memory/2)
	}
	ends, stop := signal.NotifyContext(context.Background(), syscall.SIGTERM, syscall.SIGINT)
	defer stop()
	go readAgain(given.limits)
	listening, err := net.Listen("tcp", given.listen)
	if err == nil {
		fmt.Printf("ready %s\n", listening.Addr())
		err = serve(ends, listening, newGateway(given))
	}
	if err != nil {
		log.Print(err)
		os.Exit(1)
	}
}

// readAgain reads the limits again at each SIGHUP.
func readAgain(limits *limits) {
	asked := make(chan os.Signal, 1)
	signal.Notify(asked, syscall.SIGHUP)
	for range asked {
		limits.again()
	}
}

// serve answers until it is told to end, and then those that are under way.
func serve(ends context.Context, listening net.Listener, by *gateway) error {
	serving := &http.Server{
		Handler:           by.handler(),
		ReadHeaderTimeout: headTime,
		WriteTimeout:      pushTime + answerTime,
		IdleTimeout:       keptTime,
		MaxHeaderBytes:    mostHead,
		ConnContext:       keepLine,
	}
	front := newFront(by, listening.Addr())
	failed := make(chan error, 2)
	go func() { failed <- serving.Serve(front.others) }()
	go func() { failed <- front.accept(listening) }()
	select {
	case err := <-failed:
		return err
	case <-ends.Done():
	}
	listening.Close()
	in, end := context.WithTimeout(context.Background(), stopTime)
	defer end()
	// (what it answers may still be left to net/http)
	if err := front.end(in); err != nil {
		return err
	}
	return serving.Shutdown(in)
}
