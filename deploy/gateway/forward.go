package main

import (
	"context"
	"errors"
	"fmt"
	"io"
	"log"
	"net"
	"net/http"
	"regexp"
	"strconv"
	"strings"
	"sync/atomic"
	"time"
)

const (
	pushPath  = "/loki/api/v1/push"
	readyPath = "/ready"
	// for an answer of the server, as nginx waits for one
	answerTime = 60 * time.Second
	dialTime   = 5 * time.Second
	// less than the time after which the server closes an idle connection
	idleTime = 30 * time.Second
	// of the text of an answer, which has a line for each entry that is refused. (Those of a part are less.)
	mostAnswer = 1 << 20
)

// The server that pushes are sent on to, over connections that are kept.
type server struct {
	address string
	// of each push, the beginning of its head
	head   string
	pushes *keptConnections
	looks  *http.Client
	isAway atomic.Bool
}

func newServer(address string) *server {
	kept := newKept(address)
	return &server{
		address: address,
		head: "POST " + pushPath + " HTTP/1.1\r\nHost: " + strings.SplitN(address, "//", 2)[1] +
			"\r\nUser-Agent: needleazure-gateway\r\nContent-Type: application/json\r\nX-Scope-OrgID: ",
		pushes: kept,
		looks:  newClient(),
	}
}

// (a look for /ready keeps no worker)
func newClient() *http.Client {
	dialer := net.Dialer{Timeout: dialTime}
	by := &http.Transport{
		DialContext:           dialer.DialContext,
		MaxConnsPerHost:       2,
		DisableKeepAlives:     true,
		DisableCompression:    true,
		ResponseHeaderTimeout: answerTime,
	}
	noRedirect := func(*http.Request, []*http.Request) error { return http.ErrUseLastResponse }
	return &http.Client{Transport: by, CheckRedirect: noRedirect}
}

// An answer of the server.
type answer struct {
	status int
	kind   string
	text   string
}

// push sends a body for a tenant, which is of letters that may stand in a head. The answer has to come until then.
func (it *server) push(in context.Context, until time.Time, tenant string, body *buffer) (answer, error) {
	select {
	case <-in.Done():
		return answer{}, in.Err()
	default:
	}
	by, err := it.pushes.take(in)
	if err != nil {
		return answer{}, err
	}
	by.in, by.until = in, time.Now().Add(answerTime)
	if until.Before(by.until) {
		by.until = until
	}
	head := append(append(by.headSpace[:0], it.head...), tenant...)
	head = strconv.AppendInt(append(head, "\r\nContent-Length: "...), int64(len(body.bytes)), 10)
	found, isKept, err := by.ask(append(head, "\r\n\r\n"...), body)
	if err == nil && isKept {
		it.pushes.keep(by)
	} else {
		by.Close()
	}
	return found, err
}

func (it *server) ready(in context.Context) (answer, error) {
	asked, err := http.NewRequestWithContext(in, http.MethodGet, it.address+readyPath, nil)
	if err != nil {
		return answer{}, err
	}
	asked.Header.Set("User-Agent", "needleazure-gateway")
	got, err := it.looks.Do(asked)
	if err != nil {
		return answer{}, err
	}
	defer got.Body.Close()
	text, err := io.ReadAll(io.LimitReader(got.Body, mostAnswer))
	if err != nil {
		return answer{}, err
	}
	return answer{got.StatusCode, got.Header.Get("Content-Type"), string(text)}, nil
}

// note says once that the server is away, and once that it is back.
func (it *server) note(err error) {
	if errors.Is(err, context.Canceled) {
		return
	}
	switch isAway := err != nil; {
	case it.isAway.Swap(isAway) == isAway:
	case isAway:
		log.Printf("the server does not answer: %s", err)
	default:
		log.Printf("the server at %s answers again", it.address)
	}
}

// unanswered is the answer where the server gave none: what was sent may be stored or not, and is sent again.
func unanswered(err error) error {
	var late net.Error
	switch {
	case errors.Is(err, context.Canceled):
		return &fault{clientGone, "the client has gone"}
	case errors.As(err, &late) && late.Timeout():
		return &fault{http.StatusGatewayTimeout, "the server did not answer in time, send it again"}
	}
	return &fault{http.StatusBadGateway, "the server is away, send it again"}
}

// (which nobody is told, but the metrics, by nginx's number for it)
const clientGone = 499

// A verdict is the answer to a push, out of those to its parts: the worst status, and all lines, numbered as the
// streams and entries of the body that came.
type verdict struct {
	status int
	kind   string
	lines  []string
	// of all lines
	bytes int
	// what stands behind the last of them
	end string
}

const moreRefused = "more was refused than an answer has room for"

func (it *verdict) say(line string) {
	switch it.bytes += len(line) + 1; {
	case it.bytes <= mostAnswer:
		it.lines = append(it.lines, line)
	case it.lines[len(it.lines)-1] != moreRefused:
		it.lines = append(it.lines, moreRefused)
	}
}

// refuse is for a stream that can't be sent.
func (it *verdict) refuse(number int, why string) {
	it.status = http.StatusBadRequest
	it.say(fmt.Sprintf("stream %d: %s", number, why))
	it.end = "\n"
}

// add takes the answer to a part, and says whether the next one is to be sent: where this one has to be sent again, so
// has the whole body, and what isn't sent yet isn't stored twice then.
func (it *verdict) add(to part, found answer) bool {
	goesOn := found.status == http.StatusNoContent || found.status == http.StatusBadRequest
	if !goesOn || found.status == http.StatusBadRequest || it.status == 0 {
		it.status = found.status
	}
	if found.kind != "" {
		it.kind = found.kind
	}
	for _, line := range strings.Split(found.text, "\n") {
		if line != "" {
			it.say(to.renumber(line))
		}
	}
	if strings.HasSuffix(found.text, "\n") {
		it.end = "\n"
	}
	return goesOn
}

func (it *verdict) answer() answer {
	return answer{it.status, it.kind, strings.Join(it.lines, "\n") + it.end}
}

var numbered = regexp.MustCompile(`^stream (\d+)(?: entry (\d+))?: `)

// renumber gives a line of an answer the numbers that its stream and entry had in the body that came.
func (it *part) renumber(line string) string {
	found := numbered.FindStringSubmatch(line)
	if found == nil {
		return line
	}
	at, err := strconv.Atoi(found[1])
	if err != nil || at >= len(it.spans) {
		return line
	}
	from, rest := it.spans[at], line[len(found[0]):]
	if found[2] == "" {
		return "stream " + strconv.Itoa(from.stream) + ": " + rest
	}
	entry, err := strconv.Atoi(found[2])
	if err != nil {
		return line
	}
	return "stream " + strconv.Itoa(from.stream) + " entry " + strconv.Itoa(from.first+entry) + ": " + rest
}
