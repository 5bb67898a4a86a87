package main

import (
	"bufio"
	"bytes"
	"errors"
	"fmt"
	"io"
	"net"
	"net/http"
	"os"
	"strconv"
	"strings"
	"time"
)

const (
	// an answer with more that nobody wants is cut off
	mostSkipped = 64 << 10
	// of the text of a refusal
	mostSaid = 300
)

// A request to the server, of a tenant unless it has no body.
type request struct {
	route, tenant string
	body          []byte
}

// An answer of the server. Its body is there until the next one is read.
type answer struct {
	status int
	length int64
	body   *io.LimitedReader
}

// A refusal is what the server answers of a stream that it doesn't read or trim, or a Loki of a tenant or a stream
// whose lines it doesn't take.
type refusal struct{ text string }

func (it *refusal) Error() string { return it.text }

// unreachable is why a connection is given no answer.
type unreachable struct{ text string }

func (it *unreachable) Error() string { return it.text }

// A broken is a connection that broke in the middle.
type broken struct{ error }

func (it *broken) Unwrap() error { return it.error }

// refused is the refusal that an answer says, and nothing where it is none.
func (it *answer) refused() error {
	if it.status == http.StatusOK {
		return nil
	}
	return &refusal{fmt.Sprintf("%d %s", it.status, it.said())}
}

func (it *answer) said() string {
	text, _ := io.ReadAll(io.LimitReader(it.body, mostSaid))
	return strings.TrimSpace(strings.ToValidUTF8(string(text), "\ufffd"))
}

// A connection to the server, which is kept, and has a time for each answer. One worker uses it.
type connection struct {
	address  string
	patience time.Duration
	line     net.Conn
	reader   *bufio.Reader
	out      []byte
	// entries of the answer that was read last
	text  []byte
	spans []span
}

func newConnection(port int, patience time.Duration) *connection {
	return &connection{address: net.JoinHostPort("127.0.0.1", strconv.Itoa(port)), patience: patience}
}

func (it *connection) close() {
	if it.line != nil {
		it.line.Close()
		it.line = nil
	}
}

// wait returns once a worker of the server has this connection.
func (it *connection) wait() error {
	return it.exchange([]request{{route: "/ready"}}, func(_ int, got *answer) error {
		if said := got.said(); got.status != http.StatusOK {
			return &unreachable{fmt.Sprintf("it is not ready: %d %s", got.status, said)}
		}
		return nil
	})
}

// exchange sends requests at once, and has each answer used in turn. A connection that the server has closed meanwhile
// is made anew, and what wasn't answered is sent again. What `use` fails with ends it.
func (it *connection) exchange(asked []request, use func(at int, got *answer) error) error {
	for done := 0; done < len(asked); {
		wasUsed := it.line != nil
		count, err := it.tryOnce(asked[done:], func(at int, got *answer) error { return use(done+at, got) })
		done += count
		if err = it.judge(err, wasUsed || count > 0); err != nil {
			return err
		}
	}
	return nil
}

// judge is what a try failed with, and nothing where it is to be made again since a connection broke that was good
// before.
func (it *connection) judge(err error, wasGood bool) error {
	var said *refusal
	var cut *broken
	if err == nil || errors.As(err, &said) {
		return err
	}
	it.close()
	switch {
	case errors.Is(err, os.ErrDeadlineExceeded):
		return &unreachable{fmt.Sprintf("no answer within %g s: look whether as many connections are open as may be",
			it.patience.Seconds())}
	case !errors.As(err, &cut):
		return err
	case !wasGood:
		return &unreachable{cause(err)}
	}
	return nil
}

// tryOnce returns how many requests were answered. Where the answer is one after which the server closes, or so long
// that its rest isn't read, these are not all.
func (it *connection) tryOnce(asked []request, use func(at int, got *answer) error) (int, error) {
	if it.line == nil {
		line, err := net.DialTimeout("tcp", it.address, it.patience)
		if err != nil {
			return 0, &broken{err}
		}
		it.line, it.reader = line, bufio.NewReaderSize(line, 32<<10)
	}
	if err := it.send(asked); err != nil {
		return 0, &broken{err}
	}
	for at := range asked {
		if err := it.receive(func(got *answer) error { return use(at, got) }); err != nil {
			return at, err
		} else if it.line == nil {
			return at + 1, nil
		}
	}
	return len(asked), nil
}

func (it *connection) send(asked []request) error {
	it.out = it.out[:0]
	for _, one := range asked {
		if one.body == nil {
			it.out = append(append(append(it.out, "GET "...), one.route...), " HTTP/1.1\r\nHost: 127.0.0.1\r\n\r\n"...)
			continue
		}
		it.out = append(append(append(it.out, "POST "...), one.route...), " HTTP/1.1\r\nHost: 127.0.0.1\r\n"...)
		it.out = append(it.out, "X-Scope-OrgID: "...)
		it.out = append(append(it.out, one.tenant...), "\r\nContent-Type: application/json\r\nContent-Length: "...)
		it.out = append(append(strconv.AppendInt(it.out, int64(len(one.body)), 10), "\r\n\r\n"...), one.body...)
	}
	it.line.SetDeadline(time.Now().Add(it.patience))
	_, err := it.line.Write(it.out)
	return err
}

// receive has the next answer used, and closes the connection where it isn't good for another one.
func (it *connection) receive(use func(got *answer) error) error {
	it.line.SetDeadline(time.Now().Add(it.patience))
	got, closes, err := readHead(it.reader)
	if err != nil {
		return &broken{err}
	}
	var said *refusal
	fault := use(got)
	if fault != nil && !errors.As(fault, &said) {
		return fault
	}
	left := got.body.N
	skipped, err := it.reader.Discard(int(least(left, mostSkipped)))
	if err != nil {
		return &broken{err}
	}
	if int64(skipped) < left || closes {
		it.close()
	}
	return fault
}

// readHead reads the head of an answer, and whether the server closes after it. (Go's own reader takes five times as
// long, which is most of what an answer takes that has few lines.)
func readHead(from *bufio.Reader) (found *answer, closes bool, err error) {
	found = &answer{length: never}
	for line, isFirst := []byte(nil), true; ; isFirst = false {
		if line, err = from.ReadSlice('\n'); err != nil {
			return nil, false, err
		}
		line = bytes.TrimRight(line, "\r\n")
		name, value, _ := bytes.Cut(line, []byte(":"))
		switch value = bytes.TrimSpace(value); {
		case isFirst && (len(line) < 12 || !bytes.HasPrefix(line, []byte("HTTP/1.1 "))):
			return nil, false, fmt.Errorf("no answer of the server: %q", line)
		case isFirst:
			found.status, err = strconv.Atoi(string(line[9:12]))
		case len(line) == 0 && found.length < 0:
			return nil, false, errors.New("an answer without a length")
		case len(line) == 0:
			found.body = &io.LimitedReader{R: from, N: found.length}
			return found, closes, nil
		case bytes.EqualFold(name, []byte("Content-Length")):
			found.length, err = strconv.ParseInt(string(value), 10, 63)
		case bytes.EqualFold(name, []byte("Connection")):
			closes = bytes.EqualFold(value, []byte("close"))
		}
		if err != nil {
			return nil, false, err
		}
	}
}

// begin has a window over the entries of an answer, in what this connection has room for.
func (it *connection) begin(got *answer) *window {
	return &window{from: got.body, text: it.text[:0], spans: it.spans[:0]}
}

// keep takes the room of a window back. What it found is there until the next one begins.
func (it *connection) keep(of *window) {
	it.text, it.spans = nil, of.spans
	if cap(of.text) <= 4*pieceBytes {
		it.text = of.text
	}
}

// take reads an answer of at most so many bytes whole. Otherwise it returns false.
func (it *connection) take(got *answer, most int64) (found part, isWhole bool, err error) {
	if err := got.refused(); err != nil || got.length > most {
		return found, false, err
	}
	over := it.begin(got)
	defer it.keep(over)
	if int64(cap(over.text)) <= got.length {
		over.text = make([]byte, 0, got.length+1)
	}
	if err := over.fill(1); err != nil {
		return found, false, readFault(err)
	} else if !over.isEnd {
		return found, false, errShape
	}
	return part{over.text, over.spans}, true, nil
}

// readFault tells an answer that can't be understood from a connection that broke.
func readFault(err error) error {
	if errors.Is(err, errShape) {
		return err
	}
	return &broken{err}
}
