package main

import (
	"bufio"
	"context"
	"fmt"
	"io"
	"net"
	"net/http"
	"net/http/httptest"
	"strings"
	"sync/atomic"
	"testing"
	"time"
)

// A server that answers each request over its connections by the next of some texts, and counts its connections.
type scripted struct {
	net.Listener
	connections atomic.Int32
}

// (byte by byte where `pause` is told; a text of no bytes ends the connection)
func newScripted(t *testing.T, pause time.Duration, texts ...string) *scripted {
	listening, err := net.Listen("tcp", "127.0.0.1:0")
	if err != nil {
		t.Fatal(err)
	}
	it, next := &scripted{Listener: listening}, make(chan string, len(texts))
	for _, each := range texts {
		next <- each
	}
	go func() {
		for {
			line, err := listening.Accept()
			if err != nil {
				return
			}
			it.connections.Add(1)
			go answerEach(line, next, pause)
		}
	}()
	t.Cleanup(func() { listening.Close() })
	return it
}

func answerEach(line net.Conn, next chan string, pause time.Duration) {
	defer line.Close()
	from := bufio.NewReader(line)
	for {
		asked, err := http.ReadRequest(from)
		if err != nil {
			return
		}
		io.Copy(io.Discard, asked.Body)
		text := <-next
		if text == "" {
			return
		}
		if pause == 0 {
			io.WriteString(line, text)
			continue
		}
		for at := range text {
			io.WriteString(line, text[at:at+1])
			time.Sleep(pause)
		}
	}
}

func (it *scripted) server() *server { return newServer("http://" + it.Addr().String()) }

func bodyOf(text string) *buffer { return &buffer{bytes: []byte(text)} }

const plainHead = "HTTP/1.1 400 Bad Request\r\nContent-Type: text/plain\r\n"

// What the server may answer, and whether its connection is used again.
var answersToRead = map[string]struct {
	text   string
	wanted answer
	isKept bool
}{
	"stored":       {string(stored), answer{204, "", ""}, true},
	"stored, date": {"HTTP/1.1 204 No Content\r\nDate: now\r\nContent-Length: 0\r\n\r\n", answer{204, "", ""}, true},
	"with a length": {plainHead + "Content-Length: 15\r\n\r\nstream 0: a b\r\n", answer{400, "text/plain", "stream 0: a b\r\n"},
		true},
	"twice the same length": {plainHead + "content-length: 1\r\nContent-Length: 1\r\n\r\na", answer{400, "text/plain", "a"}, true},
	"no bytes":              {plainHead + "Content-Length:\t0 \r\n\r\n", answer{400, "text/plain", ""}, true},
	"closes": {plainHead + "Connection: Close\r\nContent-Length: 1\r\n\r\na", answer{400, "text/plain", "a"},
		false},
	"HTTP/1.0": {"HTTP/1.0 500 a\r\nContent-Length: 1\r\n\r\na", answer{500, "", "a"}, false},
	"in chunks": {plainHead + "Transfer-Encoding: chunked\r\n\r\n3\r\nabc\r\n2;x=y\r\nde\r\n0\r\n\r\n",
		answer{400, "text/plain", "abcde"}, true},
	"chunks and fields": {plainHead + "Transfer-Encoding: chunked\r\n\r\n1\r\na\r\n0\r\nMore: a\r\n\r\n",
		answer{400, "text/plain", "a"}, true},
	"an answer before":  {"HTTP/1.1 100 Continue\r\n\r\nHTTP/1.1 103 a\r\nLink: a\r\n\r\n" + string(stored), answer{204, "", ""}, true},
	"no reason":         {"HTTP/1.1 503\r\nContent-Length: 1\r\n\r\na", answer{503, "", "a"}, true},
	"more than it said": {plainHead + "Content-Length: 1\r\n\r\nab", answer{400, "text/plain", "a"}, false},
}

func TestAnswers(t *testing.T) {
	for name, it := range answersToRead {
		for _, pause := range []time.Duration{0, 20 * time.Microsecond} {
			serving := newScripted(t, pause, it.text, string(stored))
			server := serving.server()
			found, err := server.push(context.Background(), time.Now().Add(time.Minute), "t", bodyOf("{}"))
			if err != nil || found != it.wanted {
				t.Errorf("%s: %v, %v", name, found, err)
			}
			// (an answer that comes to its end later is not waited for)
			if pause > 0 {
				continue
			}
			if found, err = server.push(context.Background(), time.Now().Add(time.Minute), "t", bodyOf("{}")); err != nil || found.status != 204 {
				t.Errorf("%s: then %v, %v", name, found, err)
			}
			if count := serving.connections.Load(); (count == 1) != it.isKept {
				t.Errorf("%s: %d connections", name, count)
			}
		}
	}
}

func TestNoAnswers(t *testing.T) {
	for name, text := range map[string]string{
		"nothing":             "",
		"another protocol":    "SSH-2.0-OpenSSH\r\n\r\n",
		"HTTP/2":              "HTTP/2 204\r\n\r\n",
		"no status":           "HTTP/1.1 OK\r\n\r\n",
		"a status of four":    "HTTP/1.1 2040 OK\r\n\r\n",
		"another protocol's":  "HTTP/1.1 101 Switching Protocols\r\n\r\n",
		"no field":            "HTTP/1.1 204 No Content\r\nnothing\r\n\r\n",
		"a field on two":      "HTTP/1.1 200 OK\r\nA: b\r\n c: d\r\nContent-Length: 0\r\n\r\n",
		"two lengths":         plainHead + "Content-Length: 1\r\nContent-Length: 2\r\n\r\nab",
		"a length below 0":    plainHead + "Content-Length: -1\r\n\r\n",
		"a length of letters": plainHead + "Content-Length: a\r\n\r\n",
		"another encoding":    plainHead + "Transfer-Encoding: gzip\r\n\r\n",
		"a head without end":  "HTTP/1.1 200 OK\r\n" + strings.Repeat("A: b\r\n", 4_000),
		"chunks that lie":     plainHead + "Transfer-Encoding: chunked\r\n\r\nx\r\n",
	} {
		serving := newScripted(t, 0, text, "")
		if found, err := serving.server().push(context.Background(), time.Now().Add(time.Minute), "t", bodyOf("{}")); err == nil {
			t.Errorf("%s: %v", name, found)
		}
	}
}

// An answer that ends with its connection, whole or not.
func TestAnswersToTheEnd(t *testing.T) {
	for text, wanted := range map[string]string{
		"HTTP/1.1 500 a\r\n\r\nall of it":                                   "all of it",
		"HTTP/1.1 500 a\r\nContent-Length: 9\r\n\r\nall of":                 "unexpected EOF",
		"HTTP/1.1 500 a\r\nContent-Le":                                      "unexpected EOF",
		"HTTP/1.1 500 a\r\nTransfer-Encoding: chunked\r\n\r\n9\r\nall":      "unexpected EOF",
		"HTTP/1.1 500 a\r\nTransfer-Encoding: chunked\r\n\r\n3\r\nall\r\n0": "unexpected EOF",
	} {
		ends := httptest.NewServer(http.HandlerFunc(func(to http.ResponseWriter, from *http.Request) {
			line, _, _ := to.(http.Hijacker).Hijack()
			io.WriteString(line, text)
			line.Close()
		}))
		defer ends.Close()
		found, err := newServer(ends.URL).push(context.Background(), time.Now().Add(time.Minute), "t", bodyOf(""))
		if err != nil {
			found.text = err.Error()
		}
		if found.text != wanted {
			t.Errorf("%q: %v", text, found)
		}
	}
}

// A connection that the server has ended, or on which it has said something, is not used for the next push.
func TestStaleConnections(t *testing.T) {
	for name, behind := range map[string]string{"ended": "", "said": "HTTP/1.1 408 Request Timeout\r\n\r\n"} {
		serving := newScripted(t, 0, string(stored), string(stored))
		server := serving.server()
		if _, err := server.push(context.Background(), time.Now().Add(time.Minute), "t", bodyOf("{}")); err != nil {
			t.Fatal(err)
		}
		idle := server.pushes.idle[0]
		one, other := pairOf(t)
		by, err := newConnection(one, one)
		if err != nil {
			t.Fatal(err)
		}
		by.lastUse, server.pushes.idle[0] = idle.lastUse, by
		io.WriteString(other, behind)
		if behind == "" {
			other.Close()
		}
		time.Sleep(10 * time.Millisecond)
		if found, err := server.push(context.Background(), time.Now().Add(time.Minute), "t", bodyOf("{}")); err != nil || found.status != 204 {
			t.Errorf("%s: %v, %v", name, found, err)
		}
		if serving.connections.Load() != 2 {
			t.Errorf("%s: %d connections", name, serving.connections.Load())
		}
		idle.Close()
	}
}

// pairOf is the two ends of a connection.
func pairOf(t *testing.T) (one, other net.Conn) {
	listening, err := net.Listen("tcp", "127.0.0.1:0")
	if err != nil {
		t.Fatal(err)
	}
	defer listening.Close()
	if one, err = net.Dial("tcp", listening.Addr().String()); err == nil {
		other, err = listening.Accept()
	}
	if err != nil {
		t.Fatal(err)
	}
	t.Cleanup(func() { one.Close(); other.Close() })
	return one, other
}

// Idle connections are closed after a while, the one that was used last not before it.
func TestIdleConnections(t *testing.T) {
	kept := newKept("http://127.0.0.1:1")
	for at := 0; at < 3; at++ {
		one, _ := pairOf(t)
		by, err := newConnection(one, one)
		if err != nil {
			t.Fatal(err)
		}
		kept.keep(by)
	}
	kept.idle[0].lastUse = time.Now().Add(-idleTime)
	kept.idle[1].lastUse = time.Now().Add(-idleTime)
	first, last := kept.idle[0], kept.idle[2]
	kept.closeIdle()
	if len(kept.idle) != 1 || kept.idle[0] != last || first.isOpen() || kept.closing == nil {
		t.Errorf("%d left", len(kept.idle))
	}
	last.lastUse = time.Now().Add(-idleTime)
	if kept.closeIdle(); len(kept.idle) != 0 || kept.closing != nil {
		t.Errorf("%d left", len(kept.idle))
	}
}

// Over TLS, whose connections also say what is no answer.
func TestSecure(t *testing.T) {
	var connections atomic.Int32
	serving := httptest.NewUnstartedServer(http.HandlerFunc(func(to http.ResponseWriter, from *http.Request) {
		io.Copy(io.Discard, from.Body)
		fmt.Fprint(to, from.Header.Get("X-Scope-OrgID"))
	}))
	serving.Config.ConnState = func(_ net.Conn, state http.ConnState) {
		if state == http.StateNew {
			connections.Add(1)
		}
	}
	serving.StartTLS()
	defer serving.Close()
	server := newServer(serving.URL)
	if _, err := server.push(context.Background(), time.Now().Add(time.Minute), "t", bodyOf("{}")); err == nil {
		t.Error("a certificate of nobody's is taken")
	}
	server.pushes.secure.RootCAs = serving.Client().Transport.(*http.Transport).TLSClientConfig.RootCAs
	for at := 0; at < 3; at++ {
		if found, err := server.push(context.Background(), time.Now().Add(time.Minute), "t", bodyOf("{}")); err != nil || found.text != "t" {
			t.Errorf("%v, %v", found, err)
		}
	}
	if connections.Load() != 2 {
		t.Errorf("%d connections", connections.Load())
	}
}

func FuzzAnswer(f *testing.F) {
	for _, it := range answersToRead {
		f.Add([]byte(it.text))
	}
	f.Fuzz(func(t *testing.T, text []byte) {
		one, other := net.Pipe()
		defer one.Close()
		go func() {
			other.Write(text)
			other.Close()
		}()
		by := &connection{Conn: one, space: make([]byte, 64), in: context.Background(), until: time.Now().Add(time.Minute)}
		found, _, err := by.answer()
		if err == nil && (found.status < 200 || found.status > 999 || len(found.text) > mostAnswer) {
			t.Errorf("%q: %v", text, found)
		}
	})
}
