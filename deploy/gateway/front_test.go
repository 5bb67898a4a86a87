package main

import (
	"bufio"
	"bytes"
	"context"
	"fmt"
	"io"
	"net"
	"net/http"
	"net/http/httptest"
	"strings"
	"testing"
	"time"
)

// What shippers and others send as the head of a push, with a body of two bytes.
var headsToRead = []struct {
	text    string
	isUsual bool
}{
	{pushLine + "Host: a\r\nContent-Length: 2\r\n", true},
	{pushLine + "host:a:3100\r\nCONTENT-LENGTH:\t2 \r\nUser-Agent: promtail/2.9\r\n", true},
	{pushLine + "Host: [::1]:80\r\nContent-Type: application/json\r\nContent-Encoding: gzip\r\nX-Scope-Orgid: t\r\nContent-Length: 2\r\n", true},
	{pushLine + "Host: \r\nContent-Length: 2\r\nConnection: Keep-Alive\r\nAccept: */*\r\nX-Empty:\r\n", true},
	{pushLine + "Host: a\r\nContent-Length: 00002\r\nX-Scope-OrgID: \r\n", true},

	{"POST /loki/api/v1/push HTTP/1.0\r\nHost: a\r\nContent-Length: 2\r\n", false},
	{"POST /loki/api/v1/push?a=b HTTP/1.1\r\nHost: a\r\nContent-Length: 2\r\n", false},
	{"POST  /loki/api/v1/push HTTP/1.1\r\nHost: a\r\nContent-Length: 2\r\n", false},
	{"PUT /loki/api/v1/push HTTP/1.1\r\nHost: a\r\nContent-Length: 2\r\n", false},
	{"POST /otlp/v1/logs HTTP/1.1\r\nHost: a\r\nContent-Length: 2\r\n", false},
	{pushLine + "Content-Length: 2\r\n", false},
	{pushLine + "Host: a\r\n", false},
	{pushLine, false},
	{pushLine + "Host: a\r\nHost: b\r\nContent-Length: 2\r\n", false},
	{pushLine + "Host: a b\r\nContent-Length: 2\r\n", false},
	{pushLine + "Host: a\r\nContent-Length: 2\r\nContent-Length: 2\r\n", false},
	{pushLine + "Host: a\r\nContent-Length: +2\r\n", false},
	{pushLine + "Host: a\r\nContent-Length: 0x2\r\n", false},
	{pushLine + "Host: a\r\nContent-Length: 2, 2\r\n", false},
	{pushLine + "Host: a\r\nContent-Length:\r\n", false},
	{pushLine + "Host: a\r\nContent-Length: 9223372036854775809\r\n", false},
	{pushLine + "Host: a\r\nTransfer-Encoding: chunked\r\n", false},
	{pushLine + "Host: a\r\nTransfer-Encoding: chunked\r\nContent-Length: 2\r\n", false},
	{pushLine + "Host: a\r\nContent-Length: 2\r\nExpect: 100-continue\r\n", false},
	{pushLine + "Host: a\r\nContent-Length: 2\r\nConnection: close\r\n", false},
	{pushLine + "Host: a\r\nContent-Length: 2\r\nUpgrade: websocket\r\n", false},
	{pushLine + "Host: a\r\nContent-Length: 2\r\nX-Scope-OrgID: a\r\nX-Scope-OrgID: b\r\n", false},
	{pushLine + "Host: a\r\nContent-Length: 2\r\nX-Scope-OrgID: a\r\n b\r\n", false},
	{pushLine + "Host: a\r\nContent-Length: 2\r\nX-Scope-OrgID : a\r\n", false},
	{pushLine + "Host: a\r\nContent-Length: 2\r\nX-Scope-OrgID\r\n", false},
	{pushLine + "Host: a\r\nContent-Length: 2\r\nX-More: \x00\r\n", false},
	{pushLine + "Host: a\r\nContent-Length: 2\r\nX-More: \xe9\r\n", false},
	{pushLine + "Host: a\nContent-Length: 2\r\n", false},
	{pushLine + "Host: a\r\rContent-Length: 2\r\n", false},
	{pushLine + "Host: a\r\nContent-Length: 2\r\n: a\r\n", false},
	{pushLine + "Host: a\r\nContent-Length: 2\r\nX-Long: " + strings.Repeat("a", shipperSpace) + "\r\n", false},
}

// checkHead holds a head against net/http's reading of it, and returns whether it is a usual one.
func checkHead(t *testing.T, text []byte) bool {
	var it pushHead
	length, isUsual := it.read(text)
	if !isUsual || length == 0 {
		return false
	}
	from, err := http.ReadRequest(bufio.NewReader(bytes.NewReader(text)))
	if err != nil {
		t.Fatalf("%v: %q", err, text)
	}
	isSo := from.Method == "POST" && from.RequestURI == pushPath && from.ProtoAtLeast(1, 1) && !from.Close &&
		from.TransferEncoding == nil && from.Trailer == nil && from.Header.Get("Expect") == "" && headOf(from) == it.said
	if !isSo || !bytes.HasSuffix(text[:length], []byte("\r\n\r\n")) {
		t.Fatalf("%v: %q", it.said, text)
	}
	return true
}

func TestHeads(t *testing.T) {
	for _, it := range headsToRead {
		text := []byte(it.text + "\r\n{}")
		if len(text) > shipperSpace {
			text = text[:shipperSpace]
		}
		if checkHead(t, text) != it.isUsual {
			t.Errorf("%q", it.text)
		}
		for length := range text[:len(text)-4] {
			var by pushHead
			if found, isUsual := by.read(text[:length]); it.isUsual && (found > 0 || !isUsual) {
				t.Errorf("%q: %d, %v", text[:length], found, isUsual)
			}
		}
	}
}

func FuzzHead(f *testing.F) {
	for _, it := range headsToRead {
		f.Add([]byte(it.text[len(pushLine):]))
	}
	f.Fuzz(func(t *testing.T, text []byte) { checkHead(t, append([]byte(pushLine), text...)) })
}

// A gateway that listens, by its front or by net/http alone, with less time for a body.
func listen(t *testing.T, address string, hasFront bool, more ...string) (*gateway, string) {
	given, err := readWords(append([]string{"--listen", "127.0.0.1:0", "--to", address}, more...))
	if err != nil {
		t.Fatal(err)
	}
	by := newGateway(given)
	by.within = 200 * time.Millisecond
	if !hasFront {
		serving := httptest.NewUnstartedServer(by.handler())
		serving.Config.ConnContext = keepLine
		serving.Config.MaxHeaderBytes = mostHead
		serving.Start()
		t.Cleanup(serving.Close)
		return by, serving.Listener.Addr().String()
	}
	listening, err := net.Listen("tcp", given.listen)
	if err != nil {
		t.Fatal(err)
	}
	ends, end := context.WithCancel(context.Background())
	ended := make(chan error, 1)
	go func() { ended <- serve(ends, listening, by) }()
	t.Cleanup(func() {
		end()
		if err := <-ended; err != nil {
			t.Error(err)
		}
	})
	return by, listening.Addr().String()
}

// said is what is answered to bytes that come in pieces, up to the end of the connection; without what differs by time.
func said(t *testing.T, address string, wanted int, pieces ...string) (found []string) {
	line, err := net.Dial("tcp", address)
	if err != nil {
		t.Fatal(err)
	}
	defer line.Close()
	line.SetDeadline(time.Now().Add(20 * time.Second))
	go func() {
		for _, each := range pieces {
			io.WriteString(line, each)
			time.Sleep(time.Second / time.Duration(20*len(pieces)))
		}
	}()
	from := bufio.NewReader(line)
	for len(found) < wanted {
		got, err := http.ReadResponse(from, nil)
		if err != nil {
			return append(found, "end")
		}
		text, err := io.ReadAll(got.Body)
		if err != nil {
			t.Errorf("%v: %v", got.Status, err)
		}
		if got.Header.Get("Date") != "" {
			got.Header.Set("Date", "now")
		}
		found = append(found, fmt.Sprint(got.Status, got.Header, got.Close, string(text)))
	}
	return found
}

func headWith(fields string, body string) string {
	return pushLine + "Host: a\r\nContent-Type: application/json\r\n" + fields + fmt.Sprintf("Content-Length: %d\r\n\r\n%s", len(body), body)
}

// A connection is answered the same by the front as by net/http alone.
func TestFront(t *testing.T) {
	stands := newStandIn(t)
	_, plain := listen(t, stands.URL, false, "--max-body", "65536", "--memory", "4000000")
	_, fronted := listen(t, stands.URL, true, "--max-body", "65536", "--memory", "4000000")
	good := headWith("X-Scope-OrgID: t\r\n", "{}")
	ready := "GET /ready HTTP/1.1\r\nHost: a\r\n\r\n"
	for name, it := range map[string]struct {
		wanted int
		pieces []string
	}{
		"one":                      {1, []string{good}},
		"several":                  {3, []string{good, good, good}},
		"behind one another":       {4, []string{good + good + good, good[:20], good[20:]}},
		"byte by byte":             {2, strings.Split(good+good, "")},
		"head, body":               {1, []string{good[:len(good)-2], "{", "}"}},
		"no JSON":                  {2, []string{headWith("X-Scope-OrgID: t\r\n", "{"), good}},
		"no bytes":                 {2, []string{headWith("X-Scope-OrgID: t\r\n", ""), good}},
		"no tenant":                {2, []string{headWith("", "{}"), good}},
		"a bad tenant":             {2, []string{good + headWith("X-Scope-OrgID: a.b\r\n", "{}"), good}},
		"another encoding":         {2, []string{headWith("X-Scope-OrgID: t\r\nContent-Encoding: br\r\n", "{}"), good}},
		"gzip":                     {2, []string{headWith("X-Scope-OrgID: t\r\nContent-Encoding: gzip\r\n", gzipped("{}")), good}},
		"large":                    {2, []string{headWith("X-Scope-OrgID: t\r\n", "{}"+strings.Repeat(" ", 60_000)), good}},
		"too large":                {2, []string{headWith("X-Scope-OrgID: t\r\n", "{}"+strings.Repeat(" ", 70_000)), good}},
		"others in between":        {4, []string{good, ready, good + ready}},
		"another first":            {3, []string{ready, good, ready}},
		"another method":           {2, []string{"GET" + good[4:], good}},
		"no such path":             {2, []string{"POST /loki/api/v1/pus HTTP/1.1\r\nHost: a\r\nContent-Length: 0\r\n\r\n", good}},
		"in chunks":                {2, []string{pushLine + "Host: a\r\nContent-Type: application/json\r\nX-Scope-OrgID: t\r\nTransfer-Encoding: chunked\r\n\r\n2\r\n{}\r\n0\r\n\r\n", good}},
		"expects":                  {2, []string{headWith("X-Scope-OrgID: t\r\nExpect: 100-continue\r\n", "{}")}},
		"closes":                   {2, []string{good, headWith("X-Scope-OrgID: t\r\nConnection: close\r\n", "{}")}},
		"HTTP/1.0":                 {2, []string{strings.Replace(good, "1.1", "1.0", 1)}},
		"nothing of HTTP":          {2, []string{"hello\r\n\r\n"}},
		"a line too many":          {2, []string{"\r\n" + good, good}},
		"slow":                     {2, []string{good[:len(good)-1]}},
		"a large head":             {2, []string{headWith("X-Scope-OrgID: t\r\nX-More: "+strings.Repeat("a", 10_000)+"\r\n", "{}"), good}},
		"a head that is too large": {2, []string{headWith("X-Scope-OrgID: t\r\nX-More: "+strings.Repeat("a", 30_000)+"\r\n", "{}")}},
	} {
		wanted, found := said(t, plain, it.wanted, it.pieces...), said(t, fronted, it.wanted, it.pieces...)
		if fmt.Sprint(found) != fmt.Sprint(wanted) || len(found) != it.wanted || found[0] == "end" {
			t.Errorf("%s:\n%q in place of\n%q", name, found, wanted)
		}
	}
}

// A push whose shipper goes ends, and is counted as such; one whose shipper ends its connection idle is none.
func TestShipperGoes(t *testing.T) {
	waits := httptest.NewServer(http.HandlerFunc(func(to http.ResponseWriter, from *http.Request) {
		io.Copy(io.Discard, from.Body)
		<-from.Context().Done()
	}))
	defer waits.Close()
	by, address := listen(t, waits.URL, true, "--tenant", "t", "--connections", "1")
	for at := 0; at < 2; at++ {
		line, err := net.Dial("tcp", address)
		if err != nil {
			t.Fatal(err)
		}
		io.WriteString(line, headWith("", "{}"))
		time.AfterFunc(300*time.Millisecond, func() { line.Close() })
	}
	line := `needleazure_gateway_requests_total{form="json",status="499"} 2`
	for until := time.Now().Add(10 * time.Second); time.Now().Before(until); time.Sleep(10 * time.Millisecond) {
		if strings.Contains(ask1(by.handler(), "GET", "/metrics", "").text, line) {
			return
		}
	}
	t.Errorf("%s", ask1(by.handler(), "GET", "/metrics", "").text)
}

// At a stop connections that ask for nothing are closed at once, and those that were left to net/http too.
func TestFrontEnds(t *testing.T) {
	given, _ := readWords([]string{"--listen", "127.0.0.1:0", "--to", newStandIn(t).URL, "--tenant", "t"})
	listening, err := net.Listen("tcp", given.listen)
	if err != nil {
		t.Fatal(err)
	}
	ends, end := context.WithCancel(context.Background())
	ended := make(chan error)
	go func() { ended <- serve(ends, listening, newGateway(given)) }()
	for _, asked := range []string{"", headWith("", "{}"), "GET /ready HTTP/1.1\r\nHost: a\r\n\r\n"} {
		line, err := net.Dial("tcp", listening.Addr().String())
		if err != nil {
			t.Fatal(err)
		}
		defer line.Close()
		if io.WriteString(line, asked); asked != "" {
			if _, err := line.Read(make([]byte, 1_000)); err != nil {
				t.Fatal(err)
			}
		}
	}
	time.Sleep(50 * time.Millisecond)
	end()
	select {
	case err := <-ended:
		if err != nil {
			t.Error(err)
		}
	case <-time.After(5 * time.Second):
		t.Error("not within 5 seconds")
	}
}
