package main

import (
	"bufio"
	"context"
	"encoding/json"
	"fmt"
	"io"
	"net"
	"net/http"
	"net/http/httptest"
	"strings"
	"sync"
	"testing"
	"time"

	"google.golang.org/protobuf/types/known/timestamppb"
)

// A server that answers as it is told, and keeps what it was sent.
type standIn struct {
	*httptest.Server
	sync.Mutex
	answers []answer
	tenants []string
	bodies  []sentBody
}

func newStandIn(t *testing.T, answers ...answer) *standIn {
	it := &standIn{answers: answers}
	it.Server = httptest.NewServer(http.HandlerFunc(it.serve))
	t.Cleanup(it.Close)
	return it
}

func (it *standIn) serve(to http.ResponseWriter, from *http.Request) {
	it.Lock()
	defer it.Unlock()
	if from.URL.Path == readyPath {
		io.WriteString(to, "ready")
		return
	}
	var body sentBody
	if err := json.NewDecoder(from.Body).Decode(&body); err != nil || from.Header.Get("Content-Type") != "application/json" {
		http.Error(to, fmt.Sprint(err), http.StatusTeapot)
		return
	}
	it.tenants, it.bodies = append(it.tenants, from.Header.Get("X-Scope-OrgID")), append(it.bodies, body)
	next := answer{status: http.StatusNoContent}
	if len(it.answers) > 0 {
		next, it.answers = it.answers[0], it.answers[1:]
	}
	to.Header().Set("Content-Type", next.kind)
	to.WriteHeader(next.status)
	io.WriteString(to, next.text)
}

func over(address string, more ...string) http.Handler {
	given, err := readWords(append([]string{"--listen", "127.0.0.1:0", "--to", address}, more...))
	if err != nil {
		panic(err)
	}
	return newGateway(given).handler()
}

func ask1(by http.Handler, method, path, body string, head ...string) answer {
	from := httptest.NewRequest(method, path, strings.NewReader(body))
	for at := 0; at < len(head); at += 2 {
		from.Header.Set(head[at], head[at+1])
	}
	to := httptest.NewRecorder()
	by.ServeHTTP(to, from)
	return answer{to.Code, to.Header().Get("Content-Type"), to.Body.String()}
}

func pushJSON(by http.Handler, body string) answer {
	return ask1(by, "POST", pushPath, body, "Content-Type", "application/json", "X-Scope-OrgID", "t")
}

const plainText = "text/plain; charset=utf-8"

func TestRoutes(t *testing.T) {
	by := over(newStandIn(t).URL)
	for _, it := range []struct {
		method, path, body string
		head               []string
		wanted             answer
	}{
		{"GET", "/ready", "", nil, answer{200, plainText, "ready"}},
		{"HEAD", "/ready", "", nil, answer{200, plainText, "ready"}},
		{"POST", "/ready", "", nil, answer{405, plainText, "method not allowed\n"}},
		{"GET", pushPath, "", nil, answer{405, plainText, "method not allowed\n"}},
		{"POST", "/ingester/v1/read", "", nil, answer{404, plainText, "404 page not found\n"}},
		{"POST", pushPath, "", nil, answer{401, plainText, "no org id\n"}},
		{"POST", pushPath, "", []string{"X-Scope-OrgID", "t"}, answer{400, plainText, "mime: no media type\n"}},
		{"POST", pushPath, "{}", []string{"X-Scope-OrgID", "t", "Content-Type", "application/json"}, answer{204, "", ""}},
		{"POST", pushPath, snapped(""), []string{"X-Scope-OrgID", "t", "Content-Type", "application/x-protobuf"}, answer{204, "", ""}},
	} {
		if found := ask1(by, it.method, it.path, it.body, it.head...); found != it.wanted {
			t.Errorf("%s %s: %v", it.method, it.path, found)
		}
	}
	text := ask1(by, "GET", "/metrics", "").text
	for _, line := range []string{
		`needleazure_gateway_requests_total{form="json",status="204"} 1`, `needleazure_gateway_held_bytes 0`,
		`needleazure_gateway_requests_total{form="none",status="401"} 1`, `needleazure_gateway_parts_total 2`,
	} {
		if !strings.Contains(text, "\n"+line+"\n") {
			t.Errorf("no %s in %s", line, text)
		}
	}
}

func TestTenants(t *testing.T) {
	stands := newStandIn(t)
	by := over(stands.URL, "--tenant", "fake")
	pushJSON(by, `{}`)
	ask1(by, "POST", pushPath, "{}", "Content-Type", "application/json")
	if fmt.Sprint(stands.tenants) != "[t fake]" {
		t.Errorf("%v", stands.tenants)
	}
}

// A body of 25,000 entries in three parts, by what the server answers to each.
func TestVerdicts(t *testing.T) {
	body := `{"streams":[{},{"stream":{"a":"1"},"values":[` + strings.Repeat(`["1",""],`, 12_000) + `["1",""]]},` +
		`{"stream":{"b":"1"},"values":[` + strings.Repeat(`["1",""],`, 12_999) + `["1",""]]}]}`
	stored, lines := answer{204, "", ""}, func(status int, text string) answer { return answer{status, plainText, text} }
	for name, it := range map[string]struct {
		given  []answer
		parts  int
		wanted answer
	}{
		"stored":         {[]answer{stored, stored, stored}, 3, stored},
		"refused once":   {[]answer{stored, lines(400, "stream 1 entry 7: too old\n"), stored}, 3, lines(400, "stream 2 entry 7: too old\n")},
		"refused always": {[]answer{lines(400, "stream 0 entry 1: a"), lines(400, "stream 0 entry 1: b\nstream 1: c"), lines(400, "stream 0 entry 5: d")}, 3, lines(400, "stream 1 entry 1: a\nstream 1 entry 10001: b\nstream 2: c\nstream 2 entry 8004: d")},
		"full":           {[]answer{lines(400, "stream 0 entry 1: a"), lines(507, "stream 0: no room")}, 2, lines(507, "stream 1 entry 1: a\nstream 1: no room")},
		"unavailable":    {[]answer{lines(503, "stream 0: unavailable")}, 1, lines(503, "stream 1: unavailable")},
		"no such lines":  {[]answer{lines(500, "stream 9: it\nstream 0 entry 99999999999999999999: it\nout of memory")}, 1, lines(500, "stream 9: it\nstream 0 entry 99999999999999999999: it\nout of memory")},
		"lines without end": {[]answer{lines(400, strings.Repeat("stream 0: it\n", 50_000)), lines(400, strings.Repeat("stream 0: it\n", 50_000)), lines(400, "a")}, 3,
			lines(400, strings.Repeat("stream 1: it\n", 80_659)+moreRefused+"\n")},
		"another tenant": {[]answer{lines(400, "bad tenant"), lines(400, "bad tenant"), lines(400, "bad tenant")}, 3, lines(400, "bad tenant\nbad tenant\nbad tenant")},
	} {
		stands := newStandIn(t, it.given...)
		if found := pushJSON(over(stands.URL), body); found != it.wanted || len(stands.bodies) != it.parts {
			t.Errorf("%s: %v after %d parts", name, found, len(stands.bodies))
		}
	}
}

// What can't be sent is refused, the rest is sent.
func TestNameTwice(t *testing.T) {
	entries := []*PushedEntry{{Timestamp: &timestamppb.Timestamp{Seconds: 1}}}
	body := push(&PushedStream{Labels: `{a="1",a="2"}`, Entries: entries}, &PushedStream{Labels: `{a="1"}`, Entries: entries})
	stands := newStandIn(t)
	head := []string{"Content-Type", "application/x-protobuf", "X-Scope-OrgID", "t"}
	found := ask1(over(stands.URL), "POST", pushPath, snapped(string(body)), head...)
	if found.status != 400 || found.text != "stream 0: label name twice\n" || len(stands.bodies[0].Streams) != 1 {
		t.Errorf("%v, %v", found, stands.bodies)
	}
}

// A server that isn't there, that hangs up, and that is slower than the client waits.
func TestUnanswered(t *testing.T) {
	gone := newStandIn(t)
	gone.Close()
	if found := pushJSON(over(gone.URL), "{}"); found != (answer{502, plainText, "the server is away, send it again\n"}) {
		t.Errorf("%v", found)
	}
	if found := ask1(over(gone.URL), "GET", "/ready", ""); found.status != 502 {
		t.Errorf("%v", found)
	}
	hangs := httptest.NewServer(http.HandlerFunc(func(to http.ResponseWriter, from *http.Request) {
		line, _, _ := to.(http.Hijacker).Hijack()
		io.WriteString(line, "HTTP/1.1 204 No")
		line.Close()
	}))
	defer hangs.Close()
	if found := pushJSON(over(hangs.URL), "{}"); found.status != 502 {
		t.Errorf("%v", found)
	}
	waits := httptest.NewServer(http.HandlerFunc(func(to http.ResponseWriter, from *http.Request) {
		io.Copy(io.Discard, from.Body)
		<-from.Context().Done()
	}))
	defer waits.Close()
	for _, it := range []struct {
		wait   func(context.Context) (context.Context, context.CancelFunc)
		status int
	}{
		{context.WithCancel, 499},
		{func(in context.Context) (context.Context, context.CancelFunc) {
			return context.WithTimeout(in, 50*time.Millisecond)
		}, 504},
	} {
		in, end := it.wait(context.Background())
		time.AfterFunc(100*time.Millisecond, end)
		from := httptest.NewRequest("POST", pushPath, strings.NewReader("{}")).WithContext(in)
		from.Header.Set("Content-Type", "application/json")
		to := httptest.NewRecorder()
		over(waits.URL, "--tenant", "t").ServeHTTP(to, from)
		if to.Code != it.status {
			t.Errorf("%d: %s", to.Code, to.Body)
		}
	}
}

// The largest pushes that may be find memory, if there are no others.
func TestMemory(t *testing.T) {
	const most = 1 << 16
	by := over(newStandIn(t).URL, "--max-body", fmt.Sprint(most), "--memory", fmt.Sprint(24*most), "--tenant", "t")
	control := push(&PushedStream{Entries: []*PushedEntry{{Line: []byte(strings.Repeat("\x01", most-20))}}})
	many := push(&PushedStream{Entries: make([]*PushedEntry, most/bytesEach-1)})
	text := `{"streams":[{"values":[` + strings.Repeat(`["1","a"],`, 4_000) + `["1","a"]]}]}`
	text += strings.Repeat(" ", most-len(text))
	for name, it := range map[string]answer{
		"control characters": {kind: "application/x-protobuf", text: snapped(string(control))},
		"entries":            {kind: "application/x-protobuf", text: snapped(string(many))},
		"gzip":               {kind: "application/json", text: gzipped(text)},
		"plain":              {kind: "application/json", text: text},
	} {
		head := []string{"Content-Type", it.kind}
		if name == "gzip" {
			head = append(head, "Content-Encoding", "gzip")
		}
		if found := ask1(by, "POST", pushPath, it.text, head...); found.status != 204 {
			t.Errorf("%s: %v", name, found)
		}
	}
}

// A body that comes too slowly is given up, and a server's answer that comes slowly isn't.
func TestTimes(t *testing.T) {
	slow := httptest.NewServer(http.HandlerFunc(func(to http.ResponseWriter, from *http.Request) {
		io.Copy(io.Discard, from.Body)
		time.Sleep(300 * time.Millisecond)
		to.WriteHeader(http.StatusNoContent)
	}))
	defer slow.Close()
	given, _ := readWords([]string{"--listen", ":0", "--to", slow.URL, "--tenant", "t"})
	gateway := newGateway(given)
	gateway.within = 100 * time.Millisecond
	serving := httptest.NewUnstartedServer(gateway.handler())
	serving.Config.ConnContext = keepLine
	serving.Start()
	defer serving.Close()
	for name, it := range map[string]struct {
		head, body string
		status     int
	}{
		"whole": {"X-Scope-OrgID: t", "{}", 204}, "half": {"X-Scope-OrgID: t", "{", 503},
		"half of what is refused by its head": {"Content-Encoding: br", "", 400},
	} {
		line, err := net.Dial("tcp", serving.Listener.Addr().String())
		if err != nil {
			t.Fatal(err)
		}
		defer line.Close()
		// (twice over one connection, whose next request has its own time)
		for again := 0; again < 2; again++ {
			fmt.Fprintf(line, "POST %s HTTP/1.1\r\nHost: a\r\nContent-Type: application/json\r\n%s\r\nContent-Length: 2\r\n\r\n%s", pushPath, it.head, it.body)
			line.SetReadDeadline(time.Now().Add(10 * time.Second))
			got, err := http.ReadResponse(bufio.NewReader(line), nil)
			if err != nil || got.StatusCode != it.status {
				t.Fatalf("%s: %v, %v", name, got, err)
			}
			if it.status != 204 {
				break
			}
		}
	}
}

// Many at a time take no more connections than they are given.
func TestConnections(t *testing.T) {
	var mutex sync.Mutex
	open, most := 0, 0
	serving := httptest.NewUnstartedServer(http.HandlerFunc(func(to http.ResponseWriter, from *http.Request) {
		io.Copy(io.Discard, from.Body)
		to.WriteHeader(http.StatusNoContent)
	}))
	serving.Config.ConnState = func(line net.Conn, state http.ConnState) {
		mutex.Lock()
		defer mutex.Unlock()
		switch state {
		case http.StateNew:
			open++
		case http.StateClosed:
			open--
		}
		if open > most {
			most = open
		}
	}
	serving.Start()
	defer serving.Close()
	by := over(serving.URL, "--connections", "3")
	var all sync.WaitGroup
	for at := 0; at < 200; at++ {
		all.Add(1)
		go func() {
			defer all.Done()
			if found := pushJSON(by, `{"streams":[{"stream":{"a":"1"},"values":[["1","a"]]}]}`); found.status != 204 {
				t.Errorf("%v", found)
			}
		}()
	}
	all.Wait()
	// (one that has ended may still be counted beside the next one)
	if mutex.Lock(); most < 1 || most > 6 {
		t.Errorf("%d connections at a time", most)
	}
	mutex.Unlock()
}

func TestWords(t *testing.T) {
	for given, wanted := range map[string]string{
		"--listen :1 --to http://a:1":                 "",
		"--listen :1 --to https://a --max-body 65536": "",
		"":                               "--listen is missing",
		"--listen :1":                    "--to is not of the form http://HOST:PORT",
		"--listen :1 --to a:1":           "--to is not of the form http://HOST:PORT",
		"--listen :1 --to http://a/b":    "--to is not of the form http://HOST:PORT",
		"--listen :1 --to http://a more": "not known: more",
		"--listen :1 --to http://a --max-body 65535":    "--max-body is not a number from 65536 to 1073741824",
		"--listen :1 --to http://a --max-body 67108864": "--memory is less than 24 times --max-body",
		"--listen :1 --to http://a --connections 65":    "--connections is not a number from 1 to 64",
		"--listen :1 --to http://a --tenants a":         "flag provided but not defined: -tenants",
		"--listen :1 --to http://a --tenant a|b":        "--tenant is not 1 to 150 letters, digits, - and _",
		"--listen :1 --to http://a --limits /nowhere":   "open /nowhere: no such file or directory",
	} {
		found := ""
		if _, err := readWords(strings.Fields(given)); err != nil {
			found = err.Error()
		}
		if found != wanted {
			t.Errorf("%s: %s", given, found)
		}
	}
}

// A gateway that is stopped answers what is under way, and takes nothing new.
func TestStop(t *testing.T) {
	began, goOn := make(chan bool), make(chan bool)
	slow := httptest.NewServer(http.HandlerFunc(func(to http.ResponseWriter, from *http.Request) {
		io.Copy(io.Discard, from.Body)
		began <- true
		<-goOn
		to.WriteHeader(http.StatusNoContent)
	}))
	defer slow.Close()
	given, _ := readWords([]string{"--listen", "127.0.0.1:0", "--to", slow.URL, "--tenant", "t"})
	listening, err := net.Listen("tcp", given.listen)
	if err != nil {
		t.Fatal(err)
	}
	ends, stop := context.WithCancel(context.Background())
	ended := make(chan error)
	go func() { ended <- serve(ends, listening, newGateway(given)) }()
	address := "http://" + listening.Addr().String() + pushPath
	status := make(chan int)
	go func() {
		got, err := http.Post(address, "application/json", strings.NewReader("{}"))
		if err != nil {
			t.Error(err)
			status <- 0
			return
		}
		status <- got.StatusCode
	}()
	<-began
	stop()
	for {
		if _, err := net.Dial("tcp", listening.Addr().String()); err != nil {
			break
		}
		time.Sleep(time.Millisecond)
	}
	goOn <- true
	if found := <-status; found != 204 {
		t.Errorf("%d", found)
	}
	if err := <-ended; err != nil {
		t.Error(err)
	}
}
