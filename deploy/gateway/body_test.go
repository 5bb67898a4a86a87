package main

import (
	"bytes"
	"compress/flate"
	"compress/gzip"
	"errors"
	"io"
	"os"
	"strings"
	"testing"
	"testing/iotest"

	"github.com/golang/snappy"
)

func gzipped(text string) string {
	var out bytes.Buffer
	to := gzip.NewWriter(&out)
	io.WriteString(to, text)
	to.Close()
	return out.String()
}

func deflated(text string) string {
	var out bytes.Buffer
	to, _ := flate.NewWriter(&out, flate.DefaultCompression)
	io.WriteString(to, text)
	to.Close()
	return out.String()
}

func snapped(text string) string { return string(snappy.Encode(nil, []byte(text))) }

const mostHere = 100_000

// What a body is once it is unpacked, or how it is refused.
func unpacked(kind, encoding, body string, holding *held) (string, string) {
	it, err := readHead(head{kind: kind, encoding: encoding})
	if err != nil {
		return "", textOf(err)
	}
	it.length = int64(len(body))
	if err := it.read(strings.NewReader(body), mostHere, holding); err != nil {
		return "", textOf(err)
	}
	if err := it.unpack(mostHere, holding); err != nil {
		return "", textOf(err)
	}
	return string(it.bytes), ""
}

func TestBodies(t *testing.T) {
	long := strings.Repeat("a", mostHere)
	for _, it := range []struct{ kind, encoding, body, wanted, fault string }{
		{"application/json", "", "text", "text", ""},
		{"application/json; charset=utf-8", "", "", "", ""},
		{"Application/JSON", "snappy", "text", "text", ""},
		{"application/json", "gzip", gzipped("text"), "text", ""},
		{"application/json", "gzip", gzipped("te") + gzipped("xt"), "text", ""},
		{"application/json", "deflate", deflated("text"), "text", ""},
		{"application/x-protobuf", "", snapped("text"), "text", ""},
		{"application/x-protobuf", "snappy", snapped("text"), "text", ""},
		{"application/x-protobuf", "gzip", gzipped(snapped("text")), "text", ""},
		{"text/plain", "", snapped("text"), "text", ""},
		{"application/json", "", long, long, ""},
		{"application/json", "gzip", gzipped(long), long, ""},
		{"application/x-protobuf", "", snapped(long), long, ""},

		{"", "", "", "", "400 mime: no media type"},
		{"application/json; charset", "", "", "", "400 mime: invalid media parameter"},
		{"application/json", "br", "", "", `400 Content-Encoding "br" not supported`},
		{"application/json", "GZIP", "", "", `400 Content-Encoding "GZIP" not supported`},
		{"application/json", "gzip", "text", "", "400 unexpected EOF"},
		{"application/json", "gzip", "no gzip at all", "", "400 gzip: invalid header"},
		{"application/json", "gzip", gzipped("text")[:20], "", "400 unexpected EOF"},
		{"application/json", "gzip", gzipped("text")[:20] + "12345678", "", "400 gzip: invalid checksum"},
		{"application/json", "deflate", "\xff", "", "400 flate: corrupt input before offset 1"},
		{"application/jsonn", "", `{"streams":[]}`, "", "400 snappy: corrupt input"},
		{"application/x-protobuf", "", "", "", "400 snappy: corrupt input"},
		{"application/x-protobuf", "", "\xff\xff\xff\xff\xff\xff", "", "400 snappy: corrupt input"},
		{"application/x-protobuf", "", "\x80\xfa\x01a", "", "400 snappy: corrupt input"},
		{"application/x-protobuf", "", "\xff\xff\xff\xff\x0f", "", "413 body too large: more than 100000 bytes"},
		{"application/json", "", long + "a", "", "413 body too large: more than 100000 bytes"},
		{"application/json", "gzip", gzipped(long + "a"), "", "413 body too large: more than 100000 bytes"},
		{"application/json", "deflate", deflated(long + "a"), "", "413 body too large: more than 100000 bytes"},
		{"application/x-protobuf", "", snapped(long + "a"), "", "413 body too large: more than 100000 bytes"},
	} {
		found, fault := unpacked(it.kind, it.encoding, it.body, &held{of: newBudget(10 * mostHere)})
		if found != it.wanted || fault != it.fault {
			t.Errorf("%s %s %.20q: %.20q, %s", it.kind, it.encoding, it.body, found, fault)
		}
	}
}

// Of what a body says that it will be, nothing is taken before it has come.
func TestBodiesAreHeld(t *testing.T) {
	const busy = "503 gateway busy: no memory left for this push, send it again"
	long := strings.Repeat("a", mostHere)
	for _, it := range []struct {
		kind, encoding, body string
		most                 int64
		fault                string
	}{
		{"application/json", "", "text", 1 << leastSize, ""},
		{"application/json", "", "text", 1<<leastSize - 1, busy},
		{"application/json", "", long, 1 << 20, ""},
		{"application/json", "", long, mostHere, busy},
		{"application/json", "gzip", gzipped(long), mostHere, busy},
		{"application/x-protobuf", "", snapped(long), mostHere, busy},
		{"application/x-protobuf", "", "\x80\xfa\x01a", 1 << leastSize, "400 snappy: corrupt input"},
	} {
		holding := &held{of: newBudget(it.most)}
		if _, fault := unpacked(it.kind, it.encoding, it.body, holding); fault != it.fault {
			t.Errorf("%s %s, %d: %s", it.kind, it.encoding, it.most, fault)
		}
		if holding.release(); holding.of.left.Load() != it.most {
			t.Errorf("%d left of %d", holding.of.left.Load(), it.most)
		}
	}
}

func TestUnread(t *testing.T) {
	for _, it := range []struct {
		err    error
		wanted string
	}{
		{os.ErrDeadlineExceeded, "503 the body did not come in time, send it again"},
		{io.ErrUnexpectedEOF, "400 unexpected EOF"},
		{errors.New("reset"), "400 reset"},
	} {
		holding := &held{of: newBudget(mostHere)}
		_, err := holding.readAll(io.MultiReader(strings.NewReader("a"), iotest.ErrReader(it.err)), -1, mostHere)
		if found := textOf(unread(err)); found != it.wanted {
			t.Errorf("%v: %s", it.err, found)
		}
	}
}
