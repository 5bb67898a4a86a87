package main

import (
	"bytes"
	"context"
	"errors"
	"io"
	"mime"
	"net"
	"net/http"
	"sync"
	"time"

	"github.com/golang/snappy"
	"github.com/klauspost/compress/flate"
	"github.com/klauspost/compress/gzip"
)

// A body as it came: its bytes, and what its head says of them.
type received struct {
	*buffer
	isJSON   bool
	isOTLP   bool
	encoding string
	// how long it says that it is, -1 where it doesn't
	length int64
}

// readHead looks whether the head of a push has what Loki takes. All that isn't JSON is Protobuf to Loki.
func readHead(said head) (received, error) {
	it := received{encoding: said.encoding}
	switch said.kind {
	case jsonType:
		it.isJSON = true
	case protobufType:
	default:
		kind, _, err := mime.ParseMediaType(said.kind)
		if err != nil {
			return received{}, badRequest("%s", err)
		}
		it.isJSON = kind == jsonType
	}
	switch it.encoding {
	case "", "snappy", "gzip", "deflate":
		return it, nil
	}
	return it, badRequest("Content-Encoding %q not supported", it.encoding)
}

const (
	jsonType     = "application/json"
	protobufType = "application/x-protobuf"
	textType     = "text/plain; charset=utf-8"
)

// readLogsHead does the same for logs of OpenTelemetry's protocol.
func readLogsHead(said head) (received, error) {
	it, err := readHead(said)
	if err != nil {
		return it, err
	}
	it.isOTLP = true
	if kind, _, _ := mime.ParseMediaType(said.kind); !it.isJSON && kind != protobufType {
		return it, badRequest("content type: %s is not supported", kind)
	}
	if it.encoding != "" && it.encoding != "gzip" {
		return it, badRequest("Content-Encoding %q not supported", it.encoding)
	}
	return it, nil
}

func (it *received) form() string {
	switch {
	case it.isOTLP:
		return "otlp"
	case it.isJSON:
		return "json"
	}
	return "protobuf"
}

// read takes the body as it came.
func (it *received) read(from io.Reader, most int64, held *held) (err error) {
	if it.buffer, err = held.readAll(from, it.length, most); err != nil {
		return unread(err)
	}
	return nil
}

// The body of a request, with which the time for it ends.
type requestBody struct{ *http.Request }

func (it requestBody) Read(to []byte) (int, error) {
	count, err := it.Body.Read(to)
	if err == io.EOF {
		setDeadline(it.Request, time.Time{})
	}
	return count, err
}

// By this key the context of a request has its connection.
type lineKey struct{}

func keepLine(in context.Context, line net.Conn) context.Context {
	return context.WithValue(in, lineKey{}, line)
}

// setDeadline is for reading the rest of a request. (http.Server.ReadTimeout would also end a push whose body has come
// and that waits for the server's answer.)
func setDeadline(from *http.Request, at time.Time) {
	if line, is := from.Context().Value(lineKey{}).(net.Conn); is {
		line.SetReadDeadline(at)
	}
}

func errTooLarge(most int64) error { return tooLarge("body too large: more than %d bytes", most) }

// unread is the answer where a body didn't come. One that came too slowly may come better the next time: 503, since
// shippers don't send again what was answered 4xx.
func unread(err error) error {
	var late net.Error
	if errors.As(err, &late) && late.Timeout() {
		return &fault{http.StatusServiceUnavailable, "the body did not come in time, send it again"}
	}
	return asBadRequest(err)
}

// A reader of a compressed form that is used again, since each has tables of some 40,000 bytes.
type unpacker[T io.Reader] struct {
	from  bytes.Reader
	reads T
}

var (
	gzipPool  = sync.Pool{New: func() any { return &unpacker[*gzip.Reader]{reads: new(gzip.Reader)} }}
	flatePool = sync.Pool{New: func() any { return &unpacker[io.ReadCloser]{reads: flate.NewReader(nil)} }}
)

func unpackGzip(packed []byte, most int64, held *held) (*buffer, error) {
	it := gzipPool.Get().(*unpacker[*gzip.Reader])
	defer gzipPool.Put(it)
	defer it.from.Reset(nil)
	it.from.Reset(packed)
	if err := it.reads.Reset(&it.from); err != nil {
		return nil, err
	}
	return held.readAll(it.reads, usualGrowth*int64(len(packed)), most)
}

func unpackFlate(packed []byte, most int64, held *held) (*buffer, error) {
	it := flatePool.Get().(*unpacker[io.ReadCloser])
	defer flatePool.Put(it)
	defer it.from.Reset(nil)
	it.from.Reset(packed)
	if err := it.reads.(flate.Resetter).Reset(&it.from, nil); err != nil {
		return nil, err
	}
	return held.readAll(it.reads, usualGrowth*int64(len(packed)), most)
}

// (logs take a sixth or so)
const usualGrowth = 8

// unpack is the body without its compression. What is packed is given back.
func (it *received) unpack(most int64, held *held) error {
	unpacked, err := it.buffer, error(nil)
	switch it.encoding {
	case "gzip":
		unpacked, err = unpackGzip(it.bytes, most, held)
	case "deflate":
		unpacked, err = unpackFlate(it.bytes, most, held)
	}
	if err != nil {
		return asBadRequest(err)
	}
	it.replace(unpacked, held)
	if it.isJSON || it.isOTLP {
		return nil
	}
	// (Protobuf is in snappy's block format, whether the head says so or not)
	if unpacked, err = unpackSnappy(it.bytes, most, held); err != nil {
		return asBadRequest(err)
	}
	it.replace(unpacked, held)
	return nil
}

func (it *received) replace(by *buffer, held *held) {
	if by != it.buffer {
		held.drop(it.buffer)
		it.buffer = by
	}
}

// A byte of snappy's format gives 64 / 3 bytes at most.
const snappyMost = 22

func unpackSnappy(body []byte, most int64, held *held) (*buffer, error) {
	length, err := snappy.DecodedLen(body)
	switch {
	case err != nil:
		return nil, err
	case int64(length) > most:
		return nil, errTooLarge(most)
	case length > snappyMost*len(body):
		return nil, snappy.ErrCorrupt
	}
	found, err := held.buffer(int64(length))
	if err != nil {
		return nil, err
	}
	// (which takes no memory where the length is that of the space)
	found.bytes, err = snappy.Decode(found.bytes[:length], body)
	return found, err
}
