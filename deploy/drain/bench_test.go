package main

import (
	"bufio"
	"bytes"
	"fmt"
	"net/http"
	"os"
	"os/exec"
	"strings"
	"testing"
	"time"

	"github.com/klauspost/compress/gzip"
)

// benchRounds measures rounds over a server in a process of its own: lines a second of a processor.
func benchRounds(b *testing.B, of load, place func(url string) place) {
	program, _ := os.Executable()
	running := exec.Command(program)
	running.Env = append(os.Environ(), "DRAIN_IS=server", fmt.Sprintf("DRAIN_LOAD=%d %d", of.streams, of.lines))
	output, err := running.StdoutPipe()
	if err == nil {
		err = running.Start()
	}
	if err != nil {
		b.Fatal(err)
	}
	defer running.Wait()
	defer running.Process.Kill()
	url, _ := bufio.NewReader(output).ReadString('\n')
	url = strings.TrimSpace(url)
	_, port, _ := strings.Cut(strings.TrimPrefix(url, "http://"), ":")
	to, used, lines := place(url), 0.0, int64(0)
	for turn := 0; turn < b.N; turn++ {
		if got, err := http.Get(url + "/fill"); err != nil || got.StatusCode != http.StatusOK {
			b.Fatal(err)
		}
		var listed []*stream
		for stream := 0; stream < of.streams; stream++ {
			one := newStream("t", fmt.Sprintf(`{a="%s"}`, of.text(stream)), 0)
			one.size = int64(of.lines * (benchedLine + 40))
			listed = append(listed, one)
		}
		connections := make([]*connection, workers)
		for at := range connections {
			connections[at] = newConnection(int(number(port)), 10*time.Second)
		}
		before, was := processor(), to.counts().lines
		counted := newCountedTrim(10*time.Second, time.Hour, time.Minute)
		now := newRound(to, windowTrim{}, counted, newMemory(), true, newVoice(false))
		now.run(&pageCatalog{listed}, connections, func(*round) {})
		if now.fault != nil || now.errors > 0 {
			b.Fatalf("a round ends with %d errors: %v", now.errors, now.fault)
		}
		used, lines = used+processor()-before, lines+to.counts().lines-was
	}
	if lines != int64(b.N*of.streams*of.lines) {
		b.Fatalf("%d lines were taken", lines)
	}
	b.ReportMetric(float64(lines)/used, "lines/processor-s")
	b.ReportMetric(0, "ns/op")
}

var loads = map[string]load{"a thousand streams": {1000, 200}, "small streams": {5000, 20}, "one stream": {1, 200_000}}

func BenchmarkToFiles(b *testing.B) {
	for name, of := range loads {
		b.Run(name, func(b *testing.B) {
			benchRounds(b, of, func(string) place { return newFiles(b.TempDir()) })
		})
	}
}

func BenchmarkToALoki(b *testing.B) {
	for name, of := range loads {
		b.Run(name, func(b *testing.B) {
			benchRounds(b, of, func(url string) place {
				to := address{route: url + "/loki/api/v1/push"}
				return newLoki(b.TempDir(), to, 10*time.Second, 10*time.Second)
			})
		})
	}
}

// benchedPieces are lines of ten streams, as they come from a server.
func benchedPieces(b *testing.B) []piece {
	server := newServer(map[string][]judged{})
	load{10, 200}.fill(server)
	var found []piece
	for stream := 0; stream < 10; stream++ {
		of := newStream("t", fmt.Sprintf(`{a="%s", job="orders", namespace="shop"}`, load{}.text(stream)), 0)
		text := answerOf(server.streams["t "+load{}.text(stream)], false)
		over := &window{from: bytes.NewReader(text)}
		if err := over.fill(len(text) + 1); err != nil {
			b.Fatal(err)
		}
		found = append(found, piece{of, part{over.text, over.spans}, appendObject(nil, of.labels()), 0})
	}
	return found
}

func benchBody(b *testing.B, make func(in *room, pieces []piece) []byte) {
	pieces, in, size := benchedPieces(b), &room{}, 0
	b.ResetTimer()
	before := processor()
	for turn := 0; turn < b.N; turn++ {
		size = len(make(in, pieces))
	}
	lines := linesOf(pieces)
	b.ReportMetric((processor()-before)*1e6/float64(b.N*lines), "processor-us/line")
	b.ReportMetric(float64(size)/float64(lines), "bytes/line")
	b.ReportMetric(0, "ns/op")
}

// What a body costs in Loki's two forms.
func BenchmarkBodyOfProtobufInSnappy(b *testing.B) { benchBody(b, (*room).protobuf) }

func BenchmarkBodyOfJSON(b *testing.B) {
	for level := 0; level <= 2; level++ {
		packer, _ := gzip.NewWriterLevel(nil, level)
		b.Run(fmt.Sprint("in gzip's level ", level), func(b *testing.B) {
			var packed bytes.Buffer
			benchBody(b, func(in *room, pieces []piece) []byte {
				packed.Reset()
				packer.Reset(&packed)
				packer.Write(in.json(pieces))
				packer.Close()
				return packed.Bytes()
			})
		})
	}
}
