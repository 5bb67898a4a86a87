package main

import (
	"bufio"
	"bytes"
	"encoding/binary"
	"errors"
	"fmt"
	"io"
	"os"
	"os/exec"
	"sort"
	"strconv"
)

// A catalog lists the streams of a server that may have lines, or may end, page by page.
type catalog interface {
	// next returns the next page, and none after the last one. No stream is in two of them. Each says what the catalog knows
	// of it: about how many bytes its lines have (`size`) or how many it has (`entries`), a time that its newest one is not
	// before (`reached`), and how many were ever removed (`removed`).
	next() ([]*stream, error)
}

// A slotCatalog has walcat list what the slots of a log have. It is one page, of one shard after another in turn, since
// shards sync side by side.
type slotCatalog struct {
	folder  string
	shards  int
	isOver  bool
	listing map[string]*listed
}

// What the records of a shard say of a stream.
type listed struct{ entries, reached int64 }

func (it *slotCatalog) next() ([]*stream, error) {
	if it.isOver {
		return nil, nil
	}
	it.isOver = true
	turns, count := make([][]*stream, it.shards), 0
	for shard := range turns {
		found, err := it.streamsOf(shard)
		if err != nil {
			return nil, err
		}
		turns[shard], count = found, count+len(found)
	}
	page := make([]*stream, 0, count)
	for at := 0; len(page) < count; at++ {
		for _, turn := range turns {
			if at < len(turn) {
				page = append(page, turn[at])
			}
		}
	}
	return page, nil
}

func (it *slotCatalog) streamsOf(shard int) ([]*stream, error) {
	paths, err := slotsOf(it.folder, shard)
	if err != nil {
		return nil, err
	}
	it.listing = map[string]*listed{}
	bytesInUse, isAll := int64(0), false
	for _, path := range paths {
		if isAll, bytesInUse, err = it.listSlot(path, shard); err != nil {
			return nil, err
		} else if isAll {
			break
		}
	}
	return it.streamsListed(shard, bytesInUse, isAll), nil
}

func (it *slotCatalog) streamsListed(shard int, bytesInUse int64, isAll bool) []*stream {
	keys, entries := make([]string, 0, len(it.listing)), int64(1)
	for key, of := range it.listing {
		keys, entries = append(keys, key), entries+of.entries
	}
	sort.Strings(keys)
	found := make([]*stream, len(keys))
	for at, key := range keys {
		tenant, text, _ := bytes.Cut([]byte(key), []byte(" "))
		found[at] = newStream(string(tenant), string(text), shard)
		of := it.listing[key]
		found[at].size = int64(float64(bytesInUse) / float64(entries) * float64(of.entries))
		if found[at].reached = of.reached; isAll && of.entries == 0 {
			found[at].entries = 0
		}
	}
	it.listing = nil
	return found
}

const headBytes = 21

// slotsOf names both slots of a shard, that in use before the other one.
func slotsOf(folder string, shard int) ([]string, error) {
	var paths [2]string
	var generations [2]uint64
	for number := range paths {
		paths[number] = fmt.Sprintf("%s/shard-%02d-%d.wal", folder, shard, number)
		file, err := os.Open(paths[number])
		if err != nil {
			return nil, fmt.Errorf("cannot open %s: %s", paths[number], cause(err))
		}
		head := make([]byte, headBytes)
		_, err = io.ReadFull(file, head)
		file.Close()
		if err == nil && string(head[:4]) == "\x01LWL" {
			generations[number] = binary.LittleEndian.Uint64(head[5:])
		}
	}
	if generations[1] >= generations[0] {
		paths[0], paths[1] = paths[1], paths[0]
	}
	return paths[:], nil
}

// listSlot counts the entries of each stream in a slot. It returns whether that is all that the shard has, and the
// bytes in use. Beside a server walcat may see a slot in the middle of a write (3): what it printed before is there,
// and the next round sees the rest.
func (it *slotCatalog) listSlot(path string, shard int) (isAll bool, end int64, err error) {
	running := exec.Command("walcat", path, strconv.Itoa(shard), strconv.Itoa(it.shards))
	said := &bytes.Buffer{}
	running.Stderr = said
	output, err := running.StdoutPipe()
	if err == nil {
		err = running.Start()
	}
	if errors.Is(err, exec.ErrNotFound) {
		return false, 0, errors.New("walcat is not on the path")
	} else if err != nil {
		return false, 0, err
	}
	isClosed, end := it.readListing(output)
	err = running.Wait()
	status := running.ProcessState.ExitCode()
	if err != nil && status != 3 {
		return false, 0, fmt.Errorf("walcat: %s", firstOf(string(bytes.TrimSpace(said.Bytes())), err.Error()))
	}
	if end == 0 {
		if about, err := os.Stat(path); err == nil {
			end = about.Size()
		}
	}
	return status == 0 && !isClosed, end, nil
}

func (it *slotCatalog) readListing(output io.Reader) (isClosed bool, end int64) {
	lines := bufio.NewReaderSize(output, 64<<10)
	for {
		line, err := readLine(lines)
		if err != nil {
			return isClosed, end
		}
		switch {
		case bytes.Equal(line, []byte("closed")):
			isClosed = true
		case bytes.HasPrefix(line, inEnd) && bytes.IndexByte(line, '{') < 0:
			end = numberOf(line[len(inEnd):])
		case bytes.HasPrefix(line, inEnd):
			delete(it.listing, string(line[len(inEnd):]))
		default:
			it.readRecord(line)
		}
	}
}

// readLine is a line without its end, which stays until the next one is read.
func readLine(lines *bufio.Reader) ([]byte, error) {
	line, err := lines.ReadSlice('\n')
	for whole := []byte(nil); errors.Is(err, bufio.ErrBufferFull); line = whole {
		whole = append(whole, line...)
		line, err = lines.ReadSlice('\n')
		whole = append(whole, line...)
	}
	if err != nil {
		return nil, err
	}
	return line[:len(line)-1], nil
}

var (
	inState, inStream = []byte("state "), []byte("stream ")
	inAppend, inEnd   = []byte("append "), []byte("end ")
	highest           = []byte("} highest ")
	entries           = []byte("} entries ")
	removed, counted  = []byte(" removed "), []byte(" entries ")
)

// readRecord adds what a line says: `append TENANT LABELS entries N`, `state TENANT LABELS highest H entries N`, or in
// version 3 of the layout `stream TENANT LABELS highest H removed R entries N`.
func (it *slotCatalog) readRecord(line []byte) {
	isAppend, isStream := bytes.HasPrefix(line, inAppend), bytes.HasPrefix(line, inStream)
	if !isAppend && !isStream && !bytes.HasPrefix(line, inState) {
		return
	}
	at, mark := bytes.LastIndex(line, counted), highest
	if isAppend {
		mark = entries
	}
	end := bytes.LastIndex(line, mark)
	if at < 0 || end < 0 {
		return
	}
	key := line[bytes.IndexByte(line, ' ')+1 : end+1]
	of := it.listing[string(key)]
	if of == nil {
		of = &listed{}
		it.listing[string(key)] = of
	}
	of.entries += numberOf(line[at+len(counted):])
	if isStream {
		at = bytes.LastIndex(line, removed)
	}
	if !isAppend && at > end {
		of.reached = max(of.reached, numberOf(line[end+len(mark):at]))
	}
}

func numberOf(digits []byte) int64 {
	found := int64(0)
	for _, it := range digits {
		found = found*10 + int64(it-'0')
	}
	return found
}
