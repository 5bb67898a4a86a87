package main

import (
	"bytes"
	"errors"
	"fmt"
	"io"
	"io/fs"
	"os"
	"path/filepath"
	"sort"
	"strconv"
	"strings"
	"sync"
	"sync/atomic"
	"time"

	"github.com/klauspost/compress/gzip"
)

const (
	// bytes that are written between two syncs
	batchBytes = 8 << 20
	// (lines of logs get little shorter by a higher level, which takes up to three times as long)
	gzipLevel = 2
	oneDay    = 86400 * second
)

// A day's file of a tenant.
type day struct {
	tenant string
	number int64
}

// Lines of a day that are not in its file yet.
type pages struct {
	text  []byte
	lines int64
}

// Files have lines in a folder: a file a tenant and day of the line, with an object of JSON a line. What was put is
// there for good after a flush.
type files struct {
	root   string
	lock   sync.Mutex
	days   map[day]*pages
	size   int
	packer *gzip.Writer
	packed bytes.Buffer
	// what was put since the last flush
	pending []placed
	told    keeper

	lines, bytes atomic.Int64
}

// Entries that were put: with those before, all of the stream below the bound.
type placed struct {
	of    *stream
	these tally
	bound int64
}

func newFiles(root string) *files {
	packer, _ := gzip.NewWriterLevel(nil, gzipLevel)
	return &files{root: root, days: map[day]*pages{}, packer: packer}
}

// (what a round left that was cut short is read again)
func (it *files) begin(told keeper) {
	it.told, it.size, it.pending = told, 0, nil
	for _, one := range it.days {
		*one = pages{text: one.text[:0]}
	}
}

func (it *files) folder() string { return it.root }
func (it *files) counts() counts { return counts{it.lines.Load(), it.bytes.Load(), 0} }

func (it *files) waits(*stream) (time.Duration, error) { return 0, nil }

func (it *files) put(one piece) error {
	it.lock.Lock()
	defer it.lock.Unlock()
	it.add(one)
	it.pending = append(it.pending, placed{one.of, tallyOf(one.part), one.bound})
	if it.size < batchBytes {
		return nil
	}
	return it.write()
}

func (it *files) flush() error {
	it.lock.Lock()
	defer it.lock.Unlock()
	return it.write()
}

// add writes the entries of a piece as lines of their days.
func (it *files) add(one piece) {
	head := append(append([]byte(`{"stream":`), one.labels...), `,"time":"`...)
	var to *pages
	var from, until int64
	for at, of := range one.spans {
		if to == nil || of.time < from || of.time >= until {
			to = it.pagesOf(day{one.of.tenant, of.time / oneDay})
			from = of.time / oneDay * oneDay
			until = from + oneDay
		}
		before := len(to.text)
		to.text = append(strconv.AppendInt(append(to.text, head...), of.time, 10), `","line":"`...)
		to.text = append(append(to.text, one.line(at)...), '"')
		if metadata := one.metadata(at); metadata != nil {
			to.text = append(append(to.text, `,"metadata":`...), metadata...)
		}
		to.text = append(to.text, '}', '\n')
		to.lines++
		it.size += len(to.text) - before
	}
}

func (it *files) pagesOf(of day) *pages {
	found := it.days[of]
	if found == nil {
		found = &pages{}
		it.days[of] = found
	}
	return found
}

// write appends all that was put to its files, and tells that it is kept.
func (it *files) write() error {
	todo := make([]day, 0, len(it.days))
	for of, pages := range it.days {
		if todo = append(todo, of); pages.lines == 0 {
			// (the room of one that gets no more)
			delete(it.days, of)
			todo = todo[:len(todo)-1]
		}
	}
	sort.Slice(todo, func(one, other int) bool {
		if todo[one].tenant != todo[other].tenant {
			return todo[one].tenant < todo[other].tenant
		}
		return todo[one].number < todo[other].number
	})
	for _, of := range todo {
		name := time.Unix(of.number*86400, 0).UTC().Format("2006-01-02") + ".jsonl.gz"
		if err := it.append(filepath.Join(it.root, of.tenant), name, it.days[of].text); err != nil {
			return err
		}
		it.lines.Add(it.days[of].lines)
		it.bytes.Add(int64(len(it.days[of].text)))
		*it.days[of] = pages{text: it.days[of].text[:0]}
	}
	it.size = 0
	for _, one := range it.pending {
		it.told.keep(one.of, one.these, one.bound)
	}
	it.pending = it.pending[:0]
	return nil
}

// append adds to a file. Its length stands beside it: what stands after that was cut off by a kill, and goes.
func (it *files) append(folder, name string, text []byte) error {
	if err := makeFolder(folder); err != nil {
		return err
	}
	path := filepath.Join(folder, name)
	length, err := goodLength(path)
	if err != nil {
		return err
	}
	it.packed.Reset()
	it.packer.Reset(&it.packed)
	it.packer.Write(text)
	if err := it.packer.Close(); err != nil {
		return err
	}
	if err := appendAt(path, length, it.packed.Bytes()); err != nil {
		return err
	}
	return writeWhole(path+".length", fmt.Sprintf("%d\n", length+int64(it.packed.Len())))
}

func appendAt(path string, length int64, bytes []byte) error {
	file, err := os.OpenFile(path, os.O_RDWR|os.O_CREATE, 0o666)
	if err != nil {
		return err
	}
	defer file.Close()
	about, err := file.Stat()
	if err != nil {
		return err
	}
	if about.Size() < length {
		return fmt.Errorf("%s is shorter than %s.length says: move both away together", path, path)
	}
	if err := file.Truncate(length); err != nil {
		return err
	}
	if _, err := file.WriteAt(bytes, length); err != nil {
		return err
	}
	return file.Sync()
}

// goodLength is how many bytes of a file are good.
func goodLength(path string) (int64, error) {
	text, err := os.ReadFile(path + ".length")
	if errors.Is(err, fs.ErrNotExist) {
		if about, err := os.Stat(path); err == nil && about.Size() > 0 {
			return 0, fmt.Errorf("%s has no %s.length: move it away", path, path)
		}
		return 0, writeWhole(path+".length", "0\n")
	} else if err != nil {
		return 0, err
	}
	length, err := strconv.ParseUint(strings.TrimSpace(string(text)), 10, 62)
	if err != nil {
		return 0, fmt.Errorf("%s.length is no number: move it away together with %s", path, path)
	}
	return int64(length), nil
}

func makeFolder(path string) error {
	if about, err := os.Stat(path); err == nil && about.IsDir() {
		return nil
	}
	if err := os.Mkdir(path, 0o777); err != nil {
		return err
	}
	return syncFolder(filepath.Dir(path))
}

func syncFolder(path string) error {
	folder, err := os.Open(path)
	if err != nil {
		return err
	}
	defer folder.Close()
	return folder.Sync()
}

// writeWhole makes a file that is there with this text or as it was before, whatever crash comes.
func writeWhole(path, text string) error {
	file, err := os.Create(path + ".new")
	if err != nil {
		return err
	}
	_, err = io.WriteString(file, text)
	if err == nil {
		err = file.Sync()
	}
	if closed := file.Close(); err == nil {
		err = closed
	}
	if err == nil {
		err = os.Rename(path+".new", path)
	}
	if err != nil {
		return err
	}
	return syncFolder(filepath.Dir(path))
}
