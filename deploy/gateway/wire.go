package main

import (
	"bytes"
	"encoding/binary"
	"math"
	"strconv"
	"unicode/utf8"
)

// The fields of Loki's messages, as the byte that is before each.
const (
	streamTag   = 1<<3 | 2
	labelsTag   = 1<<3 | 2
	entryTag    = 2<<3 | 2
	hashTag     = 3 << 3
	timeTag     = 1<<3 | 2
	lineTag     = 2<<3 | 2
	pairTag     = 3<<3 | 2
	parsedTag   = 4<<3 | 2
	nameTag     = 1<<3 | 2
	valueTag    = 2<<3 | 2
	secondsTag  = 1 << 3
	fractionTag = 2 << 3
)

// A translation writes the server's JSON straight from the Protobuf of a push. It takes what shippers send: fields in
// their order and once each, all within the server's limits, and no more than one part. Whatever else a body has is
// left to decodeProtobuf, which says what is wrong with it or makes parts.
type translation struct {
	held   *held
	cache  *labelCache
	out    *buffer
	counts counts
	most   int64
	// the one that is read
	entry wireEntry
}

// What a body has: its messages (streams, entries, times, labels and pairs), its entries, and the bytes of its lines
// and metadata.
type counts struct {
	messages, entries, bytes int64
}

// translate returns no buffer where the body is to be read otherwise.
func translate(body []byte, most int64, holding *held, cache *labelCache) (*buffer, counts, error) {
	out, err := holding.buffer(smaller(int64(len(body))*5/4, mostBody) + firstRoom)
	if err != nil {
		return nil, counts{}, err
	}
	it := translation{held: holding, cache: cache, out: out, most: most}
	isWhole, err := it.push(body)
	if err != nil || !isWhole {
		holding.drop(out)
		return nil, counts{}, err
	}
	return out, it.counts, nil
}

const firstRoom = 2_048

// next takes a field out of a message: the byte before it, and what it has. A body that ends in it gives false.
func next(message []byte) (tag byte, content, rest []byte, isWhole bool) {
	length, bytes := binary.Uvarint(message[1:])
	from := uint64(1 + bytes)
	if bytes <= 0 || length > uint64(len(message))-from {
		return 0, nil, nil, false
	}
	return message[0], message[from : from+length], message[from+length:], true
}

// count counts some messages, and says whether there may be so many.
func (it *translation) count(more int64) bool {
	it.counts.messages += more
	return it.counts.messages <= it.most
}

// reserve makes room for bytes of a message that are not written yet.
func (it *translation) reserve(message []byte) error {
	wanted := mostEscaped*int64(len(message)) + firstRoom
	if it.out.room() >= wanted {
		return nil
	}
	length := int64(len(it.out.bytes))
	return it.held.grow(it.out, length+length/2+wanted)
}

func (it *translation) push(body []byte) (bool, error) {
	it.out.bytes = append(it.out.bytes, `{"streams":[`...)
	for at := 0; len(body) > 0; at++ {
		tag, stream, rest, isWhole := next(body)
		if !isWhole || tag != streamTag {
			return false, nil
		}
		if at > 0 {
			it.out.bytes = append(it.out.bytes, ',')
		}
		if isWhole, err := it.stream(stream); !isWhole || err != nil {
			return false, err
		}
		body = rest
	}
	it.out.bytes = append(it.out.bytes, bodyEnd...)
	return len(it.out.bytes) <= mostBody && it.counts.entries <= mostEntries, nil
}

func (it *translation) stream(stream []byte) (bool, error) {
	if len(stream) == 0 || stream[0] != labelsTag {
		return false, nil
	}
	_, labels, rest, isWhole := next(stream)
	if !isWhole || !it.count(1) {
		return false, nil
	}
	text := it.cache.get(labels)
	if text == "" {
		return false, nil
	}
	it.out.bytes = append(it.out.bytes, `{"stream":`...)
	it.out.bytes = append(it.out.bytes, text...)
	it.out.bytes = append(it.out.bytes, `,"values":[`...)
	before := it.counts.entries
	for len(rest) > 0 {
		if rest[0] == hashTag {
			_, bytes := binary.Uvarint(rest[1:])
			if bytes <= 0 {
				return false, nil
			}
			rest = rest[1+bytes:]
			continue
		}
		tag, entry, more, isWhole := next(rest)
		if !isWhole || tag != entryTag {
			return false, nil
		}
		if isWhole, err := it.add(entry, it.counts.entries > before); !isWhole || err != nil {
			return false, err
		}
		rest = more
	}
	it.out.bytes = append(it.out.bytes, streamEnd...)
	// (a stream without entries is left out)
	return it.counts.entries > before, nil
}

// An entry as it stands on the wire.
type wireEntry struct {
	time     int64
	line     []byte
	pairs    [mostPairs]wirePair
	count    int
	messages int64
}

type wirePair struct{ name, value []byte }

// add writes an entry.
func (it *translation) add(message []byte, isMore bool) (bool, error) {
	found := &it.entry
	it.counts.entries++
	isWhole := found.read(message)
	// (a part that is full ends it here)
	if !isWhole || !it.count(1+found.messages) || len(it.out.bytes) > mostBody {
		return false, nil
	}
	if err := it.reserve(message); err != nil {
		return false, err
	}
	out := it.out.bytes
	if isMore {
		out = append(out, ',')
	}
	out = append(out, '[', '"')
	out = strconv.AppendInt(out, found.time, 10)
	out = append(out, '"', ',')
	out = appendText(out, found.line)
	if found.count > 0 {
		out = found.appendPairs(append(out, ','))
	}
	it.out.bytes = append(out, ']')
	it.counts.bytes += found.bytes()
	return true, nil
}

// read reads an entry that has each of its fields once at most, in their order.
func (it *wireEntry) read(message []byte) bool {
	it.time, it.line, it.count, it.messages = 0, nil, 0, 0
	for last := byte(0); len(message) > 0; {
		tag, content, rest, isWhole := next(message)
		if !isWhole || tag < last || tag == last && tag != pairTag && tag != parsedTag {
			return false
		}
		last, message = tag, rest
		switch tag {
		case timeTag:
			it.messages++
			isWhole = it.readTime(content)
		case lineTag:
			it.line = content
			isWhole = len(content) <= mostLine
		case pairTag:
			it.messages++
			isWhole = it.readPair(content)
		case parsedTag:
		default:
			return false
		}
		if !isWhole {
			return false
		}
	}
	return true
}

// mostSeconds is the year 2262, after which the nanoseconds of 64 bits end.
const mostSeconds = math.MaxInt64 / 1_000_000_000

func (it *wireEntry) readTime(message []byte) bool {
	var parts [2]uint64
	for at, tag := range [...]byte{secondsTag, fractionTag} {
		if len(message) > 0 && message[0] == tag {
			found, bytes := binary.Uvarint(message[1:])
			if bytes <= 0 {
				return false
			}
			parts[at], message = found, message[1+bytes:]
		}
	}
	it.time = int64(parts[0]*1_000_000_000 + parts[1])
	return len(message) == 0 && parts[0] < mostSeconds && parts[1] < 1_000_000_000
}

// readPair takes a pair that has a name of its own.
func (it *wireEntry) readPair(message []byte) bool {
	if it.count == mostPairs {
		return false
	}
	found, last := &it.pairs[it.count], byte(0)
	*found = wirePair{}
	for len(message) > 0 {
		tag, content, rest, isWhole := next(message)
		if !isWhole || tag <= last {
			return false
		}
		switch last, message = tag, rest; tag {
		case nameTag:
			found.name = content
		case valueTag:
			found.value = content
		default:
			return false
		}
	}
	for _, other := range it.pairs[:it.count] {
		if bytes.Equal(other.name, found.name) {
			return false
		}
	}
	it.count++
	return len(found.name) <= mostKey && len(found.value) <= mostText && utf8.Valid(found.name)
}

func (it *wireEntry) appendPairs(to []byte) []byte {
	to = append(to, '{')
	for at, each := range it.pairs[:it.count] {
		if at > 0 {
			to = append(to, ',')
		}
		to = append(appendText(to, each.name), ':')
		to = appendText(to, each.value)
	}
	return append(to, '}')
}

func (it *wireEntry) bytes() int64 {
	found := int64(len(it.line))
	for _, each := range it.pairs[:it.count] {
		found += int64(len(each.name) + len(each.value))
	}
	return found
}
