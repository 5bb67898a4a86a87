package main

import (
	"encoding/binary"
	"math/bits"
	"unicode/utf8"
)

// In each byte of a word: its lowest bit, and its highest.
const (
	lowBits  = 0x0101_0101_0101_0101
	highBits = 0x8080_8080_8080_8080
)

// plainEnd is the place, from `at` on, of the first byte that does not stand for itself in a text of JSON, or that is
// none of ASCII. It looks at sixteen bytes at a time.
func plainEnd(text []byte, at int) int {
	for ; at+16 <= len(text); at += 16 {
		two := text[at : at+16]
		first, second := unplain(binary.LittleEndian.Uint64(two)), unplain(binary.LittleEndian.Uint64(two[8:]))
		switch {
		case first != 0:
			return at + bits.TrailingZeros64(first)/8
		case second != 0:
			return at + 8 + bits.TrailingZeros64(second)/8
		}
	}
	for at < len(text) && isPlain(text[at]) {
		at++
	}
	return at
}

// unplain has the highest bit of each byte of a word that is not plain, and perhaps of some above the lowest of them. Of a
// byte less than 0x20, or one that is `"` or `\`, a subtraction sets it; borrows go upwards.
func unplain(word uint64) uint64 {
	quote, backslash := word^'"'*lowBits, word^'\\'*lowBits
	return (word | (word - ' '*lowBits) | (quote - lowBits) | (backslash - lowBits)) & highBits
}

// digitsEnd is the place of the first byte, from `at` on, that is no digit. Eight digits are bytes of which each has 3 as
// its upper half, with 6 added too.
func digitsEnd(text []byte, at int) int {
	const upper, each = 0xf0 * lowBits, 0x33 * lowBits
	for ; at+8 <= len(text); at += 8 {
		word := binary.LittleEndian.Uint64(text[at : at+8])
		if word&upper|(word+6*lowBits)&upper>>4 != each {
			break
		}
	}
	for at < len(text) && isDigit(text[at]) {
		at++
	}
	return at
}

func isPlain(it byte) bool { return it >= ' ' && it != '"' && it != '\\' && it < utf8.RuneSelf }

// A byte of a text takes six in JSON at most, as a control character does.
const mostEscaped = 6

// appendText adds a text of JSON. It has U+FFFD in the place of each byte that is no UTF-8, which JSON can't have.
func appendText(to, text []byte) []byte {
	to = append(to, '"')
	for at := 0; ; {
		end := plainEnd(text, at)
		to = append(to, text[at:end]...)
		if end == len(text) {
			return append(to, '"')
		}
		if text[end] < utf8.RuneSelf {
			to, at = appendEscaped(to, text[end]), end+1
			continue
		}
		found, length := utf8.DecodeRune(text[end:])
		to, at = utf8.AppendRune(to, found), end+length
	}
}

const hexDigits = "0123456789abcdef"

func appendEscaped(to []byte, it byte) []byte {
	switch it {
	case '"', '\\':
		return append(to, '\\', it)
	case '\n':
		return append(to, '\\', 'n')
	case '\r':
		return append(to, '\\', 'r')
	case '\t':
		return append(to, '\\', 't')
	}
	return append(to, '\\', 'u', '0', '0', hexDigits[it>>4], hexDigits[it&15])
}
