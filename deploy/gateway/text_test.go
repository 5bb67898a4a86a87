package main

import (
	"bytes"
	"math/rand"
	"testing"
)

// What looks at many bytes at a time finds the same place as what looks at one.
func TestEnds(t *testing.T) {
	draw := rand.New(rand.NewSource(1))
	for at := 0; at < 200_000; at++ {
		text := bytes.Repeat([]byte{"a05~"[draw.Intn(4)]}, draw.Intn(60))
		for count := draw.Intn(3); count > 0 && len(text) > 0; count-- {
			text[draw.Intn(len(text))] = byte(draw.Intn(256))
		}
		from := draw.Intn(len(text) + 1)
		plain, digits := from, from
		for plain < len(text) && isPlain(text[plain]) {
			plain++
		}
		for digits < len(text) && isDigit(text[digits]) {
			digits++
		}
		if plainEnd(text, from) != plain || digitsEnd(text, from) != digits {
			t.Fatalf("%q from %d: %d, %d", text, from, plainEnd(text, from), digitsEnd(text, from))
		}
	}
}
