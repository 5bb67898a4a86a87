package main

import (
	"fmt"
	"os"
	"sync"
	"time"
)

const (
	// a service says a fault that stays again after so long
	saidAgain = 10 * time.Minute
	// how many faults it remembers
	mostSaidTexts = 1000
)

// A voice says faults on standard error; that of a service each of them once in a while.
type voice struct {
	isService bool
	lock      sync.Mutex
	said      map[string]time.Time
}

func newVoice(isService bool) *voice {
	return &voice{isService: isService, said: map[string]time.Time{}}
}

func (it *voice) say(text string) {
	it.lock.Lock()
	defer it.lock.Unlock()
	if last, isKnown := it.said[text]; it.isService && isKnown && time.Since(last) < saidAgain {
		return
	}
	if len(it.said) > mostSaidTexts {
		it.said = map[string]time.Time{}
	}
	it.said[text] = time.Now()
	fmt.Fprintln(os.Stderr, text)
}
