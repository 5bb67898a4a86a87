package main

import (
	"bytes"
	"encoding/base64"
	"errors"
	"fmt"
	"io"
	"math/rand"
	"net/http"
	"net/url"
	"os"
	"path/filepath"
	"strings"
	"sync"
	"sync/atomic"
	"time"
)

const (
	// connections to a Loki, lines and bytes of a body, bytes of all that is kept back for bodies of several streams
	senders    = 4
	bodyLines  = 5000
	bodyBytes  = 512 << 10
	mostBytes  = 4 << 20
	mostAnswer = 1 << 20
	// the first pause before something is sent again, and the longest
	firstPause   = 250 * time.Millisecond
	longestPause = 15 * time.Second
	// how often a body is sent before its streams wait, and of how many streams the failures are the Loki's
	triesAtOnce = 2
	manyFailing = 3
	// after how long a pause is forgotten of a stream that isn't sent any more
	pauseForgotten = 10 * time.Minute
)

// An address is a Loki's push route, and what a client says there who it is.
type address struct {
	route, shown, authorization string
}

func readAddress(text string) (address, error) {
	found, err := url.Parse(text)
	if err != nil || found.Host == "" || found.Hostname() == "" || found.Path == "" || found.Path == "/" {
		// (without the address, which may have a password)
		return address{}, errors.New("name the whole push route, such as https://HOST/loki/api/v1/push")
	}
	authorization := os.Getenv("NEEDLEAZURE_LOKI_AUTHORIZATION")
	if user := found.User; user != nil && authorization == "" {
		password, _ := user.Password()
		authorization = "Basic " + base64.StdEncoding.EncodeToString([]byte(user.Username()+":"+password))
	}
	found.User = nil
	return address{found.String(), found.String(), authorization}, nil
}

// A pause is how long a stream has to wait that was answered 429, or 5xx, or not at all: from when on, and why.
type pause struct {
	since, until time.Time
	length       time.Duration
	why          string
	// with how many others it may share a body then
	others int
}

// grow has it wait, for longer than the last time if that grows, and not at the same moment as others.
func (it *pause) grow(isLonger bool, why string) {
	if it.length == 0 {
		it.length = firstPause
	} else if isLonger {
		it.length = time.Duration(least(int64(2*it.length), int64(longestPause)))
	}
	it.until, it.why = time.Now().Add(jittered(it.length)), why
}

// jittered is a time that is shorter or longer by a quarter at most.
func jittered(pause time.Duration) time.Duration {
	return pause*3/4 + time.Duration(rand.Int63n(int64(pause)/2+1))
}

// A loki has lines sent to one, each stream's in their order. What it answers 2xx is kept. A stream that it answers 429,
// 5xx or not at all waits by itself, with growing pauses, and others go on. If it answers none of several streams, all
// wait; and where nobody got an answer for `patience`, the round ends.
type loki struct {
	to       address
	client   *http.Client
	patience time.Duration
	refused  *files
	told     keeper
	root     string
	rooms    sync.Pool
	// a server that takes no Protobuf
	isPlain atomic.Bool

	lines, bytes, refusedLines atomic.Int64

	lock    sync.Mutex
	batches map[string]*batch
	size    int
	givenUp map[string]error
	pauses  map[string]*pause
	// when it gave somebody an answer; the streams that it has failed since, and how long all wait then
	answered time.Time
	failing  map[string]bool
	down     pause
	// for as many bodies as are made and sent at once
	free chan struct{}
}

func newLoki(root string, to address, seconds, patience time.Duration) *loki {
	by := &http.Transport{MaxConnsPerHost: senders, MaxIdleConnsPerHost: senders, DisableCompression: true}
	noRedirect := func(*http.Request, []*http.Request) error { return http.ErrUseLastResponse }
	return &loki{
		to: to, client: &http.Client{Transport: by, Timeout: seconds, CheckRedirect: noRedirect}, patience: patience,
		refused: newFiles(filepath.Join(root, "refused")), root: root,
		rooms:  sync.Pool{New: func() any { return &room{} }},
		pauses: map[string]*pause{}, failing: map[string]bool{}, free: make(chan struct{}, senders),
	}
}

func (it *loki) folder() string { return it.root }

// (what a round left that was cut short is read again)
func (it *loki) begin(told keeper) {
	it.told = told
	it.refused.begin(told)
	it.givenUp, it.batches, it.size = map[string]error{}, map[string]*batch{}, 0
	if it.down.length == 0 {
		it.answered = time.Now()
	}
	for key, one := range it.pauses {
		if time.Since(one.until) > pauseForgotten {
			delete(it.pauses, key)
		}
	}
}

func (it *loki) counts() counts {
	return counts{it.lines.Load(), it.bytes.Load(), it.refusedLines.Load()}
}

func keyOf(of *stream) string { return of.tenant + " " + of.text }

// waits is how long a stream has to wait. One that has waited for longer than the patience is left.
func (it *loki) waits(of *stream) (time.Duration, error) {
	it.lock.Lock()
	defer it.lock.Unlock()
	if why := it.givenUp[of.tenant]; why != nil {
		return 0, why
	}
	if left := time.Until(it.down.until); left > 0 {
		return left, nil
	}
	found := it.pauses[keyOf(of)]
	if found == nil {
		return 0, nil
	}
	left := time.Until(found.until)
	if left <= 0 {
		return 0, nil
	} else if time.Since(found.since) > it.patience {
		return 0, &refusal{fmt.Sprintf("the Loki at %s answers %s", it.to.shown, found.why)}
	}
	return left, nil
}

// put sends a piece of some length at once. A smaller one goes with others of its tenant.
func (it *loki) put(one piece) error {
	if err := it.sendBefore(one.of); err != nil {
		return err
	}
	if len(one.spans) == 0 {
		it.told.keep(one.of, tally{}, one.bound)
		return nil
	}
	it.lock.Lock()
	most := maxStreams
	if found := it.pauses[keyOf(one.of)]; found != nil {
		most = 1 + found.others
	}
	if most == 1 || one.part.bytes() >= smallBytes {
		it.lock.Unlock()
		for _, body := range one.bodies() {
			if err := it.deliver(&delivery{tenant: one.of.tenant}, []piece{body}); err != nil {
				return err
			}
		}
		return nil
	}
	to := it.addToBatch(one, most)
	isFull := to.bytes >= bodyBytes/2 || to.lines >= bodyLines/2 || len(to.pieces) >= to.most
	isMuch := it.size >= mostBytes
	it.lock.Unlock()
	if isMuch {
		return it.flush()
	} else if isFull {
		return it.sendBatch(to)
	}
	return nil
}

// addToBatch adds a piece to a body. (Streams that have waited share others than those that haven't.)
func (it *loki) addToBatch(one piece, most int) *batch {
	key := one.of.tenant
	if most < maxStreams {
		key += " again"
	}
	to := it.batches[key]
	if to == nil {
		to = newBatch(key, one.of.tenant)
		it.batches[key] = to
	}
	to.add(one)
	to.most = min(to.most, most)
	one.of.sent, it.size = to, it.size+one.part.bytes()
	return to
}

// sendBefore sends what was put of a stream before, so that its lines come in their order.
func (it *loki) sendBefore(of *stream) error {
	before := of.sent
	if before == nil {
		return nil
	}
	of.sent = nil
	err := it.sendBatch(before)
	<-before.done
	if err == nil && before.left[of] != nil {
		return errTold
	}
	return err
}

func (it *loki) sendBatch(of *batch) error {
	it.lock.Lock()
	isTaken := of.isTaken
	of.isTaken = true
	if it.batches[of.key] == of {
		delete(it.batches, of.key)
		it.size -= of.bytes
	}
	it.lock.Unlock()
	if isTaken {
		return nil
	}
	defer close(of.done)
	this := &delivery{tenant: of.tenant, isShared: true}
	err := it.deliver(this, of.pieces)
	of.left = this.left
	return err
}

// flush sends all batches, several at once.
func (it *loki) flush() error {
	it.lock.Lock()
	var todo []*batch
	for _, one := range it.batches {
		todo = append(todo, one)
	}
	it.lock.Unlock()
	failed, free := make(chan error, len(todo)), make(chan struct{}, senders)
	for _, one := range todo {
		free <- struct{}{}
		go func(one *batch) {
			failed <- it.sendBatch(one)
			<-free
		}(one)
	}
	var fault error
	for range todo {
		if err := <-failed; err != nil {
			fault = err
		}
	}
	return fault
}

// A delivery is what became of pieces of a tenant, in their order.
type delivery struct {
	tenant string
	// whether it has several streams, whose workers are told by the keeper what waits or is refused
	isShared bool
	done     []outcome
	// why streams are not taken any further
	left map[*stream]error
}

type outcome struct {
	piece
	// why it is refused
	why string
}

// deliver sends pieces until each is taken, refused or waits. Of one stream there is at most one of them. What it fails
// with ends the round, unless it is why the only stream is left.
func (it *loki) deliver(this *delivery, pieces []piece) error {
	this.left = map[*stream]error{}
	err := it.send(this, pieces)
	if settled := it.settle(this); err == nil {
		err = settled
	}
	for of, why := range this.left {
		switch {
		case err != nil:
		case !this.isShared:
			return why
		case errors.Is(why, errWaits):
			it.told.wait(of)
		default:
			it.told.refuse(of, why)
		}
	}
	return err
}

// send sends pieces. What it fails with ends the round.
func (it *loki) send(this *delivery, pieces []piece) error {
	if len(pieces) == 0 {
		return nil
	}
	if it.isDown() {
		for _, one := range pieces {
			this.left[one.of] = errWaits
		}
		return nil
	}
	status, text, err := it.tryTwice(this.tenant, pieces)
	var failed *failure
	switch {
	case errors.As(err, &failed):
		it.fails(this, pieces, failed)
		return nil
	case err != nil:
		return err
	case 200 <= status && status < 300:
		for _, one := range pieces {
			this.done = append(this.done, outcome{piece: one})
		}
		return nil
	case status == http.StatusTooManyRequests:
		return it.limited(this, pieces, status, text)
	case status == http.StatusBadRequest:
		return it.judge(this, pieces, text)
	case status == http.StatusRequestEntityTooLarge:
		return it.halve(this, pieces, status, text)
	}
	return it.giveUp(this, pieces, status, text)
}

// isDown is whether all wait.
func (it *loki) isDown() bool {
	it.lock.Lock()
	defer it.lock.Unlock()
	return time.Now().Before(it.down.until)
}

// limited has the streams that a Loki limits wait, each alone; where it names none, all of them, together. It has not
// said that it took the others: they are sent again, without these.
func (it *loki) limited(this *delivery, pieces []piece, status int, text string) error {
	found, others := namedStreams(text, pieces)
	together := 0
	if len(found) == 0 {
		found, others, together = pieces, nil, len(pieces)-1
	}
	it.pauseAll(this, found, together, true, fmt.Sprintf("%d %s", status, brief(text)))
	return it.send(this, others)
}

// fails has streams wait that a Loki fails. Those of one body come again in two, so that soon each is alone that is the
// reason. Where all fail it is none of them.
func (it *loki) fails(this *delivery, pieces []piece, failed *failure) {
	if it.isDown() {
		for _, one := range pieces {
			this.left[one.of] = errWaits
		}
		return
	}
	it.pauseAll(this, pieces, (len(pieces)+1)/2-1, len(pieces) == 1, failed.text)
}

func (it *loki) pauseAll(this *delivery, pieces []piece, others int, isLonger bool, why string) {
	it.lock.Lock()
	defer it.lock.Unlock()
	for _, one := range pieces {
		known := it.pauses[keyOf(one.of)]
		if known == nil {
			known = &pause{since: time.Now()}
			it.pauses[keyOf(one.of)] = known
		}
		known.grow(isLonger, why)
		known.others = others
		this.left[one.of] = errWaits
	}
}

// judge is for pieces of which some entries are refused.
func (it *loki) judge(this *delivery, pieces []piece, text string) error {
	if exact := namedEntries(text); exact != nil {
		it.judgeExactly(this, pieces, exact)
		return nil
	}
	if len(pieces) == 1 {
		return it.judgeOne(this, pieces[0], text)
	}
	found, others := namedStreams(text, pieces)
	if len(found) == 0 {
		return it.halve(this, pieces, http.StatusBadRequest, text)
	}
	for _, one := range found {
		err := error(nil)
		if len(one.spans) == 1 {
			err = it.judgeOne(this, one, text)
		} else {
			err = it.send(this, []piece{one})
		}
		if err != nil {
			return err
		}
	}
	return it.send(this, others)
}

// judgeExactly is for the answer of a server of this kind: what it doesn't name it has stored.
func (it *loki) judgeExactly(this *delivery, pieces []piece, refused map[entryPlace]string) {
	for number, one := range pieces {
		for rest := one; ; {
			at := len(one.spans) - len(rest.spans)
			why := firstOf(refused[entryPlace{number, at}], refused[entryPlace{number, -1}])
			if len(rest.spans) == 1 {
				this.done = append(this.done, outcome{rest, why})
				break
			}
			var first piece
			first, rest = rest.split(1)
			this.done = append(this.done, outcome{first, why})
		}
	}
}

// judgeOne is for a piece alone: what is refused for sure, and the rest, or its halves.
func (it *loki) judgeOne(this *delivery, one piece, text string) error {
	count := refusedFirst(text, one)
	if count == 0 {
		return it.halve(this, []piece{one}, http.StatusBadRequest, text)
	}
	why := fmt.Sprintf("%d %s", http.StatusBadRequest, brief(text))
	if count == len(one.spans) {
		this.done = append(this.done, outcome{one, why})
		return nil
	}
	first, rest := one.split(count)
	this.done = append(this.done, outcome{first, why})
	return it.send(this, []piece{rest})
}

// halve sends the halves of what is too much, or not all of which is taken. A single entry is refused.
func (it *loki) halve(this *delivery, pieces []piece, status int, text string) error {
	if count := len(pieces); count > 1 {
		if err := it.send(this, pieces[:count/2]); err != nil {
			return err
		}
		return it.send(this, pieces[count/2:])
	}
	if len(pieces[0].spans) == 1 {
		this.done = append(this.done, outcome{pieces[0], fmt.Sprintf("%d %s", status, brief(text))})
		return nil
	}
	first, rest := pieces[0].split(len(pieces[0].spans) / 2)
	if err := it.send(this, []piece{first}); err != nil || this.left[first.of] != nil {
		return err
	}
	return it.send(this, []piece{rest})
}

// giveUp leaves a tenant for this round.
func (it *loki) giveUp(this *delivery, pieces []piece, status int, text string) error {
	why := &refusal{fmt.Sprintf("the Loki at %s answers %d %s", it.to.shown, status, brief(text))}
	it.lock.Lock()
	it.givenUp[this.tenant] = why
	it.lock.Unlock()
	for _, one := range pieces {
		this.left[one.of] = why
	}
	return nil
}

// settle writes what was refused to its files, and tells what is kept. (Nothing that is behind it in its stream is told
// before it is written.)
func (it *loki) settle(this *delivery) error {
	isRefused := false
	for _, one := range this.done {
		if one.why != "" {
			isRefused = true
			it.refuse(one)
		}
	}
	if isRefused {
		if err := makeFolder(it.refused.root); err != nil {
			return err
		}
		if err := it.refused.flush(); err != nil {
			return err
		}
	}
	for _, one := range this.done {
		if one.why == "" {
			it.lines.Add(int64(len(one.spans)))
			it.bytes.Add(int64(one.part.bytes()))
		}
		it.progress(one.of, this.left[one.of] != nil)
		it.told.keep(one.of, tallyOf(one.part), one.bound)
	}
	return nil
}

// refuse puts entries into the files beside, and says the first of them.
func (it *loki) refuse(one outcome) {
	it.refused.lock.Lock()
	it.refused.add(one.piece)
	it.refused.lock.Unlock()
	for at := range one.spans {
		if count := it.refusedLines.Add(1); count <= mostFaults {
			fmt.Fprintf(os.Stderr, "refused, and kept in %s: %s %s %d: %s\n", it.refused.root, one.of.tenant, one.labels,
				one.spans[at].time, one.why)
		}
	}
}

// progress ends the pause of a stream of which something was taken, or has the next one be the first again.
func (it *loki) progress(of *stream, waits bool) {
	it.lock.Lock()
	defer it.lock.Unlock()
	known := it.pauses[keyOf(of)]
	switch {
	case known == nil:
	case !waits:
		delete(it.pauses, keyOf(of))
	default:
		known.since, known.length = time.Now(), 0
		known.grow(false, known.why)
	}
}

// A failure is why a Loki gave no good answer to a body: it failed, or gave none.
type failure struct{ text string }

func (it *failure) Error() string { return it.text }

// tryTwice is the answer to a body, where it is none of a failing Loki. What else it fails with ends the round.
func (it *loki) tryTwice(tenant string, pieces []piece) (status int, text string, err error) {
	for try := 1; ; try++ {
		isPlain := it.isPlain.Load()
		status, text, err = it.push(tenant, pieces, isPlain)
		switch {
		case err == nil && status == http.StatusUnsupportedMediaType && !isPlain:
			it.isPlain.Store(true)
			continue
		case err == nil && status < 500:
			it.noteAnswer()
			return status, text, nil
		case err == nil:
			err = fmt.Errorf("%d %s", status, brief(text))
		}
		if it.noteFailure(pieces[0].of) {
			return 0, "", fmt.Errorf("the Loki at %s does not take lines: %w", it.to.shown, err)
		}
		if try >= triesAtOnce {
			return 0, "", &failure{err.Error()}
		}
		select {
		case <-time.After(jittered(firstPause)):
		case <-it.told.over().Done():
			return 0, "", err
		}
	}
}

func (it *loki) noteAnswer() {
	it.lock.Lock()
	defer it.lock.Unlock()
	it.answered, it.down = time.Now(), pause{}
	if len(it.failing) > 0 {
		it.failing = map[string]bool{}
	}
}

// noteFailure has all wait if the Loki fails several streams and answers nobody. It returns whether it has answered
// nobody for too long.
func (it *loki) noteFailure(of *stream) bool {
	it.lock.Lock()
	defer it.lock.Unlock()
	it.failing[keyOf(of)] = true
	if len(it.failing) < manyFailing || time.Now().Before(it.down.until) {
		return false
	}
	it.failing = map[string]bool{}
	it.down.grow(true, "")
	return time.Since(it.answered) > it.patience
}

// push is a try to send pieces.
func (it *loki) push(tenant string, pieces []piece, isPlain bool) (status int, text string, err error) {
	it.free <- struct{}{}
	defer func() { <-it.free }()
	in := it.rooms.Get().(*room)
	defer it.rooms.Put(in)
	kind, body := "application/x-protobuf", []byte(nil)
	if isPlain {
		kind, body = "application/json", in.json(pieces)
	} else {
		body = in.protobuf(pieces)
	}
	asked, err := http.NewRequestWithContext(it.told.over(), http.MethodPost, it.to.route, bytes.NewReader(body))
	if err != nil {
		return 0, "", err
	}
	asked.Header.Set("Content-Type", kind)
	asked.Header.Set("X-Scope-OrgID", tenant)
	asked.Header.Set("User-Agent", "needleazure-drain")
	if it.to.authorization != "" {
		asked.Header.Set("Authorization", it.to.authorization)
	}
	got, err := it.client.Do(asked)
	if err != nil {
		return 0, "", it.fault(err)
	}
	defer got.Body.Close()
	said, err := io.ReadAll(io.LimitReader(got.Body, mostAnswer))
	if err != nil {
		return 0, "", it.fault(err)
	}
	return got.StatusCode, strings.TrimSpace(strings.ToValidUTF8(string(said), "\ufffd")), nil
}

func (it *loki) fault(err error) error {
	var about *url.Error
	if errors.As(err, &about) {
		if about.Timeout() {
			return fmt.Errorf("no answer within %g s", it.client.Timeout.Seconds())
		}
		err = about.Err
	}
	return err
}

// brief is the beginning of what an answer says.
func brief(text string) string { return text[:min(len(text), mostSaid)] }
