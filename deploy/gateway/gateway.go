package main

import (
	"context"
	"errors"
	"io"
	"net/http"
	"time"
)

// A gateway takes pushes as Loki does, and answers what its server answers.
type gateway struct {
	server *server
	tenant string
	most   int64
	within time.Duration
	budget *budget
	cache  *labelCache
	limits *limits
	// a place for each push that is unpacked and sent
	places  chan struct{}
	metrics *metrics
}

func newGateway(words words) *gateway {
	it := &gateway{
		server: newServer(words.to),
		tenant: words.tenant,
		most:   words.maxBody,
		within: bodyTime,
		budget: newBudget(words.memory),
		cache:  newLabelCache(words.memory / partOfCache),
		places: make(chan struct{}, words.connections),
		limits: words.limits,
	}
	it.metrics = newMetrics(func() float64 { return float64(words.memory - it.budget.left.Load()) })
	return it
}

// The texts of labels may take this part of the memory.
const partOfCache = 64

// (for all parts of a push)
const pushTime = 4 * time.Minute

func (it *gateway) handler() http.Handler {
	routes := http.NewServeMux()
	routes.HandleFunc(pushPath, only(it.push, http.MethodPost))
	routes.HandleFunc(otlpPath, only(it.pushLogs, http.MethodPost))
	routes.HandleFunc(readyPath, only(it.ready, http.MethodGet, http.MethodHead))
	routes.HandleFunc("/metrics", only(it.metrics.handler().ServeHTTP, http.MethodGet, http.MethodHead))
	return http.HandlerFunc(func(to http.ResponseWriter, from *http.Request) {
		// (also what nobody wants of a request is read to its end before the next one)
		setDeadline(from, time.Now().Add(it.within))
		if from.URL.Path == pushPath && from.Method == http.MethodPost {
			it.push(to, from)
			return
		}
		routes.ServeHTTP(to, from)
	})
}

func only(then http.HandlerFunc, methods ...string) http.HandlerFunc {
	return func(to http.ResponseWriter, from *http.Request) {
		for _, method := range methods {
			if from.Method == method {
				then(to, from)
				return
			}
		}
		to.Header().Set("Allow", methods[0])
		http.Error(to, "method not allowed", http.StatusMethodNotAllowed)
	}
}

func (it *gateway) ready(to http.ResponseWriter, from *http.Request) {
	found, err := it.server.ready(from.Context())
	if err != nil {
		tell(to, unanswered(err))
		return
	}
	write(to, found)
}

func (it *gateway) push(to http.ResponseWriter, from *http.Request) {
	pushed := pushed{}
	found, err := pushed.answerRequest(it, from, readHead)
	status := found.status
	if err != nil {
		status = tell(to, err)
	} else {
		write(to, found)
	}
	it.metrics.answered(pushed.form, status, pushed.began)
}

func (it *gateway) pushLogs(to http.ResponseWriter, from *http.Request) {
	pushed := pushed{}
	found, err := pushed.answerRequest(it, from, readLogsHead)
	if err != nil {
		its := faultOf(err)
		found = answer{status: its.status, text: its.text}
	}
	found.status = otlpStatus(found.status)
	writeOTLP(to, found, pushed.body.isJSON)
	it.metrics.answered(pushed.form, found.status, pushed.began)
}

// tell answers a fault, and returns its status.
func tell(to http.ResponseWriter, err error) int {
	found := faultOf(err)
	http.Error(to, found.text, found.status)
	return found.status
}

func faultOf(err error) *fault {
	var found *fault
	if errors.As(err, &found) {
		return found
	}
	return &fault{http.StatusInternalServerError, err.Error()}
}

func write(to http.ResponseWriter, found answer) {
	if found.kind != "" {
		to.Header().Set("Content-Type", found.kind)
	}
	to.WriteHeader(found.status)
	io.WriteString(to, found.text)
}

// A push that is under way.
type pushed struct {
	*gateway
	in      context.Context
	began   time.Time
	form    string
	counted *formMetrics
	tenant  string
	body    received
	holding *held
}

func (it *pushed) begin(by *gateway, in context.Context) {
	*it = pushed{gateway: by, in: in, began: time.Now(), form: "none", holding: newHeld(by.budget)}
}

func (it *pushed) end() {
	it.holding.release()
	heldPool.Put(it.holding)
}

// answerRequest is what the server answers to a push that net/http has taken.
func (it *pushed) answerRequest(by *gateway, from *http.Request, readHead func(head) (received, error)) (answer, error) {
	it.begin(by, from.Context())
	defer it.end()
	if err := it.accept(headOf(from), readHead); err != nil {
		return answer{}, err
	}
	return it.answer(requestBody{from})
}

// accept looks at what the head of a push says.
func (it *pushed) accept(said head, readHead func(head) (received, error)) (err error) {
	if it.tenant = said.tenant; it.tenant == "" {
		it.tenant = it.gateway.tenant
	}
	if it.tenant == "" {
		return &fault{http.StatusUnauthorized, "no org id"}
	}
	if why := badTenant(it.tenant); why != "" {
		return badRequest("bad tenant: %s", why)
	}
	if it.body, err = readHead(said); err != nil {
		return err
	}
	it.form = it.body.form()
	it.counted = it.metrics.forms[it.form]
	if it.body.length = said.length; said.length > it.most {
		return errTooLarge(it.most)
	}
	return nil
}

// answer is what the server answers to a push with this body.
func (it *pushed) answer(body io.Reader) (answer, error) {
	if err := it.body.read(body, it.most, it.holding); err != nil {
		return answer{}, err
	}
	it.counted.received.Add(float64(len(it.body.bytes)))
	if err := it.enter(); err != nil {
		return answer{}, err
	}
	defer func() { <-it.places }()
	if err := it.body.unpack(it.most, it.holding); err != nil {
		return answer{}, err
	}
	return it.forward()
}

// enter waits for a place.
func (it *pushed) enter() error {
	select {
	case it.places <- struct{}{}:
		return nil
	default:
	}
	looks := time.NewTicker(lookTime)
	defer looks.Stop()
	for late := it.began.Add(pushTime); time.Now().Before(late); {
		select {
		case it.places <- struct{}{}:
			return nil
		case <-it.in.Done():
		case <-looks.C:
		}
		if err := it.in.Err(); err != nil {
			return unanswered(err)
		}
	}
	return unanswered(context.DeadlineExceeded)
}

// For so many bytes of a body's limit there may be one of its streams, entries, times, labels and pairs.
const bytesEach = 16

// forward sends a push to the server: as one body that is found fast, as nearly all are, or else in parts.
func (it *pushed) forward() (answer, error) {
	whole, found, err := it.translate()
	if err != nil {
		return answer{}, err
	}
	if whole == nil {
		return it.forwardParts()
	}
	it.counted.entries.Add(float64(found.entries))
	if it.limits.any() {
		if err := it.limits.take(it.tenant, found); err != nil {
			return answer{}, err
		}
	}
	return it.send(whole)
}

// translate is the body that the server takes as this one, if that is found fast.
func (it *pushed) translate() (*buffer, counts, error) {
	if it.body.isOTLP {
		return nil, counts{}, nil
	}
	if !it.body.isJSON {
		return translate(it.body.bytes, it.most/bytesEach, it.holding, it.cache)
	}
	if found, isSo := scanJSON(it.body.bytes, it.most/bytesEach); isSo {
		return it.body.buffer, found, nil
	}
	return nil, counts{}, nil
}

// read is what a body asks for.
func (it *pushed) read() ([]stream, error) {
	// (its texts once more, and the part that is made of it: six times as long if it is all control characters, and as
	// long as a part may be where records share what their resource has)
	length, part := int64(len(it.body.bytes)), int64(mostBody)
	if !it.body.isOTLP {
		part = smaller(mostEscaped*length, mostBody)
	}
	if err := it.holding.take(length + part); err != nil {
		return nil, err
	}
	streams, err := it.decoder()(it.body.bytes, &messages{held: it.holding, most: it.most / bytesEach})
	count := 0
	for _, each := range streams {
		count += each.length
	}
	it.counted.entries.Add(float64(count))
	return streams, err
}

func (it *pushed) decoder() func([]byte, *messages) ([]stream, error) {
	switch {
	case it.body.isOTLP && it.body.isJSON:
		return decodeJSONLogs
	case it.body.isOTLP:
		return decodeOTLP
	case it.body.isJSON:
		return decodeJSON
	}
	return decodeProtobuf
}

// send sends a part, and is the server's answer.
func (it *pushed) send(body *buffer) (answer, error) {
	it.metrics.parts.Inc()
	it.metrics.sent.Add(float64(len(body.bytes)))
	found, err := it.server.push(it.in, it.began.Add(pushTime), it.tenant, body)
	it.server.note(err)
	if err != nil {
		it.metrics.away.Inc()
		return answer{}, unanswered(err)
	}
	return found, nil
}

// forwardParts sends a push in as many parts as the server needs, one after another.
func (it *pushed) forwardParts() (answer, error) {
	streams, err := it.read()
	if err != nil {
		return answer{}, err
	}
	if it.limits.any() {
		if err := it.limits.take(it.tenant, countsOf(streams)); err != nil {
			return answer{}, err
		}
	}
	found := verdict{}
	parts := newSplitter(streams, found.refuse)
	for {
		next := parts.next()
		got, err := it.send(&buffer{bytes: next.body})
		if err != nil {
			return answer{}, err
		}
		if !found.add(next, got) || parts.done() {
			return found.answer(), nil
		}
	}
}
