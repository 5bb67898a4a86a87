package main

import (
	"bufio"
	"fmt"
	"log"
	"math"
	"net/http"
	"os"
	"strconv"
	"strings"
	"sync"
	"time"

	"golang.org/x/time/rate"
)

// A rule is how many bytes of lines and metadata may come a second, and how many at once.
type rule struct {
	rate  float64
	burst int
}

// What a file of limits says: for all tenants together, for each tenant without a line of its own, and for the others.
type rules struct {
	total, others *rule
	tenants       map[string]rule
}

const (
	totalName, othersName = "total:", "others:"
	mostRate              = 1 << 40
	// how many tenants without a line of their own are known at a time
	mostOthers = 65_536
)

// readRules reads a file of limits: lines of a name, a rate in bytes a second or a share of the total in percent, and a
// burst in bytes.
func readRules(path string) (rules, error) {
	file, err := os.Open(path)
	if err != nil {
		return rules{}, err
	}
	defer file.Close()
	found, shares := rules{tenants: map[string]rule{}}, map[string]float64{}
	for number, from := 1, bufio.NewScanner(file); ; number++ {
		if !from.Scan() {
			if err := from.Err(); err != nil {
				return found, err
			}
			break
		}
		text, _, _ := strings.Cut(from.Text(), "#")
		if words := strings.Fields(text); len(words) > 0 {
			if err := found.take(words, shares); err != nil {
				return found, fmt.Errorf("%s:%d: %s", path, number, err)
			}
		}
	}
	return found, found.divide(path, shares)
}

// take takes a line. A share is put aside until the total is known.
func (it *rules) take(words []string, shares map[string]float64) error {
	if len(words) != 3 {
		return fmt.Errorf("not a name, a rate and a burst")
	}
	name, share := words[0], strings.TrimSuffix(words[1], "%")
	isShare := share != words[1]
	if why := badTenant(name); why != "" && name != totalName && name != othersName {
		return fmt.Errorf("%q is no tenant: %s", name, why)
	}
	if _, is := it.tenants[name]; is {
		return fmt.Errorf("%s twice", name)
	}
	bytes, err := strconv.ParseFloat(share, 64)
	if err != nil || !(bytes > 0) || bytes > mostRate || isShare && (bytes > 100 || name == totalName) {
		return fmt.Errorf("%q is no rate in bytes a second, and no share of the total in percent", words[1])
	}
	burst, err := strconv.Atoi(words[2])
	if err != nil || burst < 1 || burst > math.MaxInt32 {
		return fmt.Errorf("%q is no number of bytes from 1 to %d", words[2], math.MaxInt32)
	}
	if isShare {
		shares[name] = bytes
	}
	it.tenants[name] = rule{bytes, burst}
	return nil
}

// divide gives shares their rate, and takes the two lines that are no tenant's out of the others.
func (it *rules) divide(path string, shares map[string]float64) error {
	total, isTotal := it.tenants[totalName]
	for name, share := range shares {
		if !isTotal {
			return fmt.Errorf("%s: %s has a share, and there is no line of %s", path, name, totalName)
		}
		it.tenants[name] = rule{total.rate * share / 100, it.tenants[name].burst}
	}
	if others, is := it.tenants[othersName]; is {
		it.others = &others
	}
	if isTotal {
		it.total = &total
	}
	delete(it.tenants, totalName)
	delete(it.tenants, othersName)
	return nil
}

func (it *rules) of(tenant string) (rule, bool) {
	if found, is := it.tenants[tenant]; is {
		return found, true
	}
	if it.others != nil {
		return *it.others, true
	}
	return rule{}, false
}

// Limits are what of the rules is left to the tenants. Of no file there are none.
type limits struct {
	path    string
	mutex   sync.Mutex
	rules   rules
	total   *rate.Limiter
	tenants map[string]*rate.Limiter
}

func newLimits(path string) (*limits, error) {
	it := &limits{path: path, tenants: map[string]*rate.Limiter{}}
	if path == "" {
		return it, nil
	}
	found, err := readRules(path)
	it.set(found)
	return it, err
}

func (it *limits) any() bool { return it.path != "" }

// again reads the file again. If it can't be read, the limits stay as they are.
func (it *limits) again() {
	if !it.any() {
		return
	}
	found, err := readRules(it.path)
	if err != nil {
		log.Printf("the limits stay as they are: %s", err)
		return
	}
	it.set(found)
	log.Printf("limits read again: %d tenants with lines of their own", len(found.tenants))
}

// set has other rules from now on. What a tenant has used up stays so.
func (it *limits) set(found rules) {
	it.mutex.Lock()
	defer it.mutex.Unlock()
	it.rules = found
	for tenant, each := range it.tenants {
		if rule, is := found.of(tenant); is {
			each.SetLimit(rate.Limit(rule.rate))
			each.SetBurst(rule.burst)
		} else {
			delete(it.tenants, tenant)
		}
	}
	switch {
	case found.total == nil:
		it.total = nil
	case it.total == nil:
		it.total = rate.NewLimiter(rate.Limit(found.total.rate), found.total.burst)
	default:
		it.total.SetLimit(rate.Limit(found.total.rate))
		it.total.SetBurst(found.total.burst)
	}
}

// limiter is that of a tenant, nil where there is no rule for it.
func (it *limits) limiter(tenant string, now time.Time) *rate.Limiter {
	if found, is := it.tenants[tenant]; is {
		return found
	}
	rule, is := it.rules.of(tenant)
	if !is {
		return nil
	}
	if len(it.tenants) >= mostOthers+len(it.rules.tenants) {
		it.forget(now)
	}
	found := rate.NewLimiter(rate.Limit(rule.rate), rule.burst)
	it.tenants[tenant] = found
	return found
}

// forget forgets tenants that have used up nothing, and where there are still too many, those without a line of their
// own.
func (it *limits) forget(now time.Time) {
	for tenant, each := range it.tenants {
		if each.TokensAt(now) >= float64(each.Burst()) {
			delete(it.tenants, tenant)
		}
	}
	if len(it.tenants) < mostOthers {
		return
	}
	for tenant := range it.tenants {
		if _, is := it.rules.tenants[tenant]; !is {
			delete(it.tenants, tenant)
		}
	}
}

// take counts a push against the limits, or refuses it whole with Loki's words, and then counts nothing.
func (it *limits) take(tenant string, found counts) error {
	it.mutex.Lock()
	defer it.mutex.Unlock()
	now := time.Now()
	own := it.limiter(tenant, now)
	if own != nil && !own.AllowN(now, int(found.bytes)) {
		return limited(tenant, own, found)
	}
	if it.total == nil || it.total.AllowN(now, int(found.bytes)) {
		return nil
	}
	if own != nil {
		// (a negative count gives it back)
		own.AllowN(now, -int(found.bytes))
	}
	return limited(tenant, it.total, found)
}

func limited(tenant string, by *rate.Limiter, found counts) error {
	const words = "Ingestion rate limit exceeded for user %s (limit: %d bytes/sec) while attempting to ingest '%d' lines " +
		"totaling '%d' bytes, reduce log volume or contact your Loki administrator to see if the limit can be increased"
	text := fmt.Sprintf(words, tenant, int64(by.Limit()), found.entries, found.bytes)
	return &fault{http.StatusTooManyRequests, text}
}

// countsOf is what the streams of a push have.
func countsOf(streams []stream) (found counts) {
	for _, each := range streams {
		for at := 0; at < each.length; at++ {
			it := each.entry(at)
			found.entries++
			found.bytes += int64(len(it.line))
			for _, pair := range it.metadata {
				found.bytes += int64(len(pair.name) + len(pair.value))
			}
		}
	}
	return found
}
