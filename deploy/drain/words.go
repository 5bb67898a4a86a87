package main

import (
	"errors"
	"fmt"
	"math/big"
	"os"
	"regexp"
	"strconv"
	"strings"
	"time"
)

const usage = "usage: drain DIR PORT SHARDS TO [--every DURATION]"

// The words and settings that a drain is started with.
type words struct {
	log, to      string
	port, shards int
	// the time between the beginnings of two rounds, and 0 for one round alone
	every                      time.Duration
	window, patience, waitsFor time.Duration
	// how young lines are that a round leaves, and how far ahead of the clock the server takes any
	delay, grace time.Duration
	loki         *address
}

func readWords(given []string) (words, error) {
	it := words{}
	if len(given) != 4 && (len(given) != 6 || given[4] != "--every") {
		return it, errors.New(usage)
	}
	it.log, it.to = given[0], given[3]
	var faults [8]error
	it.port, faults[0] = numberIn(given[1], 65535, "PORT")
	it.shards, faults[1] = numberIn(given[2], 64, "SHARDS")
	if len(given) == 6 {
		it.every, faults[2] = durationOf("--every", given[5], false)
	}
	it.window, faults[3] = setting("NEEDLEAZURE_MAX_CHUNK_AGE", "2h", true)
	it.window /= 2
	it.patience, faults[4] = setting("NEEDLEAZURE_DRAIN_TIMEOUT", "60s", false)
	it.delay, faults[6] = setting("DRAIN_DELAY", "10s", true)
	it.grace, faults[7] = setting("NEEDLEAZURE_CREATION_GRACE_PERIOD", "10m", false)
	if strings.HasPrefix(it.to, "http://") || strings.HasPrefix(it.to, "https://") {
		faults[5] = it.readLoki()
	}
	for _, err := range faults {
		if err != nil {
			return it, err
		}
	}
	return it, nil
}

func (it *words) readLoki() (err error) {
	if it.waitsFor, err = setting("NEEDLEAZURE_LOKI_PATIENCE", "60s", true); err != nil {
		return err
	}
	found, err := readAddress(it.to)
	if err != nil {
		return fmt.Errorf("TO is not the push route of a Loki: %w", err)
	}
	it.loki = &found
	return nil
}

// place is where lines go.
func (it *words) place() place {
	if it.loki == nil {
		return newFiles(it.to)
	}
	return newLoki(firstOf(os.Getenv("STATE_DIRECTORY"), "drained"), *it.loki, it.patience, it.waitsFor)
}

func numberIn(text string, most int, name string) (int, error) {
	found, err := strconv.ParseUint(text, 10, 32)
	if err != nil || found < 1 || found > uint64(most) || len(text) > 9 {
		return 0, fmt.Errorf("%s is not a number from 1 to %d", name, most)
	}
	return int(found), nil
}

func setting(name, usual string, mayBeZero bool) (time.Duration, error) {
	text, isSet := os.LookupEnv(name)
	if !isSet {
		text = usual
	}
	return durationOf(name, text, mayBeZero)
}

var (
	wholeDuration = regexp.MustCompile(`^(?:[0-9]{1,19}[wdhms])+$`)
	eachUnit      = regexp.MustCompile(`([0-9]+)([wdhms])`)
	unitSeconds   = map[string]int64{"w": 604800, "d": 86400, "h": 3600, "m": 60, "s": 1}
)

// durationOf is a duration as the server reads it: 0, or as 90s, 20m, 2h, 1h30m or 7d.
func durationOf(name, text string, mayBeZero bool) (time.Duration, error) {
	sum, isGood := new(big.Int), text == "0" || wholeDuration.MatchString(text)
	for _, found := range eachUnit.FindAllStringSubmatch(text, -1) {
		number, _ := new(big.Int).SetString(found[1], 10)
		sum.Add(sum, number.Mul(number, big.NewInt(unitSeconds[found[2]]*second)))
	}
	if !isGood || !sum.IsInt64() || sum.Sign() == 0 && !mayBeZero {
		return 0, fmt.Errorf("%s is no duration as 90s, 20m, 2h or 1h30m: %s", name, text)
	}
	return time.Duration(sum.Int64()), nil
}
