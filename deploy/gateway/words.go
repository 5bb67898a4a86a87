package main

import (
	"errors"
	"flag"
	"fmt"
	"io"
	"net/url"
	"unicode/utf8"
)

const usage = `usage: needleazure-gateway --listen ADDR --to http://HOST:PORT
       [--max-body BYTES] [--tenant NAME] [--connections N] [--memory BYTES]
       [--limits FILE]`

// The words that a gateway is started with.
type words struct {
	listen, to, tenant string
	maxBody, memory    int64
	connections        int
	limits             *limits
}

// (what the largest push may take: what came and what it unpacks to thrice each, its texts, 8 times for its messages,
// and a part that is 6 times as long; so that none is answered 503 for ever)
const memoryEach = 24

const mostTenant = 150

// badTenant is why the server has no tenant of this name, or nothing. Loki takes a dot and some other characters, too.
// Each name of the server's characters is already a tenant's, so that no other name could be written as one of them
// without being another tenant's.
func badTenant(name string) string {
	for _, it := range name {
		if it >= utf8.RuneSelf || !isLetter(byte(it)) && !isDigit(byte(it)) && it != '-' {
			return fmt.Sprintf("%q is none of letters, digits, - and _", it)
		}
	}
	if name == "" || len(name) > mostTenant {
		return fmt.Sprintf("not 1 to %d bytes", mostTenant)
	}
	return ""
}

func readWords(given []string) (words, error) {
	it, limits := words{}, ""
	flags := flag.NewFlagSet("needleazure-gateway", flag.ContinueOnError)
	flags.SetOutput(io.Discard)
	flags.Usage = func() {}
	flags.StringVar(&it.listen, "listen", "", "")
	flags.StringVar(&it.to, "to", "", "")
	flags.StringVar(&it.tenant, "tenant", "", "")
	flags.Int64Var(&it.maxBody, "max-body", 16<<20, "")
	flags.Int64Var(&it.memory, "memory", 512<<20, "")
	flags.IntVar(&it.connections, "connections", 32, "")
	flags.StringVar(&limits, "limits", "", "")
	if err := flags.Parse(given); err != nil {
		return it, err
	}
	to, err := url.Parse(it.to)
	switch {
	case flags.NArg() > 0:
		return it, errors.New("not known: " + flags.Arg(0))
	case it.listen == "":
		return it, errors.New("--listen is missing")
	case err != nil || to.Scheme != "http" && to.Scheme != "https" || to.Host == "" || to.Path != "" || to.RawQuery != "":
		return it, errors.New("--to is not of the form http://HOST:PORT")
	case it.tenant != "" && badTenant(it.tenant) != "":
		return it, errors.New("--tenant is not 1 to 150 letters, digits, - and _")
	case it.maxBody < 65_536 || it.maxBody > 1<<30:
		return it, errors.New("--max-body is not a number from 65536 to 1073741824")
	case it.connections < 1 || it.connections > 64:
		return it, errors.New("--connections is not a number from 1 to 64")
	case it.memory < memoryEach*it.maxBody:
		return it, errors.New("--memory is less than 24 times --max-body")
	}
	it.limits, err = newLimits(limits)
	return it, err
}
