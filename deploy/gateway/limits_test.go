package main

import (
	"fmt"
	"os"
	"reflect"
	"strings"
	"testing"
	"time"
)

func fileOf(t *testing.T, text string) string {
	path := t.TempDir() + "/limits"
	if err := os.WriteFile(path, []byte(text), 0o644); err != nil {
		t.Fatal(err)
	}
	return path
}

func TestRules(t *testing.T) {
	for text, wanted := range map[string]rules{
		"":                       {tenants: map[string]rule{}},
		"# none\n\n":             {tenants: map[string]rule{}},
		"a 10 20 # a comment":    {tenants: map[string]rule{"a": {10, 20}}},
		"total: 0.5 1\nb 100% 3": {total: &rule{0.5, 1}, tenants: map[string]rule{"b": {0.5, 3}}},
		"others:  25%\t7\ntotal: 1000 2000\nother 1 2\n": {
			total: &rule{1000, 2000}, others: &rule{250, 7}, tenants: map[string]rule{"other": {1, 2}},
		},
	} {
		if found, err := readRules(fileOf(t, text)); err != nil || !reflect.DeepEqual(found, wanted) {
			t.Errorf("%q: %v, %v", text, found, err)
		}
	}
	for text, wanted := range map[string]string{
		"a 1":                      ":1: not a name, a rate and a burst",
		"\na 1 2 3":                ":2: not a name, a rate and a burst",
		"a.b 1 2":                  `:1: "a.b" is no tenant: '.' is none of letters, digits, - and _`,
		"sum: 1 2":                 `:1: "sum:" is no tenant: ':' is none of letters, digits, - and _`,
		"a 1 2\na 1 2":             ":2: a twice",
		"total: 1 2\ntotal: 1 2":   ":2: total: twice",
		"a 0 2":                    `:1: "0" is no rate in bytes a second, and no share of the total in percent`,
		"a -1 2":                   `:1: "-1" is no rate in bytes a second, and no share of the total in percent`,
		"a NaN 2":                  `:1: "NaN" is no rate in bytes a second, and no share of the total in percent`,
		"a Inf 2":                  `:1: "Inf" is no rate in bytes a second, and no share of the total in percent`,
		"a 101% 2":                 `:1: "101%" is no rate in bytes a second, and no share of the total in percent`,
		"total: 10% 2":             `:1: "10%" is no rate in bytes a second, and no share of the total in percent`,
		"a 1 0":                    `:1: "0" is no number of bytes from 1 to 2147483647`,
		"a 1 1e3":                  `:1: "1e3" is no number of bytes from 1 to 2147483647`,
		"a 10% 2":                  ": a has a share, and there is no line of total:",
		strings.Repeat("a", 1<<17): "bufio.Scanner: token too long",
	} {
		path := fileOf(t, text)
		if _, err := readRules(path); err == nil || strings.TrimPrefix(err.Error(), path) != wanted {
			t.Errorf("%.40q: %v", text, err)
		}
	}
}

func takes(it *limits, tenant string, bytes int64) bool {
	return it.take(tenant, counts{entries: 1, bytes: bytes}) == nil
}

// What a tenant may, and all of them together; a push that is refused takes nothing.
func TestLimits(t *testing.T) {
	it, err := newLimits(fileOf(t, "total: 1 100\nloud 1 60\nothers: 1 50"))
	if err != nil {
		t.Fatal(err)
	}
	for at, each := range []struct {
		tenant string
		bytes  int64
		wanted bool
	}{
		{"loud", 61, false}, {"loud", 40, true}, {"loud", 30, false}, {"loud", 20, true}, {"a", 51, false}, {"a", 30, true},
		{"b", 20, false}, {"b", 10, true}, {"c", 1, false}, {"c", 0, true},
	} {
		if takes(it, each.tenant, each.bytes) != each.wanted {
			t.Errorf("%d: %v", at, each)
		}
	}
	if left := it.tenants["b"].Tokens(); left < 40 || left > 41 {
		t.Errorf("%f left of b", left)
	}
	if none, err := newLimits(""); err != nil || none.any() || !takes(none, "a", 1<<30) {
		t.Errorf("%v", err)
	}
}

// A file that is read again: what was used up stays so, and one that can't be read changes nothing.
func TestLimitsAgain(t *testing.T) {
	path := fileOf(t, "a 1 100\nb 1 100")
	it, err := newLimits(path)
	if err != nil || !takes(it, "a", 90) || !takes(it, "b", 90) || !takes(it, "c", 1<<20) {
		t.Fatal(err)
	}
	for _, each := range []struct {
		text    string
		a, b, c bool
	}{
		{"a 1 100 7", false, false, true}, {"a 1 50\nothers: 1 10", false, false, false}, {"total: 1 1000\na 1 50", false, true, true},
	} {
		os.WriteFile(path, []byte(each.text), 0o644)
		it.again()
		if takes(it, "a", 20) != each.a || takes(it, "b", 20) != each.b || takes(it, "c", 20) != each.c {
			t.Errorf("%q", each.text)
		}
	}
}

// However many tenants there are, no more are known than may be.
func TestManyTenants(t *testing.T) {
	it, err := newLimits(fileOf(t, "others: 1000000 10\nown 0.001 10"))
	if err != nil || !takes(it, "own", 10) {
		t.Fatal(err)
	}
	for at := 0; at < mostOthers+10; at++ {
		takes(it, fmt.Sprint(at), 10)
	}
	time.Sleep(time.Millisecond)
	takes(it, "one", 1)
	if len(it.tenants) > mostOthers+1 || takes(it, "own", 10) {
		t.Errorf("%d are known", len(it.tenants))
	}
}

// Each form of a push, by the fast way and in parts, is refused whole and with Loki's words.
func TestLimited(t *testing.T) {
	stands := newStandIn(t)
	by := over(stands.URL, "--limits", fileOf(t, "t 1 100"))
	long := strings.Repeat("a", 98)
	for at, it := range []struct {
		body   string
		status int
	}{
		{`{"streams":[{"stream":{"a":"1"},"values":[["1","` + long + `",{"k":"\u00e9"}]]}]}`, 429},
		{`{"Streams":[{"stream":{"a":"1"},"values":[["1","` + long + `",{"k":"\u00e9"}]]}]}`, 429},
		{`{"streams":[{"stream":{"a":"1"},"values":[["1","` + long + `"]]}]}`, 204},
		{`{"streams":[{"stream":{"a":"1"},"values":[["1","aaa"]]}]}`, 429},
	} {
		found := pushJSON(by, it.body)
		if found.status != it.status {
			t.Errorf("%d: %v", at, found)
		}
		wanted := "Ingestion rate limit exceeded for user t (limit: 1 bytes/sec) while attempting to ingest '1' lines totaling '101' " +
			"bytes, reduce log volume or contact your Loki administrator to see if the limit can be increased\n"
		if at < 2 && found.text != wanted {
			t.Errorf("%d: %s", at, found.text)
		}
	}
	if len(stands.bodies) != 1 {
		t.Errorf("%d were sent on", len(stands.bodies))
	}
}

func TestBadTenants(t *testing.T) {
	stands := newStandIn(t)
	for tenant, wanted := range map[string]string{
		"a.b":                    "bad tenant: '.' is none of letters, digits, - and _\n",
		"..":                     "bad tenant: '.' is none of letters, digits, - and _\n",
		"a|b":                    "bad tenant: '|' is none of letters, digits, - and _\n",
		"é":                      "bad tenant: 'é' is none of letters, digits, - and _\n",
		strings.Repeat("a", 151): "bad tenant: not 1 to 150 bytes\n",
	} {
		found := ask1(over(stands.URL), "POST", pushPath, "{}", "Content-Type", "application/json", "X-Scope-OrgID", tenant)
		if found != (answer{400, plainText, wanted}) {
			t.Errorf("%s: %v", tenant, found)
		}
	}
	if len(stands.bodies) != 0 {
		t.Errorf("%d were sent on", len(stands.bodies))
	}
}
