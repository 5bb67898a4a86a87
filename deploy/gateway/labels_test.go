package main

import (
	"reflect"
	"strings"
	"testing"
)

func TestLabels(t *testing.T) {
	for text, wanted := range map[string][]label{
		``:                                 nil,
		`{}`:                               nil,
		` { } `:                            nil,
		`{a="1"}`:                          {{"a", "1"}},
		`{a="1", b='2',_c9=` + "`3`" + `}`: {{"a", "1"}, {"b", "2"}, {"_c9", "3"}},
		`{a="1",}`:                         {{"a", "1"}},
		"{\n\ta = \"1\" # a comment }\n,\r\nb=\"2\" } # more": {{"a", "1"}, {"b", "2"}},
		`name{a="1"}`:                    {{"__name__", "name"}, {"a", "1"}},
		`a:b`:                            {{"__name__", "a:b"}},
		`{a="",b="1"}`:                   {{"b", "1"}},
		`{sum="by",on=""}`:               {{"sum", "by"}},
		`{a="\a\b\f\n\r\t\v\\\""}`:       {{"a", "\a\b\f\n\r\t\v\\\""}},
		`{a='\'"'}`:                      {{"a", `'"`}},
		`{a="'"}`:                        {{"a", "'"}},
		`{a="\x41\101\u00e9\U0001F600"}`: {{"a", "AA\u00e9\U0001F600"}},
		`{a="\xff\377"}`:                 {{"a", "\xff\xff"}},
		`{a="é, {} = #"}`:                {{"a", "é, {} = #"}},
		"{a=`\\n\n\"`}":                  {{"a", "\\n\n\""}},
		"{a=\"\uFFFD\"}":                 {{"a", "\uFFFD"}},
		`{a="1",a="2"}`:                  {{"a", "1"}, {"a", "2"}},
	} {
		found, err := parseLabels(text)
		if err != nil || !reflect.DeepEqual(found, wanted) {
			t.Errorf("%q: %q, %v", text, found, err)
		}
	}
}

func TestLabelFaults(t *testing.T) {
	for text, wanted := range map[string]string{
		`{`:                `1:2: parse error: unexpected end of input inside braces, expected a label name or "}"`,
		`{a`:               `1:3: parse error: unexpected end of input inside braces, expected "="`,
		`{a=`:              `1:4: parse error: unexpected end of input inside braces, expected a quoted text`,
		`{a=1}`:            `1:4: parse error: unexpected '1' inside braces, expected a quoted text`,
		`{a="1"`:           `1:7: parse error: unexpected end of input inside braces, expected "," or "}"`,
		`{a="1" b="2"}`:    `1:8: parse error: unexpected 'b' inside braces, expected "," or "}"`,
		`{a="1",,}`:        `1:8: parse error: unexpected ',' inside braces, expected a label name or "}"`,
		`{,}`:              `1:2: parse error: unexpected ',' inside braces, expected a label name or "}"`,
		`{a-b="1"}`:        `1:3: parse error: unexpected '-' inside braces, expected "="`,
		`{a=~"1"}`:         `1:4: parse error: unexpected '~' inside braces, expected a quoted text`,
		`{a!="1"}`:         `1:3: parse error: unexpected '!' inside braces, expected "="`,
		`{9="1"}`:          `1:2: parse error: unexpected '9' inside braces, expected a label name or "}"`,
		`{"a"="1"}`:        `1:2: parse error: unexpected '"' inside braces, expected a label name or "}"`,
		`{a:b="1"}`:        `1:3: parse error: unexpected ':' inside braces, expected "="`,
		`{a="1"}{`:         `1:8: parse error: unexpected '{' after the labels`,
		`a b`:              `1:3: parse error: unexpected 'b' after the labels`,
		"{\na=\"1}":        `2:6: parse error: unterminated quoted string`,
		"{a=\"1\n\"}":      `1:6: parse error: unterminated quoted string`,
		"{a=`1}":           `1:4: parse error: unterminated raw string`,
		`{a="\q"}`:         `1:5: parse error: unknown or unfinished escape sequence`,
		`{a="\'"}`:         `1:5: parse error: unknown or unfinished escape sequence`,
		`{a="\x4"}`:        `1:5: parse error: unknown or unfinished escape sequence`,
		`{a="\400"}`:       `1:5: parse error: unknown or unfinished escape sequence`,
		`{a="\ud800"}`:     `1:5: parse error: unknown or unfinished escape sequence`,
		`{a="\U00110000"}`: `1:5: parse error: unknown or unfinished escape sequence`,
		`{a="\`:            `1:5: parse error: unknown or unfinished escape sequence`,
		"{a=\"\xff\"}":     `1:5: parse error: invalid UTF-8 rune`,
		"{a=`\xff`}":       `1:4: parse error: invalid UTF-8 rune`,
		"\x00":             `1:1: parse error: unexpected '\x00' after the labels`,
		"{a\x00":           `1:3: parse error: unexpected '\x00' inside braces, expected "="`,
	} {
		if found, err := parseLabels(text); err == nil || err.Error() != wanted {
			t.Errorf("%q: %q, %v", text, found, err)
		}
	}
}

// However many labels a text has, no more are kept than the server needs to refuse them, and none is longer.
func TestLabelsAreCut(t *testing.T) {
	many, err := parseLabels("{" + strings.Repeat(`a="1",`, 100_000) + "}")
	if err != nil || len(many) != mostLabels+1 {
		t.Errorf("%d labels, %v", len(many), err)
	}
	if _, err := parseLabels(strings.Repeat(" ", mostLabelText+1)); err == nil || err.Error() != "more than 1048576 bytes" {
		t.Error(err)
	}
	long, err := parseLabels("{" + strings.Repeat("a", 5000) + `="` + strings.Repeat("b", 5000) + `"}`)
	if err != nil || len(long[0].name) != 1025 || len(long[0].value) != 2049 {
		t.Errorf("%d, %d, %v", len(long[0].name), len(long[0].value), err)
	}
	for name, value := range map[string]string{
		"escapes": strings.Repeat(`\x41`, 5000), "both": strings.Repeat(`b\u0041`, 2500), "one more": strings.Repeat("b", 2047) + `\n\n`,
	} {
		found, err := parseLabels(`{a="` + value + `",b='1'}`)
		if err != nil || len(found) != 2 || len(found[0].value) != 2049 || found[1].value != "1" {
			t.Errorf("%s: %d, %v", name, len(found[0].value), err)
		}
	}
}

func FuzzLabels(f *testing.F) {
	f.Add(`a{b="\x41",c='d',}`)
	f.Fuzz(func(t *testing.T, text string) {
		if found, err := parseLabels(text); err == nil {
			for _, it := range found {
				if !isName(it.name) && it.name != "__name__" && it.value == "" {
					t.Errorf("%q: %q", text, found)
				}
			}
		}
	})
}
