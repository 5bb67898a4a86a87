package main

import (
	"bytes"
	"encoding/json"
	"fmt"
	"math"
	"reflect"
	"strings"
	"testing"
	"time"

	"google.golang.org/protobuf/encoding/protowire"
)

// Messages of Protobuf by hand: a number and what its field has.
func message(fields ...any) (found []byte) {
	for at := 0; at < len(fields); at += 2 {
		number := protowire.Number(fields[at].(int))
		switch it := fields[at+1].(type) {
		case string:
			found = protowire.AppendString(protowire.AppendTag(found, number, protowire.BytesType), it)
		case []byte:
			found = protowire.AppendBytes(protowire.AppendTag(found, number, protowire.BytesType), it)
		case int:
			found = protowire.AppendVarint(protowire.AppendTag(found, number, protowire.VarintType), uint64(it))
		case uint64:
			found = protowire.AppendFixed64(protowire.AppendTag(found, number, protowire.Fixed64Type), it)
		case uint32:
			found = protowire.AppendFixed32(protowire.AppendTag(found, number, protowire.Fixed32Type), it)
		}
	}
	return found
}

func textValue(text string) []byte               { return message(1, text) }
func wireAttribute(key string, it []byte) []byte { return message(1, key, 2, it) }

const (
	traceID = "5b8efff798038103d269b633813fc60c"
	spanID  = "eee19b7ec3c1b174"
)

var (
	wireTrace = []byte("\x5b\x8e\xff\xf7\x98\x03\x81\x03\xd2\x69\xb6\x33\x81\x3f\xc6\x0c")
	wireSpan  = []byte("\xee\xe1\x9b\x7e\xc3\xc1\xb1\x74")
)

// The same logs in both forms.
func TestOTLP(t *testing.T) {
	everything := `{"key":"v","value":{"kvlistValue":{"values":[{"key":"b.c","value":{"intValue":"-5"}},
		{"key":"d","value":{"arrayValue":{"values":[{"stringValue":"<é\""},{"doubleValue":1.5},{"boolValue":true},{},
		{"bytesValue":"AAE="},{"kvlistValue":{"values":[{"key":"z","value":{"intValue":1}},{"key":"a","value":{}}]}}]}}}]}}}`
	asJSON := `{"more":1,"resourceLogs":[{"resource":{"attributes":[{"key":"service.name","value":{"stringValue":"shop"}},
		{"key":"k8s.pod.name","value":{"stringValue":""}},{"key":"host.name","value":{"stringValue":"h"}}]},
		"scopeLogs":[{"scope":{"name":"s","version":"1","attributes":[{"key":"1a","value":{"boolValue":false}},
		{"key":"_b","value":{"doubleValue":2}}],"droppedAttributesCount":3},
		"logRecords":[{"timeUnixNano":"1000000005","observedTimeUnixNano":7,"severityNumber":9,"severityText":"INFO",
		"body":{"stringValue":"a line"},"attributes":[` + everything + `,{"key":"host.name","value":{"stringValue":"own"}}],
		"droppedAttributesCount":2,"flags":1,"traceId":"` + strings.ToUpper(traceID) + `","spanId":"` + spanID + `","eventName":"e"},
		{"observedTimeUnixNano":"8","body":{"intValue":"12"},"traceId":"00000000000000000000000000000000"}]},
		{"logRecords":[{"timeUnixNano":"18446744073709551615"}]}]},{"resource":{"attributes":[{"key":"app","value":{"intValue":4}}]}}]}`
	list := message(1, textValue("<é\""), 1, message(4, math.Float64bits(1.5)), 1, message(2, 1), 1, []byte{}, 1, message(7, "\x00\x01"),
		1, message(6, message(1, wireAttribute("z", message(3, 1)), 1, wireAttribute("a", nil))))
	attributes := message(1, wireAttribute("b.c", message(3, -5)), 1, wireAttribute("d", message(5, list)))
	first := message(1, uint64(1000000005), 11, uint64(7), 2, 9, 3, "INFO", 5, textValue("a line"),
		6, wireAttribute("v", message(6, attributes)), 6, wireAttribute("host.name", textValue("own")), 7, 2, 8, uint32(1),
		9, wireTrace, 10, wireSpan, 12, "e")
	second := message(11, uint64(8), 5, message(3, 12), 9, make([]byte, 16))
	scope := message(1, "s", 2, "1", 3, wireAttribute("1a", message(2, 0)), 3, wireAttribute("_b", message(4, math.Float64bits(2))), 4, 3)
	resource := message(1, wireAttribute("service.name", textValue("shop")), 1, wireAttribute("k8s.pod.name", textValue("")),
		1, wireAttribute("host.name", textValue("h")))
	asWire := message(1, message(1, resource, 2, message(1, scope, 2, first, 2, second), 2, message(2, message(1, uint64(math.MaxUint64)))),
		1, message(1, message(1, wireAttribute("app", message(3, 4)))), 9, "more")

	shared := []label{{"host_name", "h"}, {"key_1a", "false"}, {"key_b", "2"}, {"scope_name", "s"}, {"scope_version", "1"},
		{"scope_dropped_attributes_count", "3"}}
	own := append([]label{{"host_name", "own"}}, shared[1:]...)
	own = append(own, label{"v_b_c", "-5"}, label{"v_d", `["\u003cé\"",1.5,true,null,"AAE=",{"a":null,"z":1}]`},
		label{"observed_timestamp", "7"}, label{"severity_number", "9"}, label{"severity_text", "INFO"},
		label{"dropped_attributes_count", "2"}, label{"flags", "1"}, label{"trace_id", traceID}, label{"span_id", spanID},
		label{"event_name", "e"})
	wanted := []plain{
		{[]label{{"service_name", "shop"}}, []entry{
			{1000000005, "a line", own}, {8, "12", shared}, {math.MaxInt64, "", []label{{"host_name", "h"}}},
		}},
		{labels: []label{{"service_name", "4"}}},
	}
	byJSON, err := decodeJSONLogs([]byte(asJSON), plenty(1000))
	if err != nil || !reflect.DeepEqual(plainOf(byJSON), wanted) {
		t.Errorf("%v\n%q\n%q", err, plainOf(byJSON), wanted)
	}
	byWire, err := decodeOTLP(asWire, plenty(1000))
	if err != nil || !reflect.DeepEqual(plainOf(byWire), wanted) {
		t.Errorf("%v\n%q\n%q", err, plainOf(byWire), wanted)
	}
}

func TestOTLPLabels(t *testing.T) {
	for given, wanted := range map[string][]label{
		`[]`: {{"service_name", "unknown_service"}},
		`[{"key":"cloud.region","value":{"stringValue":"eu"}}]`:                                       {{"cloud_region", "eu"}, {"service_name", "unknown_service"}},
		`[{"key":"k8s.container.name","value":{"stringValue":"c"}}]`:                                  {{"k8s_container_name", "c"}, {"service_name", "c"}},
		`[{"key":"service.name","value":{"stringValue":""}}]`:                                         {{"service_name", "unknown_service"}},
		`[{"key":"job","value":{"stringValue":"j"}},{"key":"app","value":{"stringValue":"a"}}]`:       {{"service_name", "j"}},
		`[{"key":"app","value":{"stringValue":"a"}},{"key":"service.name","value":{"intValue":"5"}}]`: {{"service_name", "5"}},
	} {
		var from []jsonAttribute
		if err := json.Unmarshal([]byte(given), &from); err != nil {
			t.Fatal(err)
		}
		if labels, _ := resourceLabels(attributesIn(from)); !reflect.DeepEqual(labels, wanted) {
			t.Errorf("%s: %q", given, labels)
		}
	}
	for key, wanted := range map[string]string{
		"a.b-c/d": "a_b_c_d", "é": "key_", "_a": "key_a", "__a": "__a", "9": "key_9", "": "", "A9": "A9", ".a": "key_a",
	} {
		if found := labelName("", key); found != wanted {
			t.Errorf("%q: %q", key, found)
		}
	}
}

func TestOTLPFaults(t *testing.T) {
	record := func(fields ...any) []byte { return message(1, message(2, message(2, message(fields...)))) }
	deep := []byte{}
	for at := 0; at < 200; at++ {
		deep = message(5, message(1, deep))
	}
	for name, it := range map[string]struct {
		body   []byte
		wanted string
	}{
		"cut":            {record(1, uint64(1))[:8], "400 unexpected EOF"},
		"a wrong type":   {record(1, 5), "400 proto: wrong wireType = 0 for field 1"},
		"a short id":     {record(9, "abc"), "400 stream 0 entry 0: an id has 3 bytes in place of 16"},
		"values in each": {record(5, deep), "400 more than 100 messages in each other"},
		"too many":       {bytes.Repeat(message(1, []byte{}), 221), "413 more than 220 streams, entries and labels in a push"},
	} {
		_, err := decodeOTLP(it.body, plenty(220))
		if found := strings.ReplaceAll(textOf(err), "\u00a0", " "); found != it.wanted {
			t.Errorf("%s: %s", name, found)
		}
	}
	for body, wanted := range map[string]string{
		`{`:                      "400 body can't be read: unexpected end of JSON input",
		`[]`:                     "400 body can't be read: json: cannot unmarshal array into Go value of type main.jsonLogs",
		strings.Repeat("[", 99):  "400 body can't be read: unexpected end of JSON input",
		strings.Repeat("[", 101): "413 more than 100 streams, entries and labels in a push",
		`{"resourceLogs":[{"scopeLogs":[{"logRecords":[{},{"timeUnixNano":"-1"}]}]}]}`: "400 stream 0 entry 1: strconv.ParseUint: parsing \"-1\": invalid syntax",
		`{"resourceLogs":[{"scopeLogs":[{"logRecords":[{"traceId":"xy"}]}]}]}`:         "400 stream 0 entry 0: encoding/hex: invalid byte: U+0078 'x'",
	} {
		if _, err := decodeJSONLogs([]byte(body), plenty(100)); textOf(err) != wanted {
			t.Errorf("%.80s: %s", body, textOf(err))
		}
	}
}

// What records share is not made large by them without end.
func TestOTLPShared(t *testing.T) {
	resource := message(1, wireAttribute("host.name", textValue(strings.Repeat("a", 1000))))
	records := bytes.Repeat(message(2, []byte{}), 50)
	if _, err := decodeOTLP(message(1, message(1, resource, 2, records)), plenty(100)); !strings.HasPrefix(textOf(err), "413 what resources") {
		t.Errorf("%v", err)
	}
}

// What is long is cut to what the server needs to refuse it.
func TestOTLPIsCut(t *testing.T) {
	long := make([]any, 300_000)
	for at := range long {
		long[at] = int64(at)
	}
	if found := asText(long, mostLine); len(found) <= mostLine || len(found) > mostLine+20 {
		t.Errorf("%d", len(found))
	}
	if found := asText([]attribute{{"a", strings.Repeat("a", 1<<20)}}, mostText); len(found) <= mostText || len(found) > 2*mostText {
		t.Errorf("%d", len(found))
	}
	it := record{body: "a", attributes: make([]attribute, 1000)}
	for at := range it.attributes {
		it.attributes[at] = attribute{fmt.Sprint("k", at), strings.Repeat("v", 3000)}
	}
	if found := it.entry(time.Unix(0, 0), nil); len(found.metadata) != mostPairs+1 || len(found.metadata[0].value) != mostText+1 {
		t.Errorf("%d", len(found.metadata))
	}
}

func TestOTLPAnswers(t *testing.T) {
	body := `{"resourceLogs":[{"scopeLogs":[{"logRecords":[{"timeUnixNano":"1","body":{"stringValue":"a"}}]}]}]}`
	wire := message(1, message(2, message(2, message(1, uint64(1), 5, textValue("a")))))
	for name, it := range map[string]struct {
		given        answer
		body, packed string
		head         []string
		wanted       answer
	}{
		"stored":       {answer{status: 204}, body, "", nil, answer{204, "", ""}},
		"gzip":         {answer{status: 204}, gzipped(body), "gzip", nil, answer{204, "", ""}},
		"refused":      {answer{400, plainText, "stream 0 entry 0: too old\n"}, body, "", nil, answer{400, jsonType, `{"message":"stream 0 entry 0: too old"}`}},
		"full":         {answer{507, plainText, "stream 0: no room\n"}, body, "", nil, answer{503, jsonType, `{"message":"stream 0: no room"}`}},
		"in doubt":     {answer{500, plainText, "call in doubt"}, body, "", nil, answer{503, jsonType, `{"message":"call in doubt"}`}},
		"no body":      {answer{status: 204}, `{"resourceLogs":`, "", nil, answer{400, jsonType, `{"message":"body can't be read: unexpected end of JSON input"}`}},
		"snappy":       {answer{status: 204}, body, "snappy", nil, answer{400, jsonType, `{"message":"Content-Encoding \"snappy\" not supported"}`}},
		"wire":         {answer{status: 204}, string(wire), "", []string{"Content-Type", protobufType}, answer{204, "", ""}},
		"wire refused": {answer{400, plainText, "a\n"}, string(wire), "", []string{"Content-Type", protobufType}, answer{400, protobufType, "\x12\x01a"}},
		"another form": {answer{status: 204}, body, "", []string{"Content-Type", "text/plain"}, answer{400, protobufType, string(message(2, "content type: text/plain is not supported"))}},
	} {
		head := append([]string{"X-Scope-OrgID", "t", "Content-Type", jsonType, "Content-Encoding", it.packed}, it.head...)
		stands := newStandIn(t, it.given)
		if found := ask1(over(stands.URL), "POST", otlpPath, it.body, head...); found != it.wanted {
			t.Errorf("%s: %q", name, found)
		}
	}
}

func FuzzOTLP(f *testing.F) {
	f.Add(message(1, message(2, message(2, message(1, uint64(1), 5, textValue("a"), 6, wireAttribute("k", textValue("v")))))))
	f.Add([]byte(`{"resourceLogs":[{"scopeLogs":[{"logRecords":[{"timeUnixNano":"1","body":{"stringValue":"a"}}]}]}]}`))
	f.Fuzz(func(t *testing.T, body []byte) {
		for _, decode := range []func([]byte, *messages) ([]stream, error){decodeOTLP, decodeJSONLogs} {
			streams, err := decode(body, plenty(mostTried))
			if err != nil {
				continue
			}
			parts := newSplitter(streams, func(int, string) {})
			if sent := parts.next(); !json.Valid(sent.body) {
				t.Errorf("%q: %q", body, sent.body)
			}
		}
	})
}
