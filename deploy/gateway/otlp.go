package main

import (
	"encoding/base64"
	"encoding/json"
	"net/http"
	"sort"
	"strconv"
	"strings"
	"time"
	"unicode/utf8"
)

// Logs by OpenTelemetry's protocol, as Loki's documentation maps them: attributes of a resource that are in Loki's
// default list are labels, and all else that a record, its scope and its resource have is structured metadata.

const otlpPath = "/otlp/v1/logs"

// An attribute's value is nil, a string, a bool, an int64, a float64, bytes, a list of values, or attributes in it.
type attribute struct {
	key   string
	value any
}

// A record is a log record as either form has it. What it doesn't have is zero.
type record struct {
	time, observed           uint64
	severity, dropped, flags uint64
	severityText, eventName  string
	// in hexadecimal digits
	traceID, spanID string
	body            any
	attributes      []attribute
}

// Loki's default list of the attributes that are labels (`default_resource_attributes_as_index_labels`).
var labelAttributes = setOf("service.name", "service.namespace", "service.instance.id", "deployment.environment",
	"deployment.environment.name", "cloud.region", "cloud.availability_zone", "k8s.cluster.name", "k8s.namespace.name",
	"k8s.pod.name", "k8s.container.name", "container.name", "k8s.replicaset.name", "k8s.deployment.name",
	"k8s.statefulset.name", "k8s.daemonset.name", "k8s.cronjob.name", "k8s.job.name")

// Loki's default list of the labels by which a service without a name is named (`discover_service_name`).
var serviceLabels = setOf("service", "app", "application", "name", "app_kubernetes_io_name", "container",
	"container_name", "k8s_container_name", "component", "workload", "job", "k8s_job_name")

const (
	serviceLabel   = "service_name"
	unknownService = "unknown_service"
)

func setOf(names ...string) map[string]bool {
	found := map[string]bool{}
	for _, each := range names {
		found[each] = true
	}
	return found
}

// resourceLabels are the labels of a resource, and its metadata for each of its records.
func resourceLabels(attributes []attribute) (labels, metadata []label) {
	service := ""
	for _, it := range attributes {
		isLabel := labelAttributes[it.key]
		flatten("", it, func(name, value string) {
			if service == "" && serviceLabels[name] {
				service = value
			}
			if isLabel {
				labels = setLabel(labels, name, value)
			} else {
				metadata = addPair(metadata, name, value)
			}
		})
	}
	for _, it := range labels {
		if it.name == serviceLabel {
			return labels, metadata
		}
	}
	if service == "" {
		service = unknownService
	}
	return addLabel(labels, serviceLabel, service), metadata
}

// scopeMetadata is what a scope has, behind what its resource has.
func scopeMetadata(before []label, name, version string, dropped uint64, attributes []attribute) []label {
	found := append([]label(nil), before...)
	for _, it := range attributes {
		flatten("", it, func(name, value string) { found = addPair(found, name, value) })
	}
	found = addGiven(found, "scope_name", name)
	found = addGiven(found, "scope_version", version)
	return addNumber(found, "scope_dropped_attributes_count", dropped)
}

// (so that a few bytes of a body don't make a thousand times as many, of 1,000,000 records that share 16 long texts)
const mostShared = 16

// shares looks at what some records share, which each of them is sent with.
func (it *messages) shares(records int, shared []label) error {
	for _, each := range shared {
		it.shared += int64(records) * int64(len(each.name)+len(each.value))
	}
	if most := it.most * bytesEach * mostShared; it.shared > most {
		return tooLarge("what resources and scopes have makes more than %d bytes, once for each record", most)
	}
	return nil
}

func addGiven(pairs []label, name, value string) []label {
	if value == "" {
		return pairs
	}
	return addPair(pairs, name, value)
}

func addNumber(pairs []label, name string, value uint64) []label {
	if value == 0 {
		return pairs
	}
	return addPair(pairs, name, strconv.FormatUint(value, 10))
}

// entry is a record as it is sent on. Without any time of its own it has that of its arrival.
func (it *record) entry(arrival time.Time, before []label) entry {
	found := entry{line: asText(it.body, mostLine), metadata: append([]label(nil), before...)}
	for _, each := range it.attributes {
		flatten("", each, func(name, value string) { found.metadata = addPair(found.metadata, name, value) })
	}
	at := it.time
	switch {
	case it.time != 0:
		found.metadata = addNumber(found.metadata, "observed_timestamp", it.observed)
	case it.observed != 0:
		at = it.observed
	default:
		at = uint64(arrival.UnixNano())
	}
	// (what is past the server's form is too new to it, as its end is)
	if found.time = int64(at); found.time < 0 {
		found.time = 1<<63 - 1
	}
	found.metadata = addNumber(found.metadata, "severity_number", it.severity)
	found.metadata = addGiven(found.metadata, "severity_text", it.severityText)
	found.metadata = addNumber(found.metadata, "dropped_attributes_count", it.dropped)
	found.metadata = addNumber(found.metadata, "flags", it.flags)
	found.metadata = addGiven(found.metadata, "trace_id", it.traceID)
	found.metadata = addGiven(found.metadata, "span_id", it.spanID)
	found.metadata = addGiven(found.metadata, "event_name", it.eventName)
	return found
}

// flatten gives each value in an attribute that has no others in it, by a name of all keys above it.
func flatten(above string, it attribute, each func(name, value string)) {
	name := labelName(above, it.key)
	if inner, is := it.value.([]attribute); is {
		for _, next := range inner {
			flatten(name, next, each)
		}
		return
	}
	each(name, asText(it.value, mostValue))
}

// labelName is an attribute's key as Loki writes it: with `_` in the place of all that no label name has, and with
// `key_` before a digit, or `key` before a single `_`.
func labelName(above, key string) string {
	if above != "" {
		key = above + "_" + key
	}
	key = strings.Map(func(it rune) rune {
		if it < utf8.RuneSelf && (isLetter(byte(it)) || isDigit(byte(it))) {
			return it
		}
		return '_'
	}, cut(key, mostName))
	switch {
	case key == "":
		return ""
	case isDigit(key[0]):
		return "key_" + key
	case key[0] == '_' && !strings.HasPrefix(key, "__"):
		return "key" + key
	}
	return key
}

// asText is a value as OpenTelemetry's collector writes it. What is longer than this many bytes is cut to one more or
// so.
func asText(value any, most int) string {
	switch it := value.(type) {
	case nil:
		return ""
	case string:
		return cut(it, most)
	case []byte:
		return base64.StdEncoding.EncodeToString(cut(it, most))
	}
	return string(appendValue(nil, value, most))
}

// appendValue adds a value as JSON, until there are more than this many bytes.
func appendValue(to []byte, value any, most int) []byte {
	if len(to) > most {
		return to
	}
	switch it := value.(type) {
	case bool:
		return strconv.AppendBool(to, it)
	case int64:
		return strconv.AppendInt(to, it, 10)
	case float64:
		return appendFloat(to, it)
	case string:
		text, _ := json.Marshal(cut(it, most))
		return append(to, text...)
	case []byte:
		return append(append(append(to, '"'), asText(it, most)...), '"')
	case []any:
		to = append(to, '[')
		for at, each := range it {
			if at > 0 {
				to = append(to, ',')
			}
			if to = appendValue(to, each, most); len(to) > most {
				return to
			}
		}
		return append(to, ']')
	case []attribute:
		return appendAttributes(to, it, most)
	}
	return append(to, "null"...)
}

// appendAttributes adds them in the order of their keys, the last one of a key.
func appendAttributes(to []byte, given []attribute, most int) []byte {
	given = append([]attribute(nil), given...)
	sort.SliceStable(given, func(one, other int) bool { return given[one].key < given[other].key })
	to = append(to, '{')
	isMore := false
	for at, it := range given {
		if at+1 < len(given) && given[at+1].key == it.key {
			continue
		}
		if isMore {
			to = append(to, ',')
		}
		isMore = true
		to = append(appendValue(to, it.key, most), ':')
		if to = appendValue(to, it.value, most); len(to) > most {
			return to
		}
	}
	return append(to, '}')
}

func appendFloat(to []byte, it float64) []byte {
	text, err := json.Marshal(it)
	if err != nil {
		// (one that is no number, or none of this world)
		return strconv.AppendFloat(to, it, 'g', -1, 64)
	}
	return append(to, text...)
}

// otlpStatus is the status by which OpenTelemetry's clients do what the server's asks for: they send again after 429,
// 502, 503 and 504 alone.
func otlpStatus(status int) int {
	switch status {
	case http.StatusNotImplemented, http.StatusBadGateway, http.StatusGatewayTimeout, clientGone:
		return status
	}
	if status >= 500 {
		return http.StatusServiceUnavailable
	}
	return status
}

// writeOTLP answers with a message in the form of the request, as the protocol has it.
func writeOTLP(to http.ResponseWriter, found answer, isJSON bool) {
	if found.status < 300 {
		to.WriteHeader(found.status)
		return
	}
	text := strings.ToValidUTF8(strings.TrimSuffix(found.text, "\n"), "\uFFFD")
	var body []byte
	if isJSON {
		body, _ = json.Marshal(map[string]string{"message": text})
		to.Header().Set("Content-Type", jsonType)
	} else {
		body = statusMessage(text)
		to.Header().Set("Content-Type", protobufType)
	}
	to.WriteHeader(found.status)
	to.Write(body)
}
