package main

// A push as it is sent on: its streams, each with its labels and entries.

type label struct{ name, value string }

type entry struct {
	// in nanoseconds since 1970, not below 0
	time     int64
	line     string
	metadata []label
}

type stream struct {
	// its place in the body that came, from 0
	number int
	labels []label
	// of its entries, which are made as they are asked for
	length int
	entry  func(at int) entry
}

// What the server takes at most. What is larger is cut to one more than that, so that the server refuses it by its own
// words, and no part of a push is larger than a part may be.
const (
	mostBody    = 4_194_304
	mostEntries = 10_000
	mostLine    = 262_144
	mostLabels  = 15
	mostName    = 1_024
	mostValue   = 2_048
	mostPairs   = 16
	mostKey     = 256
	mostText    = 1_024
)

func cut[T ~string | ~[]byte](text T, most int) T {
	if len(text) > most {
		return text[:most+1]
	}
	return text
}

// addLabel adds a label to those of a stream. An empty value is the same as none, as it is to Loki.
func addLabel(labels []label, name, value string) []label {
	if value == "" || len(labels) > mostLabels {
		return labels
	}
	return append(labels, label{cut(name, mostName), cut(value, mostValue)})
}

// setLabel is addLabel for an object's members, of which the last one of a name counts.
func setLabel(labels []label, name, value string) []label {
	for at := range labels {
		if labels[at].name == cut(name, mostName) {
			labels = append(labels[:at], labels[at+1:]...)
			break
		}
	}
	return addLabel(labels, name, value)
}

// hasTwice is whether two labels have one name.
func hasTwice(labels []label) bool {
	for at, it := range labels {
		for _, other := range labels[:at] {
			if it.name == other.name {
				return true
			}
		}
	}
	return false
}

// addPair adds a pair to the metadata of an entry. A later value takes the place of an earlier one.
func addPair(pairs []label, name, value string) []label {
	name, value = cut(name, mostKey), cut(value, mostText)
	for at := range pairs {
		if pairs[at].name == name {
			pairs[at].value = value
			return pairs
		}
	}
	if len(pairs) > mostPairs {
		return pairs
	}
	return append(pairs, label{name, value})
}
