package main

import (
	"fmt"
	"reflect"
	"strings"
	"testing"
)

// What walcat prints of the records of both layouts, labels with words of its own among them.
func TestListings(t *testing.T) {
	it := &slotCatalog{shards: 1, listing: map[string]*listed{}}
	isClosed, end := it.readListing(strings.NewReader(`state one {a="1"} highest 1795860001123456789 entries 3
stream two {a="} entries 7"} highest 1795860001123456789 removed 12 entries 0
stream 3 {a="gone"} highest 5 removed 0 entries 2
append one {a="1"} entries 4
removal two {a="} entries 7"} bound 5
trim one {a="1"} bound 5
append 3 {a="gone"} entries 1
end 3 {a="gone"}
append one {a="new {end 5} highest 6"} entries 1
end 777
`))
	if isClosed || end != 777 {
		t.Errorf("closed %v, end %d", isClosed, end)
	}
	var found []string
	for _, one := range it.streamsListed(0, end, true) {
		found = append(found, fmt.Sprint(one, " ", one.reached, " ", one.entries))
	}
	due := []string{`one {a="1"} 1795860001123456789 -1`, `one {a="new {end 5} highest 6"} 0 -1`,
		`two {a="} entries 7"} 1795860001123456789 0`}
	if !reflect.DeepEqual(found, due) {
		t.Errorf("listed are %q", found)
	}
}
