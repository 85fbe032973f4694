// Package names has a table of the names of pages, which are numbered from 0 in the order in which they came.
package names

import (
	"errors"
	"fmt"
	"strings"
	"sync"
	"unicode"
	"unicode/utf8"
)

// MostBytes is how long a name may be.
const MostBytes = 256

// ErrFull says that a table has as many names as it may have.
var ErrFull = errors.New("there is no room for another page")

// Check says what is wrong with a name.
func Check(name string) error {
	switch {
	case name == "":
		return errors.New("the name of a page is empty")
	case len(name) > MostBytes:
		return fmt.Errorf("the name of a page has more than %d bytes", MostBytes)
	case !utf8.ValidString(name):
		return errors.New("the name of a page is not UTF-8")
	case strings.IndexFunc(name, unicode.IsControl) >= 0:
		return errors.New("the name of a page has a control character")
	}
	return nil
}

// Table is a table of names. Any goroutine may call it.
type Table struct {
	mutex   sync.RWMutex
	most    int
	names   []string
	numbers map[string]uint32
}

// From makes a table of names that are known already, with room for so many in all.
func From(known []string, most int) (*Table, error) {
	table := &Table{most: most, numbers: make(map[string]uint32, len(known))}
	for number, name := range known {
		taken, err := table.Take(name)
		if err != nil {
			return nil, err
		}
		if taken != uint32(number) {
			return nil, fmt.Errorf("page %q is there twice", name)
		}
	}
	return table, nil
}

// Find gives the number of a name that is known.
func (t *Table) Find(name string) (uint32, bool) {
	t.mutex.RLock()
	defer t.mutex.RUnlock()
	number, isKnown := t.numbers[name]
	return number, isKnown
}

// Take gives the number of a name, which gets the next free one if it is new: or what is wrong with it, or ErrFull.
func (t *Table) Take(name string) (uint32, error) {
	if number, isKnown := t.Find(name); isKnown {
		return number, nil
	}
	if err := Check(name); err != nil {
		return 0, err
	}
	t.mutex.Lock()
	defer t.mutex.Unlock()
	if number, isKnown := t.numbers[name]; isKnown {
		return number, nil
	}
	if len(t.names) >= t.most {
		return 0, ErrFull
	}
	// The copy keeps no request in memory of which the name is a part.
	name = strings.Clone(name)
	number := uint32(len(t.names))
	t.names = append(t.names, name)
	t.numbers[name] = number
	return number, nil
}

// All gives the names so far, by number. Nobody changes them any more.
func (t *Table) All() []string {
	t.mutex.RLock()
	defer t.mutex.RUnlock()
	return t.names[:len(t.names):len(t.names)]
}

// Length is how many names there are so far.
func (t *Table) Length() int {
	return len(t.All())
}
