package names

import (
	"fmt"
	"reflect"
	"strings"
	"sync"
	"testing"
)

func TestNumbers(t *testing.T) {
	table, err := From([]string{"news", "sport"}, 3)
	if err != nil {
		t.Fatal(err)
	}
	for _, it := range []struct {
		name   string
		number uint32
	}{{"sport", 1}, {"a b&c/%41\"é", 2}, {"news", 0}, {"a b&c/%41\"é", 2}} {
		if number, err := table.Take(it.name); number != it.number || err != nil {
			t.Errorf("%q: %d, %v", it.name, number, err)
		}
	}
	if _, err := table.Take("more"); err != ErrFull {
		t.Error(err)
	}
	if _, isKnown := table.Find("more"); isKnown {
		t.Error("a name that was refused is known")
	}
	if all := table.All(); !reflect.DeepEqual(all, []string{"news", "sport", "a b&c/%41\"é"}) {
		t.Error(all)
	}
}

func TestWrongNames(t *testing.T) {
	table, _ := From(nil, 9)
	for _, name := range []string{"", "a\nb", "a\x00", "\x7f", "a\u0085", "\xff", strings.Repeat("é", 129)} {
		if _, err := table.Take(name); err == nil {
			t.Errorf("%q was taken", name)
		}
	}
	if _, err := table.Take(strings.Repeat("é", 128)); err != nil || table.Length() != 1 {
		t.Error(err)
	}
	for _, known := range [][]string{{"a", "b", "a"}, {"a", ""}, {"a", "b", "c"}} {
		if _, err := From(known, 2); err == nil {
			t.Errorf("%q was taken", known)
		}
	}
}

func TestNamesStay(t *testing.T) {
	table, _ := From([]string{"a"}, 9)
	all := table.All()
	table.Take("b")
	_ = append(all, "c")
	if all := table.All(); !reflect.DeepEqual(all, []string{"a", "b"}) {
		t.Error(all)
	}
}

// Goroutines take the same names in different orders: each name has one number, and each number one name.
func TestGoroutines(t *testing.T) {
	const goroutines, names, most = 8, 500, 400
	table, _ := From(nil, most)
	var all sync.WaitGroup
	for number := 0; number < goroutines; number++ {
		all.Add(1)
		go func(number int) {
			defer all.Done()
			for i := 0; i < names; i++ {
				name := fmt.Sprint((i*7 + number*61) % names)
				taken, err := table.Take(name)
				if found, isKnown := table.Find(name); err == nil && (!isKnown || found != taken) {
					t.Errorf("%s: %d, and then %d", name, taken, found)
				}
			}
		}(number)
	}
	all.Wait()
	if table.Length() != most {
		t.Errorf("%d names", table.Length())
	}
	for number, name := range table.All() {
		if found, _ := table.Find(name); found != uint32(number) {
			t.Errorf("%s: %d and %d", name, number, found)
		}
	}
}
