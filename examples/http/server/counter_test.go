package main

import (
	"fmt"
	"os"
	"reflect"
	"strings"
	"sync"
	"testing"

	"likes"
	"likeserver/saved"
)

// liker likes pages of its own in turn, as a user of its own. It ends when the counter does, and tells how many likes
// were counted.
func liker(t *testing.T, c *counter, user uint32) uint64 {
	for done := uint64(0); ; done++ {
		switch err := c.like(user, fmt.Sprintf("%d of %d", done%2, user)); err {
		case nil:
		case errEnded:
			return done
		default:
			t.Error(err)
			return done
		}
	}
}

// holds says whether a moment can be one of a user's: the user's first page has as many likes as the second one, or one
// more if it was liked last.
func holds(m *saved.Moment, user uint32) bool {
	counts := [2]uint64{}
	last := ""
	for page, name := range m.Names {
		for which := range counts {
			if name == fmt.Sprintf("%d of %d", which, user) {
				counts[which] = m.Counts[page]
			}
		}
		if m.Lasts[user] == uint32(page) {
			last = name
		}
	}
	if last == fmt.Sprintf("0 of %d", user) {
		return counts[0] == counts[1]+1
	}
	return counts[0] == counts[1] && (last == "") == (counts[0] == 0)
}

// Users like while moments are taken, and the counter ends under them. Each moment holds of each user, and what was
// counted is in the last one.
func TestMoments(t *testing.T) {
	const users = 8
	c, err := start(&saved.Moment{}, &options{mostPages: 100, users: users, seats: 3})
	if err != nil {
		t.Fatal(err)
	}
	var all sync.WaitGroup
	var done [users]uint64
	for user := range done {
		all.Add(1)
		go func(user int) {
			defer all.Done()
			done[user] = liker(t, c, uint32(user))
		}(user)
	}
	var counted uint64
	check := func(m *saved.Moment) error {
		counted = m.Likes()
		for user := uint32(0); user < users; user++ {
			if !holds(m, user) {
				t.Errorf("user %d: %v", user, m)
			}
		}
		return nil
	}
	// On a busy machine, the first like may come late.
	for times := 0; times < 100 || counted == 0; times++ {
		if err := c.moment(check); err != nil {
			t.Fatal(err)
		}
	}
	last, err := c.end()
	if err != nil {
		t.Fatal(err)
	}
	all.Wait()
	check(last)
	var sum uint64
	for _, likes := range done {
		sum += likes
	}
	if last.Likes() != sum {
		t.Errorf("%d likes of %d", last.Likes(), sum)
	}
	if err := c.moment(check); err != errEnded {
		t.Error(err)
	}
	if _, _, err := c.look(0, 0); err != errEnded {
		t.Error(err)
	}
}

func TestGoingOn(t *testing.T) {
	first := started(t, &saved.Moment{})
	for _, name := range []string{"sport", "new", "sport"} {
		if err := first.like(7, name); err != nil {
			t.Error(err)
		}
	}
	last, err := first.end()
	if err != nil {
		t.Fatal(err)
	}
	if !reflect.DeepEqual(last.Names, []string{"news", "sport", "new"}) {
		t.Errorf("%q", last.Names)
	}
	if !reflect.DeepEqual(last.Counts, []uint64{0, 2, 1}) {
		t.Errorf("%v", last.Counts)
	}
	second := started(t, last)
	if count, name, err := second.look(7, 1); count != 2 || name != "sport" || err != nil {
		t.Error(count, name, err)
	}
	if _, name, err := second.look(6, 1); name != "" || err != nil {
		t.Error(name, err)
	}
}

func TestWrongStarts(t *testing.T) {
	three := &saved.Moment{Names: []string{"a", "b", "c"}, Counts: []uint64{1, 2, 3}, Lasts: []uint32{likes.NoPage, 2}}
	twice := &saved.Moment{Names: []string{"a", "a"}, Counts: []uint64{1, 2}}
	for _, it := range []struct {
		from    *saved.Moment
		o       options
		isRight bool
	}{
		{three, options{mostPages: 3, users: 2, seats: 1}, true},
		{three, options{mostPages: 3, users: 9, seats: 1, pages: "c,b"}, true},
		{three, options{mostPages: 2, users: 2, seats: 1}, false},
		{three, options{mostPages: 3, users: 1, seats: 1}, false},
		{three, options{mostPages: 3, users: 2, seats: 1, pages: "c,d"}, false},
		{three, options{mostPages: 9, users: 2, seats: 1, pages: "d,,e"}, false},
		{twice, options{mostPages: 9, users: 2, seats: 1}, false},
		{&saved.Moment{}, options{mostPages: 9, users: 2, seats: 1, pagesFile: "/none"}, false},
	} {
		c, err := start(it.from, &it.o)
		if (err == nil) != it.isRight {
			t.Errorf("%v, %v: %v", it.from, it.o, err)
		}
		if err == nil {
			c.end()
		}
	}
}

func TestPagesFile(t *testing.T) {
	name := t.TempDir() + "/pages"
	os.WriteFile(name, []byte("news\na, \"b\"\r\nsport"), 0o600)
	c, err := start(&saved.Moment{}, &options{mostPages: 9, users: 2, seats: 1, pages: "sport", pagesFile: name})
	if err != nil {
		t.Fatal(err)
	}
	if last, err := c.end(); err != nil || !reflect.DeepEqual(last.Names, []string{"sport", "news", `a, "b"`}) {
		t.Errorf("%q, %v", last, err)
	}
	os.WriteFile(name, []byte("news\n\nsport\n"), 0o600)
	_, err = start(&saved.Moment{}, &options{mostPages: 9, users: 2, seats: 1, pagesFile: name})
	if err == nil || strings.Contains(err.Error(), "\n") {
		t.Error(err)
	}
}
