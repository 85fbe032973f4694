package main

import "testing"

func TestNumbers(t *testing.T) {
	defer func(c, p, u int) { *clients, *pages, *users = c, p, u }(*clients, *pages, *users)
	for _, it := range []struct {
		clients, pages, users int
		wrong                 string
	}{
		{16, 8, 1000, ""},
		{1, 1, 1, ""},
		{16, 8, 16, ""},
		{16, 8, 15, "-users is 16 or more, one for each client"},
		{1, 8, 0, "-users is 1 or more, one for each client"},
		{0, 8, 1000, "-clients is 1 or more"},
		{-1, 8, -2, "-clients is 1 or more"},
		{16, 0, 1000, "-pages is 1 or more"},
	} {
		*clients, *pages, *users = it.clients, it.pages, it.users
		told := ""
		if err := check(); err != nil {
			told = err.Error()
		}
		if told != it.wrong {
			t.Errorf("%v: %q", it, told)
		}
	}
}

func TestCompare(t *testing.T) {
	type counts map[string]uint64
	all := []*client{{liked: counts{"news": 1, "new": 1}}, {liked: counts{"news": 2}}}
	before := counts{"news": 5, "old": 7}
	for _, it := range []struct {
		after counts
		wrong string
	}{
		{counts{"news": 8, "old": 7, "new": 1}, ""},
		{counts{"news": 8, "old": 7, "new": 1, "empty": 0}, ""},
		{counts{"news": 7, "old": 7, "new": 1}, "the count of news is 7, and not 8"},
		{counts{"news": 8, "old": 7}, "the count of new is 0, and not 1"},
		{counts{"news": 8, "new": 1}, "the count of old is 0, and not 7"},
		{counts{"news": 8, "old": 7, "new": 1, "other": 1}, "the count of other is 1, and not 0"},
	} {
		liked, err := compare(before, it.after, all)
		told := ""
		if err != nil {
			told = err.Error()
		}
		if told != it.wrong || err == nil && liked != 4 {
			t.Errorf("%v: %d, %q", it.after, liked, told)
		}
	}
}
