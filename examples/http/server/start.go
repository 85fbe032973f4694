package main

import (
	"bufio"
	"fmt"
	"os"
	"strings"

	"likes"
	"likeserver/names"
	"likeserver/saved"
)

// room is how many looks a seat keeps.
const room = 1024

// start starts a counter where a moment was, with the pages of the options beside those that it has.
func start(from *saved.Moment, o *options) (*counter, error) {
	table, err := names.From(from.Names, o.mostPages)
	if err != nil {
		return nil, err
	}
	listed, err := o.listed()
	if err != nil {
		return nil, err
	}
	for _, name := range listed {
		if _, err := table.Take(name); err != nil {
			return nil, fmt.Errorf("%q: %w", name, err)
		}
	}
	c := &counter{names: table, users: o.users, most: o.mostPages}
	c.now = likes.Moment{Counts: make([]uint64, o.mostPages), Lasts: make([]uint32, o.users)}
	copy(c.now.Counts, from.Counts)
	if err := putLasts(c.now.Lasts, from.Lasts); err != nil {
		return nil, err
	}
	asked := likes.Options{Seats: o.seats, Users: o.users, Room: room, Lasts: c.now.Lasts}
	if c.service, err = likes.Open(asked, c.now.Counts); err != nil {
		return nil, err
	}
	c.writers, err = c.service.NewPool()
	return c, err
}

// putLasts fills in last likes. There may be more users than before, but not fewer of those who have liked something.
func putLasts(lasts, before []uint32) error {
	for user := range lasts {
		lasts[user] = likes.NoPage
	}
	for user, page := range before[copy(lasts, before):] {
		if page != saved.NoPage {
			return fmt.Errorf("user %d has a last like, and there are %d users", len(lasts)+user, len(lasts))
		}
	}
	return nil
}

// listed gives the names of the options, and those of their file, which has one in each line.
func (o *options) listed() ([]string, error) {
	var all []string
	if o.pages != "" {
		all = strings.Split(o.pages, ",")
	}
	if o.pagesFile == "" {
		return all, nil
	}
	file, err := os.Open(o.pagesFile)
	if err != nil {
		return nil, err
	}
	defer file.Close()
	lines := bufio.NewScanner(file)
	for lines.Scan() {
		all = append(all, lines.Text())
	}
	if err := lines.Err(); err != nil {
		return nil, fmt.Errorf("%s: %w", o.pagesFile, err)
	}
	return all, nil
}
