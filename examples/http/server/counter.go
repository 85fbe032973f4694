package main

import (
	"errors"
	"sync"
	"time"

	"likes"
	"likeserver/names"
	"likeserver/saved"
)

// errEnded says that the server stops, and that nothing was done.
var errEnded = errors.New("the server stops")

// counter is a service of the live core with its pages' names. The service has room for as many pages as there may be,
// and a new name gets the next number. Any goroutine may call it.
type counter struct {
	service *likes.Service
	writers *likes.Pool
	names   *names.Table
	users   uint32
	most    int
	// Each call holds open to read, so that the end waits for it.
	open    sync.RWMutex
	isEnded bool
	// What a moment is written to, under moments.
	moments sync.Mutex
	now     likes.Moment
}

// call does something with the service while that goes on.
func (c *counter) call(do func() error) error {
	c.open.RLock()
	defer c.open.RUnlock()
	if c.isEnded {
		return errEnded
	}
	return do()
}

// like keeps a like, which is counted within some milliseconds. A name that is new is that of a new page.
func (c *counter) like(user uint32, name string) error {
	return c.call(func() error {
		page, err := c.names.Take(name)
		if err != nil {
			return err
		}
		return c.writers.Like(user, page)
	})
}

// look gives a page's exact count, with all likes of the user, and the name of the user's last like, if there is one.
func (c *counter) look(user, page uint32) (count uint64, last string, err error) {
	err = c.call(func() error {
		seen, err := c.writers.Look(user, page)
		if err != nil {
			return err
		}
		if seen.Last != likes.NoPage {
			last = c.names.All()[seen.Last]
		}
		count = seen.Count
		return nil
	})
	return count, last, err
}

// total gives the names so far, and the counts of all pages at one moment, with all likes that were answered before.
func (c *counter) total() (all []string, counts []uint64, err error) {
	err = c.call(func() error {
		all = c.names.All()
		if err := c.writers.Flush(); err != nil {
			return err
		}
		counts, err = c.service.Counts()
		return err
	})
	return all, counts, err
}

// moment hands what the counter has at one moment to a call, which keeps nothing of it.
func (c *counter) moment(use func(*saved.Moment) error) error {
	c.moments.Lock()
	defer c.moments.Unlock()
	began := time.Now()
	err := c.call(func() error {
		if err := c.writers.Flush(); err != nil {
			return err
		}
		return c.service.ReadSnapshot(&c.now)
	})
	if err != nil {
		return err
	}
	return use(c.named(began, &c.now))
}

// named is a moment with its names. They are taken last, so each page that was liked has its name. One that came later
// has a count of 0.
func (c *counter) named(began time.Time, now *likes.Moment) *saved.Moment {
	all := c.names.All()
	return &saved.Moment{Began: began, Names: all, Counts: now.Counts[:len(all)], Lasts: now.Lasts}
}

// end ends the service, and gives its last moment. Calls that come later do nothing.
func (c *counter) end() (*saved.Moment, error) {
	c.open.Lock()
	defer c.open.Unlock()
	c.isEnded = true
	began := time.Now()
	if err := c.writers.Close(); err != nil {
		return nil, err
	}
	now, err := c.service.Stop()
	if err != nil {
		return nil, err
	}
	return c.named(began, now), nil
}
