package main

import (
	"fmt"
	"os"
	"sync"
	"time"

	"likeserver/saved"
)

// saver saves a counter's moments to a file, or to none.
type saver struct {
	file    *saved.File
	metrics *metrics
}

// openSaver keeps other servers off a file. Without a name there is none.
func openSaver(name string, metrics *metrics) (*saver, error) {
	if name == "" {
		return &saver{metrics: metrics}, nil
	}
	file, err := saved.Open(name)
	return &saver{file, metrics}, err
}

func (s *saver) close() {
	if s.file != nil {
		s.file.Close()
	}
}

// load gives the moment that was saved last.
func (s *saver) load() (*saved.Moment, error) {
	if s.file == nil {
		return &saved.Moment{}, nil
	}
	return s.file.Load()
}

// save saves a moment.
func (s *saver) save(m *saved.Moment) error {
	if s.file == nil {
		return nil
	}
	err := s.file.Save(m)
	s.metrics.noteSave(m.Began, err)
	if err != nil {
		return fmt.Errorf("not saved: %w", err)
	}
	return nil
}

// saves is a goroutine that saves again and again.
type saves struct {
	stop chan struct{}
	done sync.WaitGroup
}

// run begins to save a counter's moments, one each time.
func (s *saver) run(c *counter, every time.Duration) *saves {
	it := &saves{stop: make(chan struct{})}
	if s.file == nil {
		return it
	}
	it.done.Add(1)
	go func() {
		defer it.done.Done()
		due := time.NewTicker(every)
		defer due.Stop()
		for {
			select {
			case <-it.stop:
				return
			case <-due.C:
			}
			if err := c.moment(s.save); err != nil {
				fmt.Fprintln(os.Stderr, err)
			}
		}
	}()
	return it
}

// end waits for the save that is on its way, and makes no more.
func (it *saves) end() {
	close(it.stop)
	it.done.Wait()
}
