package main

import (
	"bufio"
	"fmt"
	"net/http"
	"sort"
	"sync"
	"time"
)

// metrics are numbers for Prometheus.
type metrics struct {
	mutex    sync.Mutex
	requests map[kind]uint64
	saves    uint64
	failures uint64
	began    time.Time // when the moment of the last save was
	took     time.Duration
}

// kind is a path and how a request of it was answered.
type kind struct {
	path string
	code int
}

func newMetrics() *metrics {
	return &metrics{requests: map[kind]uint64{}}
}

// note counts an answer.
func (m *metrics) note(path string, code int) {
	m.mutex.Lock()
	defer m.mutex.Unlock()
	m.requests[kind{path, code}]++
}

// noteSave counts a save that began then.
func (m *metrics) noteSave(began time.Time, err error) {
	m.mutex.Lock()
	defer m.mutex.Unlock()
	if err != nil {
		m.failures++
		return
	}
	m.saves++
	m.began, m.took = began, time.Since(began)
}

// tellMetrics answers all numbers in the text format of Prometheus.
func (s *server) tellMetrics(w http.ResponseWriter, r *http.Request) {
	if err := checkMethod(w, r, http.MethodGet); err != nil {
		refuse(w, r, err)
		return
	}
	w.Header().Set("Content-Type", "text/plain; version=0.0.4; charset=utf-8")
	out := exposition{bufio.NewWriter(w)}
	s.metrics.write(out)
	out.one("likes_requests_in_flight", "gauge", "Requests that are being answered.", float64(len(s.slots)))
	if c := s.counter.Load(); c != nil {
		out.one("likes_pages", "gauge", "Pages that have names.", float64(c.names.Length()))
		out.one("likes_pages_limit", "gauge", "Pages that there can be.", float64(c.most))
		c.call(func() error {
			out.one("likes_phases_total", "counter", "Phases that have begun.", float64(c.service.Phase()))
			split, err := c.service.SplitPages()
			out.one("likes_split_pages", "gauge", "Pages that were split last.", float64(len(split)))
			return err
		})
	}
	out.Flush()
}

func (m *metrics) write(out exposition) {
	m.mutex.Lock()
	defer m.mutex.Unlock()
	out.head("likes_requests_total", "counter", "Requests that were answered, by path and status.")
	for _, it := range m.kinds() {
		fmt.Fprintf(out, "likes_requests_total{path=%q,code=\"%d\"} %d\n", it.path, it.code, m.requests[it])
	}
	out.one("likes_saves_total", "counter", "Files that were saved.", float64(m.saves))
	out.one("likes_save_failures_total", "counter", "Files that could not be saved.", float64(m.failures))
	out.one("likes_last_save_seconds", "gauge", "How long the last save took.", m.took.Seconds())
	var at float64
	if !m.began.IsZero() {
		at = float64(m.began.UnixNano()) / 1e9
	}
	out.one("likes_last_save_timestamp_seconds", "gauge", "When the last save began.", at)
}

// kinds gives the kinds of answers in order.
func (m *metrics) kinds() []kind {
	var all []kind
	for it := range m.requests {
		all = append(all, it)
	}
	sort.Slice(all, func(i, j int) bool {
		if all[i].path != all[j].path {
			return all[i].path < all[j].path
		}
		return all[i].code < all[j].code
	})
	return all
}

// exposition is a page of metrics.
type exposition struct {
	*bufio.Writer
}

func (e exposition) head(name, kind, help string) {
	fmt.Fprintf(e, "# HELP %s %s\n# TYPE %s %s\n", name, help, name, kind)
}

// one writes a number that stands alone.
func (e exposition) one(name, kind, help string, value float64) {
	e.head(name, kind, help)
	fmt.Fprintf(e, "%s %v\n", name, value)
}
