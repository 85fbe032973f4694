package main

import (
	"bufio"
	"encoding/json"
	"fmt"
	"io"
	"net/http"
	"sync/atomic"
)

// server is what the handlers share. It has no counter until that is started.
type server struct {
	counter atomic.Pointer[counter]
	stops   atomic.Bool
	slots   slots
	lists   slots
	metrics *metrics
}

func newServer(inFlight int) *server {
	return &server{slots: make(slots, inFlight), lists: make(slots, 2), metrics: newMetrics()}
}

// route is a path, its method, and what answers it.
type route struct {
	path, method string
	answer       func(*server, *counter, http.ResponseWriter, *http.Request) error
}

var routes = []route{
	{"/like", http.MethodPost, like},
	{"/look", http.MethodGet, look},
	{"/pages", http.MethodGet, pages},
}

// handler answers all paths.
func (s *server) handler() http.Handler {
	mux := http.NewServeMux()
	for _, it := range routes {
		it := it
		mux.HandleFunc(it.path, func(w http.ResponseWriter, r *http.Request) {
			told := &answer{w, http.StatusOK}
			if err := s.try(it, told, r); err != nil {
				refuse(told, r, err)
			}
			s.metrics.note(it.path, told.code)
		})
	}
	mux.HandleFunc("/metrics", s.tellMetrics)
	mux.HandleFunc("/healthz", s.tellHealth)
	return mux
}

// try answers a request that is in its limits.
func (s *server) try(it route, w http.ResponseWriter, r *http.Request) error {
	if err := checkMethod(w, r, it.method); err != nil {
		return err
	}
	counter := s.counter.Load()
	if counter == nil {
		return errStarts
	}
	if !s.slots.take() {
		return errBusy
	}
	defer s.slots.give()
	return it.answer(s, counter, w, r)
}

// answer is an answer whose status is known afterwards.
type answer struct {
	http.ResponseWriter
	code int
}

func (a *answer) WriteHeader(code int) {
	a.code = code
	a.ResponseWriter.WriteHeader(code)
}

// like adds a like, and answers once a writer has it: it is counted within some milliseconds.
func like(_ *server, c *counter, w http.ResponseWriter, r *http.Request) error {
	user, name, err := readUserAndPage(w, r, c.users)
	if err != nil {
		return err
	}
	if err := c.like(user, name); err != nil {
		return err
	}
	w.WriteHeader(http.StatusNoContent)
	return nil
}

// page is what a look shows.
type page struct {
	Page  string `json:"page"`
	Count uint64 `json:"count"`
	Last  string `json:"last,omitempty"`
}

// look answers a page's exact count and the user's last like.
func look(_ *server, c *counter, w http.ResponseWriter, r *http.Request) error {
	user, name, err := readUserAndPage(w, r, c.users)
	if err != nil {
		return err
	}
	number, isKnown := c.names.Find(name)
	if !isKnown {
		return errUnknown
	}
	count, last, err := c.look(user, number)
	if err != nil {
		return err
	}
	w.Header().Set("Content-Type", "application/json")
	json.NewEncoder(w).Encode(page{name, count, last})
	return nil
}

// pages answers the counts of all pages at one moment, by name, in the order in which the pages came. They take memory
// while they are written, so few clients may ask for them at a time.
func pages(s *server, c *counter, w http.ResponseWriter, r *http.Request) error {
	if _, err := readForm(w, r); err != nil {
		return err
	}
	if !s.lists.take() {
		return errBusy
	}
	defer s.lists.give()
	all, counts, err := c.total()
	if err != nil {
		return err
	}
	w.Header().Set("Content-Type", "application/json")
	writeCounts(w, all, counts)
	return nil
}

// writeCounts writes names and counts as JSON, one in a line. That the client is gone is nobody's fault.
func writeCounts(out io.Writer, all []string, counts []uint64) {
	lines := bufio.NewWriter(out)
	between := "\n"
	lines.WriteString("{")
	for number, name := range all {
		quoted, _ := json.Marshal(name)
		fmt.Fprintf(lines, "%s%s: %d", between, quoted, counts[number])
		between = ",\n"
	}
	lines.WriteString("\n}\n")
	lines.Flush()
}
