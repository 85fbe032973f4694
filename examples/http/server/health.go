package main

import (
	"fmt"
	"net/http"
)

// tellHealth answers whether the server takes requests: 200 while it does, 503 while it starts or stops.
func (s *server) tellHealth(w http.ResponseWriter, r *http.Request) {
	if err := checkMethod(w, r, http.MethodGet); err != nil {
		refuse(w, r, err)
		return
	}
	code, text := http.StatusOK, "ok"
	switch {
	case s.counter.Load() == nil:
		code, text = http.StatusServiceUnavailable, "starting"
	case s.stops.Load():
		code, text = http.StatusServiceUnavailable, "stopping"
	}
	w.Header().Set("Content-Type", "text/plain; charset=utf-8")
	w.Header().Set("Cache-Control", "no-store")
	w.WriteHeader(code)
	fmt.Fprintln(w, text)
}
