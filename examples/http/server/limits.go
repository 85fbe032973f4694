package main

import (
	"errors"
	"flag"
	"net/http"
	"time"
)

// The most bytes of a request's head and of its body.
const mostHead, mostBody = 8192, 4096

// limits is how much clients may ask for at a time, and how long they may take.
type limits struct {
	inFlight                        int
	head, body, answer, drain, stop time.Duration
}

func (l *limits) flags(flags *flag.FlagSet) {
	flags.IntVar(&l.inFlight, "in-flight", 1024, "how many requests are answered at a time")
	flags.DurationVar(&l.head, "head-timeout", 5*time.Second, "how long the head of a request may take")
	flags.DurationVar(&l.body, "body-timeout", 10*time.Second, "how long the whole request may take, with its body")
	flags.DurationVar(&l.answer, "answer-timeout", 30*time.Second, "how long the answer may take after that")
	flags.DurationVar(&l.drain, "drain", 0, "how long /healthz says that the server stops before it does")
	flags.DurationVar(&l.stop, "stop-timeout", 10*time.Second, "how long open requests are waited for at the stop")
}

func (l *limits) check() error {
	if l.inFlight < 1 {
		return errors.New("-in-flight is 1 or more")
	}
	if l.head <= 0 || l.body <= 0 || l.answer <= 0 || l.stop <= 0 || l.drain < 0 {
		return errors.New("a timeout is more than 0")
	}
	return nil
}

// web is an HTTP server that keeps to the limits.
func (l *limits) web(handler http.Handler) *http.Server {
	return &http.Server{
		Handler:           handler,
		MaxHeaderBytes:    mostHead,
		ReadHeaderTimeout: l.head,
		ReadTimeout:       l.body,
		WriteTimeout:      l.body + l.answer,
		IdleTimeout:       time.Minute,
	}
}

// slots bounds how many requests are in flight.
type slots chan struct{}

// take takes a slot, if one is free.
func (s slots) take() bool {
	select {
	case s <- struct{}{}:
		return true
	default:
		return false
	}
}

func (s slots) give() {
	<-s
}
