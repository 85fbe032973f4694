// A server that counts likes, and keeps them in a file:
//
//	POST /like     user (a number) and page (a name), in the body or the query; answers 204 once a writer has the like
//	GET /look      user and page; answers the page's exact count and the user's last like, as JSON
//	GET /pages     answers the counts of all pages at one moment, as JSON
//	GET /metrics   answers numbers for Prometheus
//	GET /healthz   answers 200 while the server takes requests, and 503 while it starts or stops
//
// It ends by SIGINT or SIGTERM: it answers what has begun, and saves. README.md says more.
package main

import (
	"context"
	"errors"
	"flag"
	"fmt"
	"net"
	"net/http"
	"os"
	"os/signal"
	"syscall"
	"time"
)

// run serves until it is told to end.
func run(o *options) error {
	s := newServer(o.limits.inFlight)
	keeper, err := openSaver(o.file, s.metrics)
	if err != nil {
		return err
	}
	defer keeper.close()
	at, err := net.Listen("tcp", o.listen)
	if err != nil {
		return err
	}
	fmt.Printf("listening at http://%s\n", at.Addr())
	web, failed := o.limits.web(s.handler()), make(chan error, 1)
	go func() { failed <- web.Serve(at) }()
	c, err := begin(keeper, o)
	if err != nil {
		return err
	}
	// Before this a signal ends the program at once, and so does a second one later.
	asked, forget := signal.NotifyContext(context.Background(), syscall.SIGINT, syscall.SIGTERM)
	defer forget()
	s.counter.Store(c)
	fmt.Printf("ready: %d pages\n", c.names.Length())
	saves := keeper.run(c, o.every)
	select {
	case <-asked.Done():
	case err = <-failed:
	}
	forget()
	s.stops.Store(true)
	time.Sleep(o.limits.drain)
	shut(web, o.limits.stop)
	saves.end()
	if saved := finish(keeper, c); err == nil {
		err = saved
	}
	return err
}

// begin starts a counter from what was saved. It saves at once: a file that can't be written is told before a like is
// taken.
func begin(keeper *saver, o *options) (*counter, error) {
	from, err := keeper.load()
	if err != nil {
		return nil, err
	}
	c, err := start(from, o)
	if err != nil {
		return nil, err
	}
	return c, c.moment(keeper.save)
}

// shut takes no more requests, and waits so long for those that are open. Then it cuts them off: what they have counted
// is saved all the same.
func shut(web *http.Server, most time.Duration) {
	ctx, cancel := context.WithTimeout(context.Background(), most)
	defer cancel()
	if web.Shutdown(ctx) != nil {
		fmt.Fprintln(os.Stderr, "requests that took too long were cut off")
		web.Close()
	}
}

// finish ends the counter and saves what it has.
func finish(keeper *saver, c *counter) error {
	last, err := c.end()
	if err != nil {
		return err
	}
	if err := keeper.save(last); err != nil {
		return err
	}
	fmt.Printf("stopped: %d pages, %d likes\n", len(last.Names), last.Likes())
	return nil
}

func main() {
	// At a limit of the file's size, or where nobody reads the output, a write fails, and the program goes on.
	signal.Ignore(syscall.SIGXFSZ, syscall.SIGPIPE)
	o, err := optionsOf(os.Args[1:])
	if errors.Is(err, flag.ErrHelp) {
		return
	}
	if err != nil {
		fmt.Fprintln(os.Stderr, err)
		os.Exit(2)
	}
	if err := run(o); err != nil {
		fmt.Fprintln(os.Stderr, err)
		os.Exit(1)
	}
}
