// A load for the server: clients that like and look. Each has users of its own, so it knows what a look has to show of
// them. In the end the server's counts have to be what they were and the likes that were made. The pages come up as
// they are liked.
package main

import (
	"encoding/json"
	"errors"
	"flag"
	"fmt"
	"io"
	"math/rand"
	"net/http"
	"net/url"
	"os"
	"strconv"
	"sync"
	"time"
)

var (
	at       = flag.String("url", "http://127.0.0.1:8080", "where the server is")
	clients  = flag.Int("clients", 16, "how many clients")
	requests = flag.Int("requests", 100000, "how many requests in all, the same for each client")
	pages    = flag.Int("pages", 8, "how many pages are liked")
	users    = flag.Int("users", 1000, "how many users like and look, those with the lowest numbers")
)

// check says which numbers make no load. Each client needs a user of its own.
func check() error {
	switch {
	case *clients < 1:
		return errors.New("-clients is 1 or more")
	case *pages < 1:
		return errors.New("-pages is 1 or more")
	case *users < *clients:
		return fmt.Errorf("-users is %d or more, one for each client", *clients)
	}
	return nil
}

// client is what a client has done: likes of each page, and of each user its last like and likes of each page.
type client struct {
	number int
	liked  map[string]uint64
	last   map[int]string
	own    map[pair]uint64
}

// pair is a user and a page.
type pair struct {
	user int
	page string
}

// get reads an answer in JSON.
func get(web *http.Client, from string, into any) error {
	answer, err := web.Get(from)
	if err != nil {
		return err
	}
	defer answer.Body.Close()
	if answer.StatusCode != http.StatusOK {
		return fmt.Errorf("%s: %s", from, answer.Status)
	}
	return json.NewDecoder(answer.Body).Decode(into)
}

func (c *client) like(web *http.Client, user int, page string) error {
	answer, err := web.PostForm(*at+"/like", url.Values{"user": {strconv.Itoa(user)}, "page": {page}})
	if err != nil {
		return err
	}
	defer answer.Body.Close()
	io.Copy(io.Discard, answer.Body)
	if answer.StatusCode != http.StatusNoContent {
		return fmt.Errorf("a like: %s", answer.Status)
	}
	c.liked[page]++
	c.last[user] = page
	c.own[pair{user, page}]++
	return nil
}

func (c *client) look(web *http.Client, user int, page string) error {
	var seen struct {
		Count uint64
		Last  string
	}
	asked := url.Values{"user": {strconv.Itoa(user)}, "page": {page}}
	if err := get(web, *at+"/look?"+asked.Encode(), &seen); err != nil {
		return err
	}
	if last, isKnown := c.last[user]; isKnown && seen.Last != last {
		return fmt.Errorf("user %d last liked %s, and not %s", user, last, seen.Last)
	}
	// Likes of other users may not be counted yet.
	if own := c.own[pair{user, page}]; seen.Count < own {
		return fmt.Errorf("page %s has %d likes, of %d and more", page, seen.Count, own)
	}
	return nil
}

// run makes a client's requests: a quarter are looks, of pages that it has liked, and low pages are more popular.
func (c *client) run(web *http.Client, each int) error {
	random := rand.New(rand.NewSource(int64(c.number)))
	popular := rand.NewZipf(random, 1.4, 1, uint64(*pages-1))
	for i := 0; i < each; i++ {
		user := c.number + *clients*random.Intn(*users / *clients)
		page := fmt.Sprintf("page %d", popular.Uint64())
		act := c.like
		if c.liked[page] > 0 && random.Intn(4) == 0 {
			act = c.look
		}
		if err := act(web, user, page); err != nil {
			return err
		}
	}
	return nil
}

// compare holds that each page has the likes that it had before and those that were made, and gives the number of
// these. A page that isn't listed has none.
func compare(before, after map[string]uint64, all []*client) (liked uint64, err error) {
	right := map[string]uint64{}
	for page := range after {
		right[page] = 0
	}
	for page, count := range before {
		right[page] = count
	}
	for _, c := range all {
		for page, count := range c.liked {
			right[page] += count
			liked += count
		}
	}
	for page, count := range right {
		if after[page] != count {
			return 0, fmt.Errorf("the count of %s is %d, and not %d", page, after[page], count)
		}
	}
	return liked, nil
}

func load() error {
	transport := http.DefaultTransport.(*http.Transport).Clone()
	transport.MaxIdleConnsPerHost = *clients
	web := &http.Client{Transport: transport}
	before, after := map[string]uint64{}, map[string]uint64{}
	if err := get(web, *at+"/pages", &before); err != nil {
		return err
	}
	each := *requests / *clients
	began := time.Now()
	errs, all := make(chan error, *clients), make([]*client, *clients)
	var done sync.WaitGroup
	for number := range all {
		all[number] = &client{number, map[string]uint64{}, map[int]string{}, map[pair]uint64{}}
		done.Add(1)
		go func(c *client) {
			defer done.Done()
			if err := c.run(web, each); err != nil {
				errs <- err
			}
		}(all[number])
	}
	done.Wait()
	took := time.Since(began).Seconds()
	close(errs)
	for err := range errs {
		return err
	}
	if err := get(web, *at+"/pages", &after); err != nil {
		return err
	}
	liked, err := compare(before, after, all)
	if err != nil {
		return err
	}
	fmt.Printf("%d requests, %d of them likes, %.0f a second: all counts are exact\n", each**clients, liked, float64(each**clients)/took)
	return nil
}

func main() {
	flag.Parse()
	if err := check(); err != nil {
		fmt.Fprintln(os.Stderr, err)
		os.Exit(2)
	}
	if err := load(); err != nil {
		fmt.Fprintln(os.Stderr, err)
		os.Exit(1)
	}
}
