// A pool of goroutines likes and looks, and the totals are printed.
package main

import (
	"fmt"
	"os"
	"sync"

	"likes"
)

const (
	goroutines = 32
	users      = 3200
	each       = 5000
)

// work likes as a goroutine's own users do, and looks at what they liked last.
func work(pool *likes.Pool, number uint32) error {
	for i := uint32(0); i < each; i++ {
		user, page := number+goroutines*(i%(users/goroutines)), i%3
		if err := pool.Like(user, page); err != nil {
			return err
		}
		if i%50 != 0 {
			continue
		}
		if seen, err := pool.Look(user, 0); err != nil || seen.Last != page {
			return fmt.Errorf("user %d has another last like: %v, %v", user, seen, err)
		}
	}
	return nil
}

func run() error {
	service, err := likes.Open(likes.Options{Users: users}, make([]uint64, 4))
	if err != nil {
		return err
	}
	writers, err := service.NewPool()
	if err != nil {
		return err
	}
	if err := service.Propose(0); err != nil {
		return err
	}
	errs := make(chan error, goroutines)
	var pool sync.WaitGroup
	for number := uint32(0); number < goroutines; number++ {
		pool.Add(1)
		go func(number uint32) {
			defer pool.Done()
			if err := work(writers, number); err != nil {
				errs <- err
			}
		}(number)
	}
	pool.Wait()
	if split, err := service.SplitPages(); err != nil || len(split) > 1 {
		return fmt.Errorf("other pages than 0 are split: %v, %v", split, err)
	}
	fmt.Println("a like of page 4:", writers.Like(0, 4))
	if err := writers.Close(); err != nil {
		return err
	}
	end, err := service.Stop()
	if err != nil {
		return err
	}
	fmt.Println("totals:", end.Counts)
	close(errs)
	return <-errs
}

func main() {
	if err := run(); err != nil {
		fmt.Fprintln(os.Stderr, err)
		os.Exit(1)
	}
}
