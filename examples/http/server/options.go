package main

import (
	"errors"
	"flag"
	"io"
	"os"
	"time"
)

// options are those of the command line.
type options struct {
	listen           string
	pages, pagesFile string
	mostPages        int
	users, seats     uint32
	file             string
	every            time.Duration
	limits           limits
}

// optionsOf reads the words of the command line. Those that ask for help get it.
func optionsOf(words []string) (*options, error) {
	o, flags := &options{}, flag.NewFlagSet("server", flag.ContinueOnError)
	flags.SetOutput(io.Discard)
	flags.Usage = func() {}
	var users, seats uint
	flags.StringVar(&o.listen, "listen", "127.0.0.1:8080", "the `address` to listen at; port 0 takes a free one")
	flags.StringVar(&o.pages, "pages", "", "`names` of pages that are there from the start, with commas between them")
	flags.StringVar(&o.pagesFile, "pages-file", "", "a `file` with more of them, one in each line")
	flags.IntVar(&o.mostPages, "most-pages", 1000000, "how many pages there can be; a name that is new gets one")
	flags.UintVar(&users, "users", 100000, "how many users there are")
	flags.UintVar(&seats, "seats", 0, "how many `seats` the live core has; 0: 16 for each processor, and at most 64")
	flags.StringVar(&o.file, "file", "", "the `file` to which counts, names and last likes are saved, and from which "+
		"they are taken at the start; without it, they are in memory alone")
	flags.DurationVar(&o.every, "every", 10*time.Second, "how often they are saved")
	o.limits.flags(flags)
	err := flags.Parse(words)
	if errors.Is(err, flag.ErrHelp) {
		flags.SetOutput(os.Stdout)
		flags.PrintDefaults()
	}
	if err != nil {
		return nil, err
	}
	o.users, o.seats = uint32(users), uint32(seats)
	switch {
	case flags.NArg() > 0:
		return nil, errors.New("options only, and not " + flags.Arg(0))
	case o.mostPages < 1 || o.mostPages > 1<<24:
		return nil, errors.New("-most-pages is 1 to 16777216")
	case users < 1 || users > 1<<32-1:
		return nil, errors.New("-users is 1 to 4294967295")
	case seats > 64:
		return nil, errors.New("-seats is 1 to 64, or 0")
	case o.every <= 0:
		return nil, errors.New("-every is more than 0")
	}
	return o, o.limits.check()
}
