package likes

/*
#include "opening.h"

static uint32_t open_driver(const likes_options *numbers, const uint64_t *counts, size_t pages, const uint32_t *marks,
                            size_t marks_len, const uint32_t *lasts, size_t lasts_len, likes_driver *driver) {
	likes_options options = with_arrays(numbers, counts, pages, marks, marks_len, lasts, lasts_len);
	return likes_open(&options, driver);
}
*/
import "C"

import (
	"math"
	"sync"
	"time"
)

// NoHot in place of Options.Hot: no page gets hot by itself.
const NoHot = C.LIKES_NO_HOT

// Options of a service. Only Users must be given: what is left out has its default.
type Options struct {
	// Users is how many there are: 1 or more.
	Users uint32
	// Seats is 1 to 64, or by default 16 for each processor and at most 64.
	Seats uint32
	// Room is how many looks a seat keeps: 1 to 4,096, or by default 64.
	Room uint32
	// Hot is about how many likes make a page hot, by default 512; or NoHot.
	Hot uint32
	// Period is of Open: the time from the end of one split phase to that of the next, by default a millisecond.
	Period time.Duration
	// Marks has the pages that are split in every split phase.
	Marks []uint32
	// Lasts has the page of each user's last like, or NoPage. Without any, nobody has one.
	Lasts []uint32
}

// numbers is what C takes of the options, but for arrays. A period that is too long or below a microsecond is refused.
func (o *Options) numbers() C.likes_options {
	made := C.likes_options{
		users:     C.uint32_t(o.Users),
		seats:     C.uint32_t(o.Seats),
		room:      C.uint32_t(o.Room),
		hot:       C.uint32_t(o.Hot),
		period_us: math.MaxUint32,
	}
	if length := o.Period.Microseconds(); o.Period == 0 || length > 0 && length <= C.LIKES_MAX_PERIOD_US {
		made.period_us = C.uint32_t(length)
	}
	return made
}

// microseconds is a time limit for C.
func microseconds(limit time.Duration) C.uint32_t {
	length := limit.Microseconds()
	if length < 0 {
		return 0
	}
	if length > math.MaxUint32 {
		return math.MaxUint32
	}
	return C.uint32_t(length)
}

// End says whether a turn may end the phase.
type End uint32

// EndIfItServes: a joined phase goes on if no page would be split in the next one. EndNow: in any case, for a snapshot.
const (
	NoEnd         End = C.LIKES_NO_END
	EndIfItServes End = C.LIKES_END_IF_IT_SERVES
	EndNow        End = C.LIKES_END
)

// Driver is the coordinator of a service, for programs that change phases by themselves. It owns its seats and its
// phase. Any goroutine may call it.
type Driver struct {
	mutex sync.Mutex
	c     C.likes_driver
	seats []*Seat
	phase *Phase
}

// OpenDriver opens a service with these initial counts.
func OpenDriver(options Options, counts []uint64) (*Driver, error) {
	driver, numbers := &Driver{}, options.numbers()
	told := C.open_driver(&numbers, countsAt(counts), C.size_t(len(counts)), pagesAt(options.Marks),
		C.size_t(len(options.Marks)), pagesAt(options.Lasts), C.size_t(len(options.Lasts)), &driver.c)
	if err := wanted(told, OK); err != nil {
		return nil, err
	}
	return driver, nil
}

// TakeSeat gives the next seat, and nil if all are taken. A phase changes only when every seat has answered, so take
// them all.
func (d *Driver) TakeSeat() *Seat {
	d.mutex.Lock()
	defer d.mutex.Unlock()
	seat := &Seat{}
	if C.likes_driver_take_seat(&d.c, &seat.c) != C.LIKES_OK {
		return nil
	}
	d.seats = append(d.seats, seat)
	return seat
}

// TakePhase gives the phase, once, and then nil.
func (d *Driver) TakePhase() *Phase {
	d.mutex.Lock()
	defer d.mutex.Unlock()
	phase := &Phase{}
	if C.likes_driver_take_phase(&d.c, &phase.c) != C.LIKES_OK {
		return nil
	}
	d.phase = phase
	return phase
}

// Turn does at most one thing for the phases: GoesOn, Announced, NotAllIn, Released or Ended.
func (d *Driver) Turn(end End) (Status, error) {
	d.mutex.Lock()
	defer d.mutex.Unlock()
	return outcome(C.likes_driver_turn(&d.c, C.uint32_t(end)))
}

// Phase is the present phase. Phases with odd numbers are split.
func (d *Driver) Phase() uint64 {
	d.mutex.Lock()
	defer d.mutex.Unlock()
	return uint64(C.likes_driver_phase(&d.c))
}

// Snapshot writes the counts of the pages from, from + 1 and so on, at the end of a joined phase that every seat has
// answered: Counted. Or NoMoment.
func (d *Driver) Snapshot(from uint32, counts []uint64) (Status, error) {
	d.mutex.Lock()
	defer d.mutex.Unlock()
	return outcome(C.likes_driver_snapshot(&d.c, C.uint32_t(from), countsAt(counts), C.size_t(len(counts))))
}

// LastCounts writes the final counts of the pages from, from + 1 and so on, where all seats are gone: Counted. Or
// NotEnded: make turns with EndIfItServes until Ended, and try again.
func (d *Driver) LastCounts(from uint32, counts []uint64) (Status, error) {
	d.mutex.Lock()
	defer d.mutex.Unlock()
	return outcome(C.likes_driver_last_counts(&d.c, C.uint32_t(from), countsAt(counts), C.size_t(len(counts))))
}

// SplitPages writes the pages that are split in the present split phase, or were in the last one, and gives those that
// were written.
func (d *Driver) SplitPages(pages []uint32) []uint32 {
	d.mutex.Lock()
	defer d.mutex.Unlock()
	return pages[:C.likes_driver_split_pages(&d.c, pagesAt(pages), C.size_t(len(pages)))]
}

// Propose proposes pages to be split, the first 64, in place of those that the library finds by itself. Without pages
// it finds them again.
func (d *Driver) Propose(pages ...uint32) error {
	d.mutex.Lock()
	defer d.mutex.Unlock()
	return wanted(C.likes_driver_propose(&d.c, pagesAt(pages), C.size_t(len(pages))), OK)
}

// Close frees the seats, the phase and the driver. Their calls are ErrClosed then; those without an error give nothing.
func (d *Driver) Close() error {
	d.mutex.Lock()
	defer d.mutex.Unlock()
	for _, seat := range d.seats {
		seat.free()
	}
	if d.phase != nil {
		d.phase.free()
	}
	C.likes_driver_free(&d.c)
	return nil
}

// Phase is the phase that a driver has last released. Any goroutine may call it.
type Phase struct {
	mutex sync.Mutex
	c     C.likes_phase
}

// Now gives the phase. It may be over by then.
func (p *Phase) Now() uint64 {
	p.mutex.Lock()
	defer p.mutex.Unlock()
	return uint64(C.likes_phase_now(&p.c))
}

func (p *Phase) free() {
	p.mutex.Lock()
	defer p.mutex.Unlock()
	C.likes_phase_free(&p.c)
}
