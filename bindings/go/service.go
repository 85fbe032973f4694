// Package likes is the live core for Go, by cgo. Nothing here is proved.
//
// Most programs need a Service, and with many likes a Writer for each goroutine, or a Pool of writers that goroutines
// share. A program that changes phases by itself has OpenDriver.
//
// What is refused is an error of this package, such as ErrUnknownUser, for errors.Is. A call of something that is
// closed is ErrClosed.
package likes

/*
#cgo pkg-config: likes
#include <likes_service.h>
#include <stdlib.h>
#include "opening.h"

static uint32_t open_service(const likes_options *numbers, const uint64_t *counts, size_t pages, const uint32_t *marks,
                             size_t marks_len, const uint32_t *lasts, size_t lasts_len, likes_service **service) {
	likes_options options = with_arrays(numbers, counts, pages, marks, marks_len, lasts, lasts_len);
	return likes_service_open(&options, service);
}

static uint32_t load_service(const char *path, const likes_options *numbers, size_t pages, const uint32_t *marks,
                             size_t marks_len, const uint32_t *lasts, size_t lasts_len, likes_service **service) {
	likes_options options = with_arrays(numbers, NULL, pages, marks, marks_len, lasts, lasts_len);
	return likes_service_load(path, &options, service);
}
*/
import "C"

import (
	"runtime"
	"strings"
	"sync"
	"sync/atomic"
	"syscall"
	"time"
	"unsafe"
)

// How many looks of a service wait in C at a time: each takes a thread of the system. Others wait as goroutines.
const looksInC = 64

// Service is a service with its driver's thread. Any goroutine may call it.
type Service struct {
	c            *C.likes_service
	pages, users int
	seats        uint32
	period       time.Duration
	gate         gate
	looks        chan struct{}
	late         atomic.Uint64 // looks that were late before they reached C, which doesn't count them
	ended        atomic.Pointer[Statistics]
	writers      atomic.Int64
	opening      sync.Mutex // of a writer, so that the gate is shut before it or after it
}

// Moment is the counts of all pages and the last likes of all users at one moment. With them as initial counts and as
// Options.Lasts, another service goes on from there.
type Moment struct {
	Counts []uint64
	Lasts  []uint32
}

// Statistics is what a service has done so far.
type Statistics struct {
	Phases, Likes, Looks  uint64 // phases that have ended, likes that were counted, single looks that were answered
	Waits, Late           uint64 // looks that had to wait, and looks without an answer in time
	WaitTime, LongestWait time.Duration
}

// Open opens a service with these initial counts.
func Open(options Options, counts []uint64) (*Service, error) {
	s, numbers := &Service{}, options.numbers()
	told := C.open_service(&numbers, countsAt(counts), C.size_t(len(counts)), pagesAt(options.Marks),
		C.size_t(len(options.Marks)), pagesAt(options.Lasts), C.size_t(len(options.Lasts)), &s.c)
	return s.begin(options, wanted(told, OK))
}

// Load opens a service that goes on from a file of Save, with as many users and pages or more: 0 is as many. The options
// have no last likes. Of a wrong file it gives ErrFile, ErrNotSaved, ErrOtherVersion, ErrWrongSize or ErrWrongSum, and
// ErrWrongLength where there would be fewer users or pages.
func Load(path string, options Options, pages int) (*Service, error) {
	if err := checkPath(path); err != nil {
		return nil, err
	}
	s, numbers, name := &Service{}, options.numbers(), C.CString(path)
	defer C.free(unsafe.Pointer(name))
	told, reason := C.load_service(name, &numbers, C.size_t(pages), pagesAt(options.Marks), C.size_t(len(options.Marks)),
		pagesAt(options.Lasts), C.size_t(len(options.Lasts)), &s.c)
	return s.begin(options, fileError(told, reason))
}

// begin is what comes after C has opened a service, unless that went wrong.
func (s *Service) begin(options Options, err error) (*Service, error) {
	if err != nil {
		return nil, err
	}
	s.pages, s.users = int(C.likes_service_pages(s.c)), int(C.likes_service_users(s.c))
	s.seats, s.looks = uint32(C.likes_service_seats(s.c)), make(chan struct{}, looksInC)
	if s.period = options.Period; s.period == 0 {
		s.period = time.Millisecond
	}
	return s, nil
}

// FileError is ErrFile with the system's reason.
type FileError struct{ Reason error }

func (e *FileError) Error() string {
	return ErrFile.Error() + ": " + e.Reason.Error()
}

// Is makes it ErrFile, for errors.Is.
func (e *FileError) Is(err error) bool {
	return err == ErrFile
}

func (e *FileError) Unwrap() error {
	return e.Reason
}

// checkPath refuses a path that C would cut at a byte 0.
func checkPath(path string) error {
	if strings.IndexByte(path, 0) >= 0 {
		return &FileError{syscall.EINVAL}
	}
	return nil
}

// fileError is the error of a call that reads or writes a file.
func fileError(told C.uint32_t, reason error) error {
	err := wanted(told, OK)
	if err == ErrFile && reason != nil {
		return &FileError{reason}
	}
	return err
}

// call makes a call of C while the service is open. The number, such as a user's, says where it is counted.
func (s *Service) call(number uint32, make func() error) error {
	if !s.gate.enter(number) {
		return ErrClosed
	}
	defer s.gate.leave(number)
	return make()
}

// Like adds one like.
func (s *Service) Like(user, page uint32) error {
	if !s.gate.enter(user) {
		return ErrClosed
	}
	defer s.gate.leave(user)
	return wanted(C.likes_service_like(s.c, C.uint32_t(user), C.uint32_t(page)), Liked)
}

// Look gives the exact count. It may take about a phase.
func (s *Service) Look(user, page uint32) (seen Seen, err error) {
	err = s.call(user, func() error {
		if !s.beginLook(nil) {
			return ErrHoldsSeat
		}
		defer s.endLook()
		var answer C.likes_answer
		C.likes_service_look(s.c, C.uint32_t(user), C.uint32_t(page), &answer)
		seen, err = seenBy(answer)
		return err
	})
	return seen, err
}

// LookWithin is Look with a time limit, after which it gives ErrLate.
func (s *Service) LookWithin(user, page uint32, limit time.Duration) (seen Seen, err error) {
	until := time.Now().Add(limit)
	err = s.call(user, func() error {
		timer := time.NewTimer(limit)
		defer timer.Stop()
		if !s.beginLook(timer.C) {
			return s.lateOrHeld()
		}
		defer s.endLook()
		var answer C.likes_answer
		told := C.likes_service_look_within(s.c, C.uint32_t(user), C.uint32_t(page), microseconds(time.Until(until)), &answer)
		if Error(told) == ErrLate {
			return ErrLate
		}
		seen, err = seenBy(answer)
		return err
	})
	return seen, err
}

// Glance gives a count at once, and whether it is exact.
func (s *Service) Glance(user, page uint32) (shown Shown, err error) {
	err = s.call(user, func() error {
		var answer C.likes_answer
		C.likes_service_glance(s.c, C.uint32_t(user), C.uint32_t(page), &answer)
		shown, err = shownBy(answer)
		return err
	})
	return shown, err
}

// beginLook waits until a look may wait in C. It is false for a goroutine that holds a seat, for which those that wait
// there would wait in turn, and where a timer comes first.
func (s *Service) beginLook(late <-chan time.Time) bool {
	select {
	case s.looks <- struct{}{}:
		return true
	default:
	}
	if s.holdsSeat() {
		return false
	}
	select {
	case s.looks <- struct{}{}:
		return true
	case <-late:
		return false
	}
}

func (s *Service) endLook() {
	<-s.looks
}

// holdsSeat says whether this goroutine holds a seat, by WithSeat.
func (s *Service) holdsSeat() bool {
	return Error(C.likes_service_seat_fault(s.c, 0)) == ErrHoldsSeat
}

func (s *Service) lateOrHeld() error {
	if s.holdsSeat() {
		return ErrHoldsSeat
	}
	s.late.Add(1)
	return ErrLate
}

// Last gives the page of a user's last like, or NoPage.
func (s *Service) Last(user uint32) (uint32, error) {
	page := C.uint32_t(NoPage)
	err := s.call(user, func() error { return wanted(C.likes_service_last(s.c, C.uint32_t(user), &page), OK) })
	return uint32(page), err
}

// Lasts gives the pages of all users' last likes. Those of one seat are of one moment.
func (s *Service) Lasts() ([]uint32, error) {
	lasts := make([]uint32, s.users)
	err := s.call(0, func() error { return wanted(C.likes_service_lasts(s.c, pagesAt(lasts), C.size_t(s.users)), OK) })
	if err != nil {
		return nil, err
	}
	return lasts, nil
}

// Counts gives the counts of all pages at one moment.
func (s *Service) Counts() ([]uint64, error) {
	counts := make([]uint64, s.pages)
	err := s.call(0, func() error {
		return wanted(C.likes_service_counts(s.c, countsAt(counts), C.size_t(s.pages)), Counted)
	})
	if err != nil {
		return nil, err
	}
	return counts, nil
}

// Snapshot gives the counts of all pages and all last likes at one moment. Likes and looks wait meanwhile.
func (s *Service) Snapshot() (*Moment, error) {
	m := &Moment{make([]uint64, s.pages), make([]uint32, s.users)}
	if err := s.ReadSnapshot(m); err != nil {
		return nil, err
	}
	return m, nil
}

// ReadSnapshot writes a snapshot over another one, whose memory it takes. ErrWrongLength: that is of another service.
func (s *Service) ReadSnapshot(m *Moment) error {
	return s.call(0, func() error {
		return wanted(C.likes_service_snapshot(s.c, countsAt(m.Counts), C.size_t(len(m.Counts)), pagesAt(m.Lasts),
			C.size_t(len(m.Lasts))), Counted)
	})
}

// Save saves such a moment to a file. After a crash there is the old file or the new one.
func (s *Service) Save(path string) error {
	if err := checkPath(path); err != nil {
		return err
	}
	name := C.CString(path)
	defer C.free(unsafe.Pointer(name))
	return s.call(0, func() error {
		told, reason := C.likes_service_save(s.c, name)
		return fileError(told, reason)
	})
}

// Statistics gives what the service has done so far, also once Stop has returned.
func (s *Service) Statistics() (told Statistics, err error) {
	err = s.call(0, func() error {
		told = s.statistics()
		return nil
	})
	if ended := s.ended.Load(); ended != nil {
		return *ended, nil
	}
	return told, err
}

// statistics are those of C, and the looks that didn't reach it.
func (s *Service) statistics() Statistics {
	var told C.likes_statistics
	C.likes_service_statistics(s.c, &told)
	return Statistics{
		Phases: uint64(told.phases), Likes: uint64(told.likes), Looks: uint64(told.looks),
		Waits: uint64(told.waits), Late: uint64(told.late) + s.late.Load(),
		WaitTime: time.Duration(told.wait_time), LongestWait: time.Duration(told.longest_wait),
	}
}

// Propose proposes pages to be split, as Driver.Propose does.
func (s *Service) Propose(pages ...uint32) error {
	return s.call(0, func() error {
		return wanted(C.likes_service_propose(s.c, pagesAt(pages), C.size_t(len(pages))), OK)
	})
}

// SplitPages gives the pages that are split in the present split phase, or were in the last one.
func (s *Service) SplitPages() ([]uint32, error) {
	pages := make([]uint32, MaxSplit)
	err := s.call(0, func() error {
		// C has no status here: to a thread that holds a seat it gives no pages.
		if s.holdsSeat() {
			return ErrHoldsSeat
		}
		pages = pages[:C.likes_service_split_pages(s.c, pagesAt(pages), C.size_t(len(pages)))]
		return nil
	})
	if err != nil {
		return nil, err
	}
	return pages, nil
}

// Phase gives the phase that was last released, and 0 after the end.
func (s *Service) Phase() (phase uint64) {
	s.call(0, func() error {
		phase = uint64(C.likes_service_phase(s.c))
		return nil
	})
	return phase
}

// Seats is how many seats there are. User u belongs to seat u % Seats().
func (s *Service) Seats() uint32 {
	return s.seats
}

// RetireSeat has a seat leave, in a few phases. Then likes and looks of its users are ErrGone.
func (s *Service) RetireSeat(number uint32) error {
	return s.call(number, func() error { return wanted(C.likes_service_retire_seat(s.c, C.uint32_t(number)), OK) })
}

// BringBackSeat brings a seat back that has left.
func (s *Service) BringBackSeat(number uint32) error {
	return s.call(number, func() error { return wanted(C.likes_service_bring_back_seat(s.c, C.uint32_t(number)), OK) })
}

// Tick does what is due for the phases. A busy goroutine may call it once in some 256 requests: then no phase waits
// until the driver's thread gets a processor.
func (s *Service) Tick() {
	s.call(0, func() error {
		C.likes_service_tick(s.c)
		return nil
	})
}

// Stop ends the service, and gives its last moment. It waits for calls that have begun; later ones are ErrClosed, as is
// a second Stop. Then Statistics gives the last ones. ErrOpenWriter: a writer or a pool is open, and nothing is done.
func (s *Service) Stop() (*Moment, error) {
	// In C, it is a thread that has memory for its calls.
	runtime.LockOSThread()
	defer runtime.UnlockOSThread()
	if err := s.call(0, s.shut); err != nil {
		return nil, err
	}
	s.gate.wait()
	end := &Moment{make([]uint64, s.pages), make([]uint32, s.users)}
	C.likes_service_retire(s.c)
	C.likes_service_lasts(s.c, pagesAt(end.Lasts), C.size_t(s.users))
	C.likes_service_stop(s.c, countsAt(end.Counts), C.size_t(s.pages))
	told := s.statistics()
	s.ended.Store(&told)
	C.likes_service_close(s.c)
	s.c = nil
	return end, nil
}

// shut keeps new calls out, or says why the service can't be ended now. After it, C refuses nothing of the end.
func (s *Service) shut() error {
	// A thread's first call takes memory for it. This one, of an array that is too short, does no more.
	if err := wanted(C.likes_service_lasts(s.c, nil, 0), Status(ErrWrongLength)); err != nil {
		return err
	}
	s.opening.Lock()
	defer s.opening.Unlock()
	if s.gate.isShut.Load() {
		return ErrClosed
	}
	if s.writers.Load() > 0 {
		return ErrOpenWriter
	}
	s.gate.shut()
	return nil
}

// Close is Stop for a program that needs no last moment. A service that is closed already stays so, without an error.
func (s *Service) Close() error {
	if _, err := s.Stop(); err != ErrClosed {
		return err
	}
	return nil
}
