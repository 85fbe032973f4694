package likes

// #include <likes.h>
import "C"

import (
	"sync"
	"unsafe"
)

// Seat is a worker of a Driver. Any goroutine may call it; calls wait for each other.
//
// While a phase is ending, each seat that isn't gone is called, by Turn if there is nothing else to do: a seat that
// isn't called holds up all others.
type Seat struct {
	mutex sync.Mutex
	c     C.likes_seat
}

// Like adds one like: Liked, Between, LikeLimit or Gone.
func (s *Seat) Like(user, page uint32) (Status, error) {
	s.mutex.Lock()
	defer s.mutex.Unlock()
	return outcome(C.likes_seat_like(&s.c, C.uint32_t(user), C.uint32_t(page)))
}

// Look looks: SeenNow, Waits, Between, NoRoom or Gone. The tag comes back when the look is found.
func (s *Seat) Look(user, page uint32, tag uint64) (Seen, Status, error) {
	s.mutex.Lock()
	defer s.mutex.Unlock()
	var answer C.likes_answer
	C.likes_seat_look(&s.c, C.uint32_t(user), C.uint32_t(page), C.uint64_t(tag), &answer)
	return told(answer)
}

// Glance looks at once: SeenNow, with the exact count; Glimpsed, of a page that is split, whose count may lack other
// seats' likes of the present phase; Between or Gone.
func (s *Seat) Glance(user, page uint32) (Seen, Status, error) {
	s.mutex.Lock()
	defer s.mutex.Unlock()
	var answer C.likes_answer
	C.likes_seat_glance(&s.c, C.uint32_t(user), C.uint32_t(page), &answer)
	return told(answer)
}

func told(answer C.likes_answer) (Seen, Status, error) {
	status, err := outcome(answer.status)
	return seenIn(answer), status, err
}

// Run runs requests one by one, and gives how many were done. It stops before the first that is Between or NoRoom, and
// at the end of the shorter slice. The status of an answer may be an error.
func (s *Seat) Run(requests []Request, answers []Answer) int {
	s.mutex.Lock()
	defer s.mutex.Unlock()
	var asked *C.likes_request
	var told *C.likes_answer
	if len(requests) > 0 {
		asked = (*C.likes_request)(unsafe.Pointer(&requests[0]))
	}
	if len(answers) > 0 {
		told = (*C.likes_answer)(unsafe.Pointer(&answers[0]))
	}
	return int(C.likes_seat_run(&s.c, asked, C.size_t(len(requests)), told, C.size_t(len(answers))))
}

// TakeFound takes the next found look, in the order of asking. False: there is none.
func (s *Seat) TakeFound() (Found, bool) {
	s.mutex.Lock()
	defer s.mutex.Unlock()
	var found Found
	isFound := C.likes_seat_take_found(&s.c, (*C.likes_found)(unsafe.Pointer(&found)))
	return found, bool(isFound)
}

// Last gives the page of a user's last like, or NoPage.
func (s *Seat) Last(user uint32) (uint32, error) {
	s.mutex.Lock()
	defer s.mutex.Unlock()
	page := C.uint32_t(NoPage)
	err := wanted(C.likes_seat_last(&s.c, C.uint32_t(user), &page), OK)
	return uint32(page), err
}

// Lasts writes the last likes of the seat's users number from, from + 1 and so on, as many as the slice has.
func (s *Seat) Lasts(from uint32, pages []uint32) error {
	s.mutex.Lock()
	defer s.mutex.Unlock()
	return wanted(C.likes_seat_lasts(&s.c, C.uint32_t(from), pagesAt(pages), C.size_t(len(pages))), OK)
}

// Turn does what the phase asks of the seat: Runs, Between or Gone.
func (s *Seat) Turn() (Status, error) {
	s.mutex.Lock()
	defer s.mutex.Unlock()
	return outcome(C.likes_seat_turn(&s.c))
}

// Retire leaves, where the seat runs a joined phase: Gone. Else it is Turn.
func (s *Seat) Retire() (Status, error) {
	s.mutex.Lock()
	defer s.mutex.Unlock()
	return outcome(C.likes_seat_retire(&s.c))
}

// ComeBack brings a seat back that is gone: Runs, or Between where the phase is ending. Of any other seat it is Turn.
func (s *Seat) ComeBack() (Status, error) {
	s.mutex.Lock()
	defer s.mutex.Unlock()
	return outcome(C.likes_seat_come_back(&s.c))
}

// Phase is the phase that the seat runs or has answered last, and 0 once it is gone.
func (s *Seat) Phase() uint64 {
	s.mutex.Lock()
	defer s.mutex.Unlock()
	return uint64(C.likes_seat_phase(&s.c))
}

func (s *Seat) free() {
	s.mutex.Lock()
	defer s.mutex.Unlock()
	C.likes_seat_free(&s.c)
}
