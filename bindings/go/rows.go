package likes

// #include <likes.h>
import "C"

import "unsafe"

// NoPage stands in place of the last like of a user who has liked nothing.
const NoPage = C.LIKES_NO_PAGE

// MaxSplit is how many pages are split at a time.
const MaxSplit = C.LIKES_MAX_SPLIT

// Op is what is asked for in a request.
type Op uint32

// The operations.
const (
	Like   Op = C.LIKES_LIKE
	Look   Op = C.LIKES_LOOK
	Glance Op = C.LIKES_GLANCE
)

// Request is a request of a row. The tag of a look comes back when it is found.
type Request struct {
	Tag        uint64
	User, Page uint32
	Op         Op
	_          uint32
}

// Answer is the answer to a request of a row. Of SeenNow and Glimpsed it has what the look shows.
type Answer struct {
	Count  uint64
	Last   uint32
	Status Status
}

// Err is why a request of a row was refused, or nil.
func (a Answer) Err() error {
	_, err := outcome(C.uint32_t(a.Status))
	return err
}

// Found is a look that had to wait, with the phases in which it was asked and in which it ran.
type Found struct {
	Tag, Count, Asked, Ran uint64
	User, Page, Last       uint32
	_                      uint32
}

// Seen is what a look shows: the page of the user's last like, and the count of the page looked at.
type Seen struct {
	Last  uint32
	Count uint64
}

// Shown is what a glance shows. If its count isn't exact, the page is split: it may lack other seats' likes of the
// present phase.
type Shown struct {
	Seen
	IsExact bool
}

// seenIn is what an answer shows, if it shows anything.
func seenIn(answer C.likes_answer) Seen {
	return Seen{Last: uint32(answer.last), Count: uint64(answer.count)}
}

// seenBy is what a look of a service shows, or why it shows nothing.
func seenBy(answer C.likes_answer) (Seen, error) {
	return seenIn(answer), wanted(answer.status, SeenNow)
}

// shownBy is the same of a glance.
func shownBy(answer C.likes_answer) (Shown, error) {
	if Status(answer.status) == Glimpsed {
		return Shown{Seen: seenIn(answer)}, nil
	}
	seen, err := seenBy(answer)
	return Shown{Seen: seen, IsExact: err == nil}, err
}

// Rows are handed to C as they are.
var (
	_ = [unsafe.Sizeof(C.likes_request{})]byte([unsafe.Sizeof(Request{})]byte{})
	_ = [unsafe.Sizeof(C.likes_answer{})]byte([unsafe.Sizeof(Answer{})]byte{})
	_ = [unsafe.Sizeof(C.likes_found{})]byte([unsafe.Sizeof(Found{})]byte{})
)

// pagesAt is where a slice of pages begins, and NULL for an empty one.
func pagesAt(pages []uint32) *C.uint32_t {
	if len(pages) == 0 {
		return nil
	}
	return (*C.uint32_t)(unsafe.Pointer(&pages[0]))
}

// countsAt is the same for counts.
func countsAt(counts []uint64) *C.uint64_t {
	if len(counts) == 0 {
		return nil
	}
	return (*C.uint64_t)(unsafe.Pointer(&counts[0]))
}
