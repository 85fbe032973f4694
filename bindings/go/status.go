package likes

// #include <likes_service.h>
import "C"

// Status is an outcome of a call. In the row of a seat, an answer's may also be an error's number: Answer.Err.
type Status uint32

// The outcomes of likes.h.
const (
	OK        Status = C.LIKES_OK
	Liked     Status = C.LIKES_LIKED
	SeenNow   Status = C.LIKES_SEEN
	Waits     Status = C.LIKES_WAITS
	Runs      Status = C.LIKES_RUNS
	Between   Status = C.LIKES_BETWEEN
	NoRoom    Status = C.LIKES_NO_ROOM
	LikeLimit Status = C.LIKES_LIKE_LIMIT
	Gone      Status = C.LIKES_GONE
	GoesOn    Status = C.LIKES_GOES_ON
	Announced Status = C.LIKES_ANNOUNCED
	NotAllIn  Status = C.LIKES_NOT_ALL_IN
	Released  Status = C.LIKES_RELEASED
	Ended     Status = C.LIKES_ENDED
	Counted   Status = C.LIKES_COUNTED
	NoMoment  Status = C.LIKES_NO_MOMENT
	NotEnded  Status = C.LIKES_NOT_ENDED
	AllTaken  Status = C.LIKES_ALL_TAKEN
	Glimpsed  Status = C.LIKES_GLIMPSED
)

// Error says why a call is refused: what was asked for isn't done.
type Error uint32

// The errors of likes.h and likes_service.h.
const (
	ErrNoMemory    Error = C.LIKES_NO_MEMORY
	ErrUnknownUser Error = C.LIKES_UNKNOWN_USER
	ErrOtherSeat   Error = C.LIKES_OTHER_SEAT
	ErrUnknownPage Error = C.LIKES_UNKNOWN_PAGE
	ErrUnknownOp   Error = C.LIKES_UNKNOWN_OP
	ErrUnknownEnd  Error = C.LIKES_UNKNOWN_END
	ErrWrongRange  Error = C.LIKES_WRONG_RANGE
	ErrWrongPages  Error = C.LIKES_WRONG_PAGES
	ErrWrongMarks  Error = C.LIKES_WRONG_MARKS
	ErrWrongCount  Error = C.LIKES_WRONG_COUNT
	ErrWrongSeats  Error = C.LIKES_WRONG_SEATS
	ErrWrongUsers  Error = C.LIKES_WRONG_USERS
	ErrWrongRoom   Error = C.LIKES_WRONG_ROOM
	ErrWrongHot    Error = C.LIKES_WRONG_HOT
	ErrWrongLasts  Error = C.LIKES_WRONG_LASTS
	ErrNoThread    Error = C.LIKES_NO_THREAD
	ErrWrongPeriod Error = C.LIKES_WRONG_PERIOD
	ErrUnknownSeat Error = C.LIKES_UNKNOWN_SEAT
	ErrWrongLength Error = C.LIKES_WRONG_LENGTH
	ErrLate        Error = C.LIKES_LATE        // the look had no answer in time
	ErrHoldsSeat   Error = C.LIKES_HOLDS_SEAT  // the goroutine holds a seat, by WithSeat
	ErrOpenWriter  Error = C.LIKES_OPEN_WRITER // a writer or a pool is open
	ErrWrongTag    Error = C.LIKES_WRONG_TAG
	ErrClosed      Error = C.LIKES_NOT_STARTED // what was called is closed

	// Of Save and Load.
	ErrFile         Error = C.LIKES_FILE_FAULT    // the file can't be read or written: a FileError
	ErrNotSaved     Error = C.LIKES_NOT_SAVED     // no service has written the file
	ErrOtherVersion Error = C.LIKES_OTHER_VERSION // the file has a version that the library doesn't know
	ErrWrongSize    Error = C.LIKES_WRONG_SIZE    // the file is not whole
	ErrWrongSum     Error = C.LIKES_WRONG_SUM     // the file was changed since it was written

	// Of a service, these outcomes of its seats are errors.
	ErrNoRoom    Error = C.LIKES_NO_ROOM    // no call gives it: a row that stops has NoRoom
	ErrLikeLimit Error = C.LIKES_LIKE_LIMIT // the seat has had 2^56 likes
	ErrGone      Error = C.LIKES_GONE       // the user's seat has left
	ErrNoMoment  Error = C.LIKES_NO_MOMENT  // a seat was held for so long that nothing is of one moment
)

// String is the name of a status, for messages.
func (s Status) String() string {
	return C.GoString(C.likes_status_text(C.uint32_t(s)))
}

// Error is the text of an error, for messages.
func (e Error) Error() string {
	if e == ErrClosed {
		return "closed"
	}
	return Status(e).String()
}

// outcome splits a status: an error is returned as one. An empty handle is one that was freed.
func outcome(told C.uint32_t) (Status, error) {
	switch {
	case told == C.LIKES_EMPTY:
		return Status(told), ErrClosed
	case told >= C.LIKES_FIRST_ERROR:
		return Status(told), Error(told)
	}
	return Status(told), nil
}

// wanted gives an error unless a call was answered as it is wanted.
func wanted(told C.uint32_t, right Status) error {
	if Status(told) == right {
		return nil
	}
	if told == C.LIKES_EMPTY {
		return ErrClosed
	}
	return Error(told)
}

// lockError is why a seat can't be locked. Where nothing is wrong with it, C has no memory for the thread.
func lockError(told C.uint32_t) error {
	if told == C.LIKES_OK {
		return ErrNoMemory
	}
	return Error(told)
}

// ignoreClosed takes it for no error that something is closed already.
func ignoreClosed(err error) error {
	if err == ErrClosed {
		return nil
	}
	return err
}
