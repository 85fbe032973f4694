package likes

// #include <likes_service.h>
import "C"

import (
	"runtime"
	"unsafe"
)

// Held is a seat of a service that a goroutine holds, by WithSeat.
type Held struct {
	service *Service
	number  C.uint32_t
}

// WithSeat holds a seat while work runs, for rows of requests. Nobody else does the seat's phase work meanwhile, so work
// makes calls of the seat and waits for nothing. Its other calls of the service are ErrHoldsSeat, if they could wait for
// a seat. WithSeat gives the error of work, or ErrUnknownSeat.
func (s *Service) WithSeat(number uint32, work func(*Held) error) error {
	return s.call(number, func() error {
		// In C, it is a thread that holds a seat.
		runtime.LockOSThread()
		defer runtime.UnlockOSThread()
		if C.likes_service_lock(s.c, C.uint32_t(number)) == nil {
			return lockError(C.likes_service_seat_fault(s.c, C.uint32_t(number)))
		}
		defer C.likes_service_unlock(s.c, C.uint32_t(number))
		return work(&Held{s, C.uint32_t(number)})
	})
}

// Run runs requests one by one, through changes of phases, and gives the number of those done, at most as many as there
// are answers. It stops early only at a look that has no room: take found looks, Drive, and go on with that request.
// Tags of looks are below 2^63.
func (h *Held) Run(requests []Request, answers []Answer) int {
	length := len(requests)
	if len(answers) < length {
		length = len(answers)
	}
	if length == 0 {
		return 0
	}
	return int(C.likes_service_run(h.service.c, h.number, (*C.likes_request)(unsafe.Pointer(&requests[0])),
		C.size_t(length), (*C.likes_answer)(unsafe.Pointer(&answers[0]))))
}

// TakeFound takes the next found look of such a row, in the order of asking. False: there is none.
func (h *Held) TakeFound() (Found, bool) {
	var found Found
	isFound := C.likes_service_take_found(h.service.c, h.number, (*C.likes_found)(unsafe.Pointer(&found)))
	return found, bool(isFound)
}

// Drive makes a turn of the driver, so that a phase that is due ends.
func (h *Held) Drive() {
	C.likes_service_drive(h.service.c)
}
