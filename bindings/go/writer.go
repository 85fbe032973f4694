package likes

// #include <likes_service.h>
import "C"

// Writer keeps likes in rows, and hands a row over as a whole, for likes at full speed. One goroutine calls it at a
// time.
//
// Others see a like once its row of 64 is full, by a call about a period after the row was begun, or by Flush, Look and
// Close. Without calls there is no bound in time, so a goroutine flushes before it rests. Likes of a user by one writer
// are counted in their order. A Pool flushes by itself.
type Writer struct {
	c       *C.likes_writer
	service *Service
}

// NewWriter opens a writer. It is closed before the service.
func (s *Service) NewWriter() (*Writer, error) {
	w := &Writer{service: s}
	err := s.call(0, func() error {
		s.opening.Lock()
		defer s.opening.Unlock()
		if s.gate.isShut.Load() {
			return ErrClosed
		}
		err := wanted(C.likes_writer_open(s.c, &w.c), OK)
		if err == nil {
			s.writers.Add(1)
		}
		return err
	})
	if err != nil {
		return nil, err
	}
	return w, nil
}

// Like keeps a like, which will be counted. ErrGone or ErrLikeLimit: it isn't kept, since 64 likes are kept for a seat
// that doesn't take them.
func (w *Writer) Like(user, page uint32) error {
	return wanted(C.likes_writer_like(w.c, C.uint32_t(user), C.uint32_t(page)), OK)
}

// Look hands over the likes of the user's seat and all rows with likes of the page, and looks as Service.Look does. So
// it shows all that this writer was told before. ErrGone or ErrLikeLimit: likes that it would show stay kept.
func (w *Writer) Look(user, page uint32) (Seen, error) {
	if w.c == nil {
		return Seen{}, ErrClosed
	}
	if !w.service.beginLook(nil) {
		return Seen{}, ErrHoldsSeat
	}
	defer w.service.endLook()
	var answer C.likes_answer
	C.likes_writer_look(w.c, C.uint32_t(user), C.uint32_t(page), &answer)
	return seenBy(answer)
}

// Flush hands over all likes: each is counted. ErrGone or ErrLikeLimit: those of seats that don't take them stay kept.
func (w *Writer) Flush() error {
	return wanted(C.likes_writer_flush(w.c), OK)
}

// flushSeatOf hands over the likes of the user's seat: ErrGone or ErrLikeLimit, if they stay kept.
func (w *Writer) flushSeatOf(user uint32) error {
	var answer C.likes_answer
	// No page has this number, so it shows nothing.
	told := C.likes_writer_look(w.c, C.uint32_t(user), C.uint32_t(NoPage), &answer)
	if Error(told) == ErrUnknownPage {
		return nil
	}
	return wanted(told, OK)
}

// Drop forgets the likes that are kept, and gives their number. They are not counted.
func (w *Writer) Drop() int {
	return int(C.likes_writer_drop(w.c))
}

// Close flushes the writer and ends it. Where likes stay kept, it gives the error of Flush, and the writer stays open.
// A writer that is closed already stays so, without an error.
func (w *Writer) Close() error {
	if w.c == nil {
		return nil
	}
	if err := wanted(C.likes_writer_close(w.c), OK); err != nil {
		return err
	}
	w.c = nil
	w.service.writers.Add(-1)
	return nil
}
