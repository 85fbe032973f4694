package likes

import (
	"runtime"
	"sync"
	"sync/atomic"
	"time"
)

// Pool is writers that any goroutine may use, as in a server with a goroutine for each request. All likes of a user go
// through the same writer, and are counted in their order. The pool flushes its writers: a like is counted within about
// a period, or a millisecond if that is longer, as long as there is a processor.
type Pool struct {
	service *Service
	lanes   []lane
	isAwake atomic.Bool
	kept    chan struct{}
	end     chan struct{}
	ended   sync.WaitGroup
}

// lane is a writer with its lock, and whether it may keep likes.
type lane struct {
	mutex  sync.Mutex
	writer *Writer
	isKept bool
	_      [100]byte
}

// NewPool opens a pool. It is closed before the service.
func (s *Service) NewPool() (*Pool, error) {
	p := &Pool{service: s, kept: make(chan struct{}, 1), end: make(chan struct{})}
	wanted := 4 * runtime.GOMAXPROCS(0)
	if int(s.seats) < wanted {
		wanted = int(s.seats)
	}
	p.lanes = make([]lane, wanted)
	for i := range p.lanes {
		writer, err := s.NewWriter()
		if err != nil {
			for j := range p.lanes[:i] {
				p.lanes[j].writer.Close()
			}
			return nil, err
		}
		p.lanes[i].writer = writer
	}
	p.ended.Add(1)
	go p.flushAgain()
	return p, nil
}

// lane is that of a user: each seat has one.
func (p *Pool) lane(user uint32) *lane {
	return &p.lanes[user%p.service.seats%uint32(len(p.lanes))]
}

// with makes a call with a lane's writer, unless this goroutine holds a seat, for which the lane could wait in turn.
func (p *Pool) with(l *lane, call func(*Writer) error) error {
	if !l.mutex.TryLock() {
		isHolding := false
		if p.service.call(0, func() error { isHolding = p.service.holdsSeat(); return nil }); isHolding {
			return ErrHoldsSeat
		}
		l.mutex.Lock()
	}
	defer l.mutex.Unlock()
	return call(l.writer)
}

// Like keeps a like, as Writer.Like does.
func (p *Pool) Like(user, page uint32) error {
	l := p.lane(user)
	err := p.with(l, func(w *Writer) error {
		err := w.Like(user, page)
		l.isKept = l.isKept || err == nil
		return err
	})
	if err == nil {
		p.wake()
	}
	return err
}

// Look gives the exact count, and shows all likes of the user that the pool was told before.
func (p *Pool) Look(user, page uint32) (Seen, error) {
	// Where another seat has left, this look needn't show its likes.
	err := p.with(p.lane(user), func(w *Writer) error { return w.flushSeatOf(user) })
	if err != nil {
		return Seen{}, err
	}
	return p.service.Look(user, page)
}

// Flush hands over all likes: each is counted. Else it gives the first error of Writer.Flush.
func (p *Pool) Flush() error {
	return p.each((*Writer).Flush)
}

// Drop forgets the likes that are kept, and gives their number. They are not counted. Within WithSeat, those of a writer
// that another goroutine is using stay kept.
func (p *Pool) Drop() (dropped int) {
	p.each(func(w *Writer) error {
		dropped += w.Drop()
		return nil
	})
	return dropped
}

// Close flushes and ends the pool. Where likes stay kept, it gives the error of Flush, and the pool stays open. A pool
// that is closed already stays so, without an error.
func (p *Pool) Close() error {
	if err := p.Flush(); err == ErrClosed || err == ErrHoldsSeat {
		return ignoreClosed(err)
	}
	if err := p.closeAll(); err != nil {
		return ignoreClosed(err)
	}
	close(p.end)
	p.ended.Wait()
	return nil
}

// closeAll closes all writers, or none.
func (p *Pool) closeAll() error {
	for i := range p.lanes {
		p.lanes[i].mutex.Lock()
		defer p.lanes[i].mutex.Unlock()
	}
	for i := range p.lanes {
		if err := p.lanes[i].writer.Flush(); err != nil {
			return err
		}
	}
	for i := range p.lanes {
		p.lanes[i].writer.Close()
	}
	return nil
}

// each makes a call with each writer, and gives the first error.
func (p *Pool) each(call func(*Writer) error) (first error) {
	for i := range p.lanes {
		if err := p.with(&p.lanes[i], call); first == nil {
			first = err
		}
	}
	return first
}

// wake has the pool flush in a while.
func (p *Pool) wake() {
	if !p.isAwake.Load() && p.isAwake.CompareAndSwap(false, true) {
		p.kept <- struct{}{}
	}
}

// flushAgain is the pool's own goroutine: it flushes a while after a like came, and sleeps where none comes.
func (p *Pool) flushAgain() {
	defer p.ended.Done()
	delay := p.service.period
	if delay < time.Millisecond {
		delay = time.Millisecond
	}
	for {
		select {
		case <-p.kept:
		case <-p.end:
			return
		}
		select {
		case <-time.After(delay):
		case <-p.end:
			return
		}
		p.isAwake.Store(false)
		if p.flushKept() != nil {
			// A seat has left: its likes stay kept until it is back.
			p.wake()
		}
	}
}

// flushKept flushes the writers that may keep likes.
func (p *Pool) flushKept() (first error) {
	for i := range p.lanes {
		l := &p.lanes[i]
		err := p.with(l, func(w *Writer) error {
			if !l.isKept {
				return nil
			}
			err := w.Flush()
			l.isKept = err != nil && err != ErrClosed
			return err
		})
		if err != nil && err != ErrClosed {
			first = err
		}
	}
	return first
}
