package likes

import (
	"sync/atomic"
	"time"
)

// gate counts the calls that have begun, so that an end waits for them. It counts in several places, each in cache
// lines of its own, so that goroutines hardly meet at one.
type gate struct {
	isShut atomic.Bool
	places [16]struct {
		calls atomic.Int64
		_     [120]byte
	}
}

// enter begins a call. False: the gate is shut.
func (g *gate) enter(number uint32) bool {
	calls := &g.places[number%uint32(len(g.places))].calls
	calls.Add(1)
	if g.isShut.Load() {
		calls.Add(-1)
		return false
	}
	return true
}

// leave ends a call.
func (g *gate) leave(number uint32) {
	g.places[number%uint32(len(g.places))].calls.Add(-1)
}

// shut keeps new calls out.
func (g *gate) shut() {
	g.isShut.Store(true)
}

// wait waits for the calls that had begun when the gate was shut.
func (g *gate) wait() {
	for i := range g.places {
		for g.places[i].calls.Load() != 0 {
			time.Sleep(50 * time.Microsecond)
		}
	}
}
