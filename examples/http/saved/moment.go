// Package saved keeps what a server knows in a file, from which it can go on.
package saved

import (
	"math"
	"time"
)

// NoPage stands in place of the last like of a user who has liked nothing.
const NoPage = math.MaxUint32

// MostCount is the largest count with which a page can begin.
const MostCount = 1000000000000000000

// Moment is what a server knows at one moment: its pages' names and counts, by page number, and the page of each user's
// last like, by user number.
type Moment struct {
	Began  time.Time // when the server began to save it: it has all likes that were answered before
	Names  []string
	Counts []uint64
	Lasts  []uint32
}

// Likes is the sum of all counts.
func (m *Moment) Likes() uint64 {
	var sum uint64
	for _, count := range m.Counts {
		sum += count
	}
	return sum
}
