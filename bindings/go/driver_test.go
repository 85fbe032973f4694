package likes

import (
	"errors"
	"reflect"
	"sync"
	"testing"
)

// two is a service of two seats, page 0 marked and page 1 not.
type two struct {
	*testing.T
	driver *Driver
	seats  [2]*Seat
}

func open(t *testing.T) *two {
	driver, err := OpenDriver(Options{Seats: 2, Users: 4, Room: 2, Hot: NoHot, Marks: []uint32{0}}, []uint64{10, 0})
	if err != nil {
		t.Fatal(err)
	}
	t.Cleanup(func() { driver.Close() })
	return &two{t, driver, [2]*Seat{driver.TakeSeat(), driver.TakeSeat()}}
}

// is holds that a call was answered by this status.
func (it *two) is(right Status) func(Status, error) {
	it.Helper()
	return func(status Status, err error) {
		it.Helper()
		if status != right || err != nil {
			it.Errorf("%v, %v, and not %v", status, err, right)
		}
	}
}

// fails holds that a call gave this error.
func (it *two) fails(right error) func(Status, error) {
	it.Helper()
	return func(_ Status, err error) {
		it.Helper()
		if !errors.Is(err, right) {
			it.Errorf("%v, and not %v", err, right)
		}
	}
}

// shows holds that a look was answered so.
func (it *two) shows(last uint32, count uint64) func(Seen, Status, error) {
	it.Helper()
	return it.tells(SeenNow, last, count)
}

// glimpses holds that a glance at a split page was answered so.
func (it *two) glimpses(last uint32, count uint64) func(Seen, Status, error) {
	it.Helper()
	return it.tells(Glimpsed, last, count)
}

func (it *two) tells(right Status, last uint32, count uint64) func(Seen, Status, error) {
	it.Helper()
	return func(seen Seen, status Status, err error) {
		it.Helper()
		if seen != (Seen{last, count}) || status != right || err != nil {
			it.Errorf("%v, %v, %v, and not %v, %v", seen, status, err, Seen{last, count}, right)
		}
	}
}

// waits holds that a look was answered by a status alone.
func (it *two) waits(right Status) func(Seen, Status, error) {
	it.Helper()
	return func(_ Seen, status Status, err error) {
		it.Helper()
		it.is(right)(status, err)
	}
}

func (it *two) same(is, right any) {
	it.Helper()
	if !reflect.DeepEqual(is, right) {
		it.Errorf("%v, and not %v", is, right)
	}
}

func (it *two) changePhase() {
	it.Helper()
	it.is(Announced)(it.driver.Turn(EndIfItServes))
	for _, seat := range it.seats {
		it.is(Between)(seat.Turn())
	}
	it.is(Released)(it.driver.Turn(NoEnd))
}

func TestThreePhases(t *testing.T) {
	it := open(t)
	first, second := it.seats[0], it.seats[1]
	it.is(Liked)(first.Like(0, 0))
	it.shows(0, 11)(first.Look(0, 0, 1))
	it.changePhase()
	it.is(Liked)(first.Like(0, 0))
	it.is(Liked)(first.Like(2, 0))
	it.is(Liked)(second.Like(1, 0))
	it.waits(Waits)(first.Look(0, 0, 7))
	it.glimpses(0, 13)(first.Glance(0, 0))
	it.glimpses(NoPage, 12)(second.Glance(3, 0))
	it.shows(0, 0)(first.Glance(0, 1))
	it.shows(0, 0)(first.Look(0, 1, 8))
	it.same(first.Phase(), uint64(1))
	it.changePhase()
	it.same(it.driver.Phase(), uint64(2))
	it.is(Liked)(first.Like(0, 1))
	found, isFound := first.TakeFound()
	it.same(isFound, true)
	it.same(found, Found{Tag: 7, Count: 14, Asked: 1, Ran: 2})
	_, isFound = first.TakeFound()
	it.same(isFound, false)
}

func TestRefusals(t *testing.T) {
	it := open(t)
	first := it.seats[0]
	it.fails(ErrUnknownUser)(first.Like(4, 0))
	_, _, err := first.Look(1, 0, 0)
	it.same(err, ErrOtherSeat)
	_, _, err = first.Glance(0, 2)
	it.same(err, ErrUnknownPage)
	it.fails(ErrUnknownEnd)(it.driver.Turn(3))
	it.fails(ErrWrongRange)(it.driver.Snapshot(1, make([]uint64, 2)))
	it.fails(ErrWrongRange)(it.driver.LastCounts(3, nil))
	_, err = first.Last(4)
	it.same(err, ErrUnknownUser)
	it.same(first.Lasts(1, make([]uint32, 2)), ErrWrongRange)
	it.same(it.driver.TakeSeat(), (*Seat)(nil))
	_, err = OpenDriver(Options{Seats: 65, Users: 1, Room: 1}, []uint64{0})
	it.same(err, ErrWrongSeats)
	_, err = OpenDriver(Options{Seats: 1, Users: 1, Room: 1, Lasts: []uint32{1}}, []uint64{0})
	it.same(err, ErrWrongLasts)
	it.same(ErrUnknownUser.Error(), "unknown user")
}

func TestRows(t *testing.T) {
	it := open(t)
	it.changePhase()
	row := []Request{{User: 2, Page: 1, Op: Like}, {User: 2, Page: 9, Op: Glance}, {Op: 3}}
	row = append(row, Request{Tag: 5, Op: Look}, Request{Tag: 6, Op: Look}, Request{Tag: 7, Op: Look})
	answers := make([]Answer, len(row))
	it.same(it.seats[0].Run(row, nil), 0)
	it.same(it.seats[0].Run(row, answers), 5)
	for i, right := range []Status{Liked, OK, OK, Waits, Waits, NoRoom} {
		if right != OK {
			it.same(answers[i].Status, right)
		}
	}
	for i, right := range []error{nil, ErrUnknownPage, ErrUnknownOp, nil} {
		it.same(answers[i].Err(), right)
	}
}

func TestSnapshot(t *testing.T) {
	it := open(t)
	counts, pages := make([]uint64, 2), make([]uint32, 2)
	it.is(Liked)(it.seats[1].Like(3, 1))
	it.is(NoMoment)(it.driver.Snapshot(0, counts))
	it.is(Announced)(it.driver.Turn(EndNow))
	it.is(Between)(it.seats[0].Turn())
	it.is(NotAllIn)(it.driver.Turn(NoEnd))
	it.is(Between)(it.seats[1].Turn())
	it.is(Counted)(it.driver.Snapshot(0, counts[:1]))
	it.is(Counted)(it.driver.Snapshot(1, counts[1:]))
	it.same(it.seats[1].Lasts(0, pages), nil)
	it.same(counts, []uint64{10, 1})
	it.same(pages, []uint32{NoPage, 1})
}

func TestSplitPages(t *testing.T) {
	it := open(t)
	it.same(it.driver.Propose(1, 1, 2), nil)
	for changes := 0; changes < 2; changes++ {
		it.changePhase()
		it.same(it.driver.SplitPages(make([]uint32, MaxSplit)), []uint32{0})
	}
	it.changePhase()
	it.same(len(it.driver.SplitPages(make([]uint32, MaxSplit))), 2)
	it.same(it.driver.SplitPages(nil), []uint32(nil))
	it.same(it.driver.Propose(), nil)
	phase := it.driver.TakePhase()
	it.same(phase.Now(), uint64(3))
	it.same(it.driver.TakePhase(), (*Phase)(nil))
}

func TestLastCounts(t *testing.T) {
	it := open(t)
	counts := make([]uint64, 2)
	it.is(Liked)(it.seats[0].Like(2, 1))
	it.is(NotEnded)(it.driver.LastCounts(0, counts))
	for _, seat := range it.seats {
		it.is(Gone)(seat.Retire())
	}
	it.is(Gone)(it.seats[0].Like(2, 1))
	it.is(Counted)(it.driver.LastCounts(0, counts))
	it.is(Ended)(it.driver.Turn(NoEnd))
	it.same(counts, []uint64{10, 1})
	it.same(it.driver.Close(), nil)
	it.same(it.driver.Close(), nil)
	it.fails(ErrClosed)(it.seats[0].Turn())
	it.fails(ErrClosed)(it.driver.Turn(NoEnd))
}

func TestComeBack(t *testing.T) {
	it := open(t)
	counts := make([]uint64, 2)
	it.is(Runs)(it.seats[0].ComeBack())
	it.is(Gone)(it.seats[0].Retire())
	it.is(Runs)(it.seats[0].ComeBack())
	it.is(Liked)(it.seats[0].Like(2, 1))
	for _, seat := range it.seats {
		it.is(Gone)(seat.Retire())
	}
	it.is(Counted)(it.driver.LastCounts(0, counts))
	it.same(counts, []uint64{10, 1})
	it.is(Between)(it.seats[0].ComeBack())
}

func TestGoroutinesAtOneSeat(t *testing.T) {
	it := open(t)
	var all sync.WaitGroup
	for i := 0; i < 4; i++ {
		all.Add(1)
		go func() {
			defer all.Done()
			for i := 0; i < 2000; i++ {
				it.is(Liked)(it.seats[0].Like(0, 1))
			}
		}()
	}
	all.Wait()
	it.shows(1, 8000)(it.seats[0].Look(0, 1, 0))
}
