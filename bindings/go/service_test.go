package likes

import (
	"errors"
	"fmt"
	"os"
	"path/filepath"
	"reflect"
	"sync"
	"sync/atomic"
	"testing"
	"time"
)

const short = 200 * time.Microsecond

func start(t *testing.T, options Options, counts ...uint64) *Service {
	t.Helper()
	service, err := Open(options, counts)
	if err != nil {
		t.Fatal(err)
	}
	return service
}

func stop(t *testing.T, service *Service) *Moment {
	t.Helper()
	end, err := service.Stop()
	if err != nil {
		t.Fatal(err)
	}
	return end
}

// visit likes as users of its own, and looks at what they liked last.
func visit(service *Service, number, goroutines uint32) error {
	for i := uint32(0); i < 500; i++ {
		user, page := number+goroutines*(i%10), i%2
		if err := service.Like(user, page); err != nil {
			return err
		}
		if seen, err := service.Look(user, 0); err != nil || seen.Last != page {
			return fmt.Errorf("user %d has another last like than %d: %v, %v", user, page, seen, err)
		}
	}
	return nil
}

func TestGoroutines(t *testing.T) {
	const goroutines = 8
	service := start(t, Options{Seats: 2, Users: 80, Room: 4, Hot: NoHot, Marks: []uint32{0}, Period: short}, 0, 0)
	var all sync.WaitGroup
	for number := uint32(0); number < goroutines; number++ {
		all.Add(1)
		go func(number uint32) {
			defer all.Done()
			if err := visit(service, number, goroutines); err != nil {
				t.Error(err)
			}
		}(number)
	}
	for total, times := uint64(0), 0; times < 10; times++ {
		counts, err := service.Counts()
		if err != nil || counts[0]+counts[1] < total {
			t.Errorf("counts %v after %d: %v", counts, total, err)
		}
		total = counts[0] + counts[1]
	}
	all.Wait()
	if split, err := service.SplitPages(); err != nil || !reflect.DeepEqual(split, []uint32{0}) {
		t.Errorf("%v are split: %v", split, err)
	}
	told, err := service.Statistics()
	if err != nil || told.Likes != 4000 || told.Looks != 4000 || service.Phase() == 0 {
		t.Errorf("phase %d, %v: %v", service.Phase(), told, err)
	}
	if end := stop(t, service); !reflect.DeepEqual(end.Counts, []uint64{2000, 2000}) {
		t.Errorf("totals %v", end.Counts)
	}
}

// round has two users of two seats like page 1 and then page 2, until it is told to end.
func round(service *Service, end <-chan struct{}) error {
	for {
		for _, page := range []uint32{1, 2} {
			for user := uint32(0); user < 2; user++ {
				if err := service.Like(user, page); err != nil {
					return err
				}
			}
		}
		select {
		case <-end:
			return nil
		default:
		}
	}
}

// isMoment says whether counts and last likes can be of one moment of such rounds: a user who last liked page 1 has
// liked it once more than page 2, and all others as often.
func isMoment(m *Moment) bool {
	ones := uint64(0)
	for _, page := range m.Lasts {
		if page == 1 {
			ones++
		}
	}
	return m.Counts[0] == 0 && m.Counts[1] == m.Counts[2]+ones
}

func TestFiles(t *testing.T) {
	path := filepath.Join(t.TempDir(), "likes.saved")
	first := start(t, Options{Seats: 2, Users: 3, Room: 4}, 5, 7)
	if err := first.Like(2, 1); err != nil {
		t.Error(err)
	}
	if err := first.Save(path); err != nil {
		t.Fatal(err)
	}
	stop(t, first)
	for _, grown := range []int{0, 1} {
		users, counts, lasts := 0, []uint64{5, 8}, []uint32{NoPage, NoPage, 1}
		if grown == 1 {
			users, counts, lasts = 4, []uint64{5, 8, 0}, []uint32{NoPage, NoPage, 1, NoPage}
		}
		service, err := Load(path, Options{Users: uint32(users)}, 3*grown)
		if err != nil {
			t.Fatal(err)
		}
		if end := stop(t, service); !reflect.DeepEqual(end, &Moment{counts, lasts}) {
			t.Errorf("%v", end)
		}
	}
	if _, err := Load(path, Options{Users: 2}, 0); !errors.Is(err, ErrWrongLength) {
		t.Error(err)
	}
	if _, err := Load(path+"?", Options{}, 0); !errors.Is(err, ErrFile) || !errors.Is(err, os.ErrNotExist) {
		t.Error(err)
	}
	if err := first.Save(path); !errors.Is(err, ErrClosed) {
		t.Error(err)
	}
	// A byte 0 would cut the path.
	if _, err := Load(path+"\x00?", Options{}, 0); !errors.Is(err, ErrFile) {
		t.Error(err)
	}
	if err := first.Save(path + "\x00?"); !errors.Is(err, ErrFile) {
		t.Error(err)
	}
}

func TestSnapshots(t *testing.T) {
	service := start(t, Options{Seats: 2, Users: 2, Room: 4, Marks: []uint32{1}, Period: short}, 0, 0, 0)
	end, ended := make(chan struct{}), make(chan error)
	go func() { ended <- round(service, end) }()
	for times := 0; times < 200; times++ {
		if m, err := service.Snapshot(); err != nil || !isMoment(m) {
			t.Errorf("%v: %v", m, err)
		}
	}
	for _, m := range []*Moment{{make([]uint64, 2), make([]uint32, 2)}, {make([]uint64, 3), make([]uint32, 1)}, {}} {
		if err := service.ReadSnapshot(m); !errors.Is(err, ErrWrongLength) {
			t.Error(err)
		}
	}
	close(end)
	if err := <-ended; err != nil {
		t.Error(err)
	}
	if last := stop(t, service); last.Counts[1] != last.Counts[2] || !reflect.DeepEqual(last.Lasts, []uint32{2, 2}) {
		t.Errorf("%v", last)
	}
}

func TestGoingOn(t *testing.T) {
	first := start(t, Options{Seats: 2, Users: 3, Room: 4, Period: short}, 5, 7)
	if err := first.Like(2, 1); err != nil {
		t.Error(err)
	}
	if lasts, err := first.Lasts(); err != nil || !reflect.DeepEqual(lasts, []uint32{NoPage, NoPage, 1}) {
		t.Error(lasts, err)
	}
	end := stop(t, first)
	if !reflect.DeepEqual(end, &Moment{[]uint64{5, 8}, []uint32{NoPage, NoPage, 1}}) {
		t.Errorf("%v", end)
	}
	second := start(t, Options{Seats: 2, Users: 3, Room: 4, Lasts: end.Lasts, Period: short}, end.Counts...)
	defer second.Close()
	if seen, err := second.Look(2, 1); seen != (Seen{1, 8}) || err != nil {
		t.Error(seen, err)
	}
	if last, err := second.Last(0); last != NoPage || err != nil {
		t.Error(last, err)
	}
}

func TestProposals(t *testing.T) {
	service := start(t, Options{Seats: 2, Users: 2, Room: 4, Hot: NoHot, Period: short}, 0, 0)
	defer service.Close()
	for _, page := range []uint32{1, 0} {
		if err := service.Propose(page, 2); err != nil {
			t.Error(err)
		}
		for split, err := []uint32{}, error(nil); err == nil && !reflect.DeepEqual(split, []uint32{page}); {
			// While nobody calls, phases stand still.
			if err := service.Like(0, 0); err != nil {
				t.Fatal(err)
			}
			time.Sleep(short)
			split, err = service.SplitPages()
		}
	}
}

// What is left out has its default: a page that many like is found, and split.
func TestDefaults(t *testing.T) {
	service := start(t, Options{Users: 100}, make([]uint64, 100)...)
	defer service.Close()
	if service.Seats() < 16 {
		t.Error(service.Seats())
	}
	for {
		for user := uint32(0); user < 100; user++ {
			if err := service.Like(user, 7); err != nil {
				t.Fatal(err)
			}
		}
		if split, err := service.SplitPages(); err != nil || reflect.DeepEqual(split, []uint32{7}) {
			break
		}
	}
}

func TestDeadline(t *testing.T) {
	// With less room, looks that wait would end the phase early.
	options := Options{Seats: 1, Users: 2, Room: 64, Hot: NoHot, Marks: []uint32{0}, Period: 100 * time.Second}
	service := start(t, options, 0, 0)
	defer service.Close()
	for isSplit := false; !isSplit; isSplit = service.Phase()%2 == 1 {
		if err := service.Like(0, 1); err != nil {
			t.Fatal(err)
		}
	}
	for _, limit := range []time.Duration{-time.Second, time.Millisecond} {
		if _, err := service.LookWithin(0, 0, limit); !errors.Is(err, ErrLate) {
			t.Error(limit, err)
		}
	}
	if seen, err := service.LookWithin(0, 1, time.Second); err != nil || seen.Last != 1 {
		t.Error(seen, err)
	}
	if _, err := service.LookWithin(2, 0, time.Second); !errors.Is(err, ErrUnknownUser) {
		t.Error(err)
	}
	// Others take all places in C, so this look is late before it gets there.
	for i := 0; i < looksInC; i++ {
		service.beginLook(nil)
		defer service.endLook()
	}
	if _, err := service.LookWithin(0, 0, time.Millisecond); !errors.Is(err, ErrLate) {
		t.Error(err)
	}
	before, err := service.Statistics()
	if err != nil || before.Late != 3 {
		t.Error(before, err)
	}
	if err := service.Close(); err != nil {
		t.Error(err)
	}
	if told, err := service.Statistics(); err != nil || told.Late != 3 || told.Likes != before.Likes {
		t.Error(told, err)
	}
}

func TestWriters(t *testing.T) {
	const goroutines, each = 8, 5000
	service := start(t, Options{Seats: 4, Users: 40, Marks: []uint32{0}, Period: short}, 0, 0, 0)
	var all sync.WaitGroup
	for number := uint32(0); number < goroutines; number++ {
		all.Add(1)
		go func(number uint32) {
			defer all.Done()
			writer, err := service.NewWriter()
			if err != nil {
				t.Error(err)
				return
			}
			for i := uint32(0); i < each; i++ {
				user, page := number+goroutines*(i%5), i%3
				if err := writer.Like(user, page); err != nil {
					t.Error(err)
				}
				if i%500 == 0 {
					if seen, err := writer.Look(user, 0); err != nil || seen.Last != page {
						t.Error(seen, err)
					}
				}
			}
			if err := writer.Close(); err != nil {
				t.Error(err)
			}
		}(number)
	}
	all.Wait()
	if counts := stop(t, service).Counts; counts[0]+counts[1]+counts[2] != goroutines*each {
		t.Error(counts)
	}
}

// A look through a writer shows each like of its page that the writer was told, by whichever user, unless likes of the
// page stay kept for a seat that has left.
func TestWriterShowsWhatItWasTold(t *testing.T) {
	service := start(t, Options{Seats: 4, Users: 8, Period: 100 * time.Second}, 0, 0)
	writer, err := service.NewWriter()
	if err != nil {
		t.Fatal(err)
	}
	for user := uint32(0); user < 8; user++ {
		if err := writer.Like(user, 1); err != nil {
			t.Error(err)
		}
		if seen, err := writer.Look((user+3)%8, 1); err != nil || seen.Count != uint64(user)+1 {
			t.Error(seen, err)
		}
	}
	if err := service.RetireSeat(2); err != nil {
		t.Error(err)
	}
	if err := writer.Like(2, 1); err != nil {
		t.Error(err)
	}
	if _, err := writer.Look(0, 1); !errors.Is(err, ErrGone) {
		t.Error(err)
	}
	if seen, err := writer.Look(0, 0); err != nil || seen != (Seen{1, 0}) {
		t.Error(seen, err)
	}
	if dropped := writer.Drop(); dropped != 1 {
		t.Error(dropped)
	}
	if err := writer.Close(); err != nil {
		t.Error(err)
	}
	stop(t, service)
}

// A pool counts likes by itself, shows each user its own at once, and ends with all of them.
func TestPool(t *testing.T) {
	const goroutines, each = 32, 500
	service := start(t, Options{Seats: 8, Users: 3200, Marks: []uint32{0}, Period: short}, 0, 0, 0)
	pool, err := service.NewPool()
	if err != nil {
		t.Fatal(err)
	}
	var all sync.WaitGroup
	for number := uint32(0); number < goroutines; number++ {
		all.Add(1)
		go func(number uint32) {
			defer all.Done()
			for i := uint32(0); i < each; i++ {
				user, page := number+goroutines*(i%100), i%3
				if err := pool.Like(user, page); err != nil {
					t.Error(err)
				}
				if i%50 == 0 {
					if seen, err := pool.Look(user, 0); err != nil || seen.Last != page {
						t.Error(seen, err)
					}
				}
			}
		}(number)
	}
	all.Wait()
	for total := uint64(0); total != goroutines*each; time.Sleep(time.Millisecond) {
		counts, err := service.Counts()
		if err != nil {
			t.Fatal(err)
		}
		total = counts[0] + counts[1] + counts[2]
	}
	if _, err := service.Stop(); !errors.Is(err, ErrOpenWriter) {
		t.Error(err)
	}
	if err := pool.Like(3200, 0); !errors.Is(err, ErrUnknownUser) {
		t.Error(err)
	}
	if err := pool.Like(0, 1); err != nil {
		t.Error(err)
	}
	for times := 0; times < 2; times++ {
		if err := pool.Close(); err != nil {
			t.Error(err)
		}
	}
	if err := pool.Like(0, 1); !errors.Is(err, ErrClosed) {
		t.Error(err)
	}
	if _, err := pool.Look(0, 1); !errors.Is(err, ErrClosed) {
		t.Error(err)
	}
	if counts := stop(t, service).Counts; counts[0]+counts[1]+counts[2] != goroutines*each+1 {
		t.Error(counts)
	}
}

// Likes of a seat that has left stay kept until it is back, or are dropped.
func TestLeaving(t *testing.T) {
	service := start(t, Options{Seats: 2, Users: 4, Period: short}, 0)
	pool, err := service.NewPool()
	if err != nil {
		t.Fatal(err)
	}
	steps := []func() error{
		func() error { return service.RetireSeat(1) },
		func() error { return pool.Like(1, 0) },
		func() error { return pool.Like(2, 0) },
	}
	for _, step := range steps {
		if err := step(); err != nil {
			t.Error(err)
		}
	}
	if err := service.Like(1, 0); !errors.Is(err, ErrGone) {
		t.Error(err)
	}
	for _, end := range []func() error{pool.Flush, pool.Close} {
		if err := end(); !errors.Is(err, ErrGone) {
			t.Error(err)
		}
	}
	if seen, err := pool.Look(2, 0); seen.Count != 1 || err != nil {
		t.Error(seen, err)
	}
	if err := service.BringBackSeat(1); err != nil {
		t.Error(err)
	}
	if seen, err := pool.Look(1, 0); seen.Count != 2 || err != nil {
		t.Error(seen, err)
	}
	if err := service.RetireSeat(1); err != nil {
		t.Error(err)
	}
	if err := pool.Like(1, 0); err != nil || pool.Drop() != 1 {
		t.Error(err)
	}
	if err := pool.Close(); err != nil {
		t.Error(err)
	}
	if end := stop(t, service); end.Counts[0] != 2 {
		t.Error(end)
	}
}

// A pool's look shows all that its user was told, or is refused, while the user's seat leaves and comes back.
func TestLooksWhileASeatComesBack(t *testing.T) {
	const looks = 60000
	service := start(t, Options{Seats: 1, Users: 1, Period: short}, 0, 0)
	pool, err := service.NewPool()
	if err != nil {
		t.Fatal(err)
	}
	ended := make(chan struct{})
	go func() {
		defer close(ended)
		for i := uint32(0); i < looks; i++ {
			if err := pool.Like(0, i%2); err != nil {
				continue // 64 likes are kept
			}
			if seen, err := pool.Look(0, 0); err == nil && seen.Last != i%2 {
				t.Error(seen, i)
			} else if err != nil && !errors.Is(err, ErrGone) {
				t.Error(err)
			}
		}
	}()
	for goesOn := true; goesOn; {
		for _, err := range []error{service.RetireSeat(0), service.BringBackSeat(0)} {
			if err != nil {
				t.Error(err)
			}
		}
		select {
		case <-ended:
			goesOn = false
		default:
		}
	}
	if err := pool.Close(); err != nil {
		t.Error(err)
	}
	stop(t, service)
}

// A goroutine that holds a seat gets an error where it would wait for itself.
func TestHeld(t *testing.T) {
	service := start(t, Options{Seats: 2, Users: 4, Room: 4, Marks: []uint32{0}, Period: short}, 0, 0)
	pool, err := service.NewPool()
	if err != nil {
		t.Fatal(err)
	}
	held := service.WithSeat(0, func(seat *Held) error {
		row := []Request{{User: 0, Page: 1, Op: Like}, {User: 1, Op: Like}, {Tag: 1 << 63, Op: Look}}
		answers := make([]Answer, len(row))
		if done := seat.Run(row, answers); done != 3 || answers[0].Status != Liked {
			t.Error(done, answers)
		}
		if answers[1].Err() != ErrOtherSeat || answers[2].Err() != ErrWrongTag {
			t.Error(answers)
		}
		if _, isFound := seat.TakeFound(); isFound || seat.Run(nil, nil) != 0 {
			t.Error("there was no look")
		}
		seat.Drive()
		for user := uint32(0); user < 2; user++ {
			for _, err := range []error{service.Like(user, 0), pool.Like(user, 0), service.Propose(1)} {
				if !errors.Is(err, ErrHoldsSeat) {
					t.Error(err)
				}
			}
			if _, err := service.Look(user, 0); !errors.Is(err, ErrHoldsSeat) {
				t.Error(err)
			}
			if _, err := pool.Look(user, 0); !errors.Is(err, ErrHoldsSeat) {
				t.Error(err)
			}
		}
		drop := func(_ any, err error) error { return err }
		for i, err := range []error{
			drop(service.LookWithin(0, 0, time.Second)), drop(service.Glance(0, 0)), drop(service.Last(0)),
			drop(service.Lasts()), drop(service.Counts()), drop(service.Snapshot()), drop(service.SplitPages()),
			service.RetireSeat(1), service.BringBackSeat(1), pool.Flush(), drop(service.Stop()),
		} {
			if !errors.Is(err, ErrHoldsSeat) {
				t.Error(i, err)
			}
		}
		for _, end := range []func() error{pool.Close, service.Close} {
			if err := end(); !errors.Is(err, ErrHoldsSeat) {
				t.Error(err)
			}
		}
		return service.WithSeat(1, func(*Held) error { return nil })
	})
	if !errors.Is(held, ErrHoldsSeat) {
		t.Error(held)
	}
	if err := service.WithSeat(2, func(*Held) error { return nil }); !errors.Is(err, ErrUnknownSeat) {
		t.Error(err)
	}
	if err := pool.Close(); err != nil {
		t.Error(err)
	}
	if end := stop(t, service); end.Counts[1] != 1 {
		t.Error(end)
	}
}

// More looks wait than may wait in C at a time.
func TestManyLooks(t *testing.T) {
	service := start(t, Options{Seats: 4, Users: 1000, Marks: []uint32{0}}, 5)
	var all sync.WaitGroup
	for user := uint32(0); user < 1000; user++ {
		all.Add(1)
		go func(user uint32) {
			defer all.Done()
			if seen, err := service.Look(user, 0); err != nil || seen != (Seen{NoPage, 5}) {
				t.Error(seen, err)
			}
			if _, err := service.LookWithin(user, 0, time.Minute); err != nil {
				t.Error(err)
			}
		}(user)
	}
	all.Wait()
	if err := service.Close(); err != nil {
		t.Error(err)
	}
}

// A look that waits has its time: the end waits for it, and doesn't end its phase.
func TestClosingUnderLook(t *testing.T) {
	options := Options{Seats: 1, Users: 2, Room: 64, Hot: NoHot, Marks: []uint32{0}, Period: 100 * time.Second}
	service := start(t, options, 0, 0)
	for service.Phase()%2 == 0 {
		if err := service.Like(0, 1); err != nil {
			t.Fatal(err)
		}
	}
	looked := make(chan error)
	go func() {
		_, err := service.LookWithin(0, 0, 100*time.Millisecond)
		looked <- err
	}()
	time.Sleep(50 * time.Millisecond)
	stopped := make(chan error)
	go func() { stopped <- service.Close() }()
	if err := <-looked; !errors.Is(err, ErrLate) {
		t.Error(err)
	}
	if err := <-stopped; err != nil {
		t.Error(err)
	}
}

// A service is closed under goroutines that call it: each call is done, or is ErrClosed.
func TestClosing(t *testing.T) {
	for times := 0; times < 20; times++ {
		service := start(t, Options{Seats: 2, Users: 8, Room: 4, Marks: []uint32{0}, Period: short}, 0)
		var all sync.WaitGroup
		likes := make([]uint64, 8)
		for user := range likes {
			all.Add(1)
			go func(user uint32) {
				defer all.Done()
				for {
					switch err := service.Like(user, 0); {
					case err == nil:
						likes[user]++
					case errors.Is(err, ErrClosed):
						return
					default:
						t.Error(err)
						return
					}
					service.Look(user, 0)
				}
			}(uint32(user))
		}
		time.Sleep(time.Millisecond)
		end := stop(t, service)
		all.Wait()
		sum := uint64(0)
		for _, number := range likes {
			sum += number
		}
		if end.Counts[0] != sum {
			t.Errorf("%d likes of %d", end.Counts[0], sum)
		}
	}
}

// A Stop that is refused keeps no call out, also where a writer is opened meanwhile.
func TestRefusedStop(t *testing.T) {
	for times := 0; times < 50; times++ {
		service := start(t, Options{Seats: 2, Users: 2, Period: short}, 0)
		var begun, all sync.WaitGroup
		var isClosed atomic.Bool
		again := func(call func() error) {
			defer all.Done()
			err := call()
			begun.Done()
			for err == nil {
				err = call()
			}
			isClosed.Store(true)
		}
		begun.Add(2)
		all.Add(2)
		go again(func() error { return service.Like(0, 0) })
		go again(func() error {
			writer, err := service.NewWriter()
			if err != nil {
				return err
			}
			time.Sleep(short)
			return writer.Close()
		})
		begun.Wait()
		for _, err := service.Stop(); err != nil; _, err = service.Stop() {
			if isClosed.Load() {
				t.Error("a call was refused by an end that gave", err)
			}
		}
		all.Wait()
	}
}

// After a close, each call is an error, and nothing panics.
func TestAfterClose(t *testing.T) {
	service := start(t, Options{Users: 3}, 0)
	writer, err := service.NewWriter()
	if err != nil {
		t.Fatal(err)
	}
	if err := service.Close(); !errors.Is(err, ErrOpenWriter) {
		t.Error(err)
	}
	for _, close := range []func() error{writer.Close, writer.Close, service.Close, service.Close} {
		if err := close(); err != nil {
			t.Error(err)
		}
	}
	drop := func(_ any, err error) error { return err }
	for i, err := range []error{
		writer.Like(0, 0), writer.Flush(), drop(writer.Look(0, 0)), service.Like(0, 0), drop(service.Look(0, 0)),
		drop(service.LookWithin(0, 0, 1)), drop(service.Glance(0, 0)), drop(service.Last(0)), drop(service.Lasts()),
		drop(service.Counts()), drop(service.Snapshot()), drop(service.SplitPages()),
		service.Propose(0), service.RetireSeat(0), service.BringBackSeat(0), drop(service.NewWriter()),
		drop(service.NewPool()), drop(service.Stop()), service.WithSeat(0, func(*Held) error { return nil }),
	} {
		if !errors.Is(err, ErrClosed) {
			t.Error(i, err)
		}
	}
	service.Tick()
	if service.Phase() != 0 || writer.Drop() != 0 || ErrClosed.Error() != "closed" {
		t.Error(service.Phase(), ErrClosed)
	}
}

func TestServiceRefusals(t *testing.T) {
	for _, it := range []struct {
		options Options
		err     error
	}{
		{Options{}, ErrWrongUsers},
		{Options{Seats: 65, Users: 1}, ErrWrongSeats},
		{Options{Users: 1, Marks: []uint32{1}}, ErrWrongMarks},
		{Options{Users: 1, Hot: 1000001}, ErrWrongHot},
		{Options{Users: 1, Room: 4097}, ErrWrongRoom},
		{Options{Users: 1, Lasts: []uint32{0, 0}}, ErrWrongLasts},
		{Options{Users: 1, Period: time.Nanosecond}, ErrWrongPeriod},
		{Options{Users: 1, Period: -time.Hour}, ErrWrongPeriod},
		{Options{Users: 1, Period: time.Hour}, ErrWrongPeriod},
	} {
		if service, err := Open(it.options, []uint64{0}); !errors.Is(err, it.err) {
			t.Errorf("%v: %v", it.options, err)
			service.Close()
		}
	}
	if _, err := Open(Options{Users: 1}, nil); !errors.Is(err, ErrWrongPages) {
		t.Error(err)
	}
	service := start(t, Options{Seats: 2, Users: 3, Room: 4, Period: short}, 0)
	defer service.Close()
	if err := service.Like(3, 0); !errors.Is(err, ErrUnknownUser) {
		t.Error(err)
	}
	if _, err := service.Look(0, 1); !errors.Is(err, ErrUnknownPage) {
		t.Error(err)
	}
	if _, err := service.Glance(4, 0); !errors.Is(err, ErrUnknownUser) {
		t.Error(err)
	}
	if _, err := service.Last(3); !errors.Is(err, ErrUnknownUser) {
		t.Error(err)
	}
	if err := service.RetireSeat(2); !errors.Is(err, ErrUnknownSeat) {
		t.Error(err)
	}
}
