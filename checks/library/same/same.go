// Makes the calls that README.md draws, by the package likes, and prints what each answers.
package main

import (
	"bufio"
	"fmt"
	"math"
	"os"
	"strings"
	"time"

	"likes"
)

const (
	services       = 300
	calls          = 400
	sharedServices = 100
	sharedCalls    = 100
)

var (
	state uint64 = 1
	out          = bufio.NewWriter(os.Stdout)
)

func next() uint64 {
	state = state*6364136223846793005 + 1442695040888963407
	return state
}

func draw(below uint32) uint32 {
	drawn := uint32(next() >> 33)
	if below == 0 {
		return 0
	}
	return drawn % below
}

func rarely() bool {
	return draw(32) == 0
}

func drawPage(pages uint32) uint32 {
	if rarely() {
		return pages + draw(3)
	}
	return draw(pages)
}

// pick gives one of two numbers, which are drawn only if they are picked.
func pick(isFirst bool, first, second func() uint32) uint32 {
	if isFirst {
		return first()
	}
	return second()
}

func fixed(number uint32) func() uint32 {
	return func() uint32 { return number }
}

func lastText(last uint32) string {
	if last == likes.NoPage {
		return "-"
	}
	return fmt.Sprint(last)
}

// statusText is an outcome, or the error in its place.
func statusText(status likes.Status, err error) string {
	if err != nil {
		return err.Error()
	}
	return status.String()
}

func isShown(status likes.Status) bool {
	return status == likes.SeenNow || status == likes.Glimpsed
}

func seenText(seen likes.Seen, status likes.Status, err error) string {
	if err != nil {
		return err.Error()
	}
	if !isShown(status) {
		return status.String()
	}
	return fmt.Sprintf("%v %s %d", status, lastText(seen.Last), seen.Count)
}

func lastsText(lasts []uint32, err error) string {
	if err != nil {
		return err.Error()
	}
	words := []string{"ok"}
	for _, last := range lasts {
		words = append(words, lastText(last))
	}
	return strings.Join(words, " ")
}

func countsText(counts []uint64, status likes.Status, err error) string {
	text := statusText(status, err)
	for i := 0; status == likes.Counted && i < len(counts); i++ {
		text += fmt.Sprintf(" %d", counts[i])
	}
	return text
}

// taken says whether a seat or the phase was handed out.
func taken(isTaken bool) likes.Status {
	if isTaken {
		return likes.OK
	}
	return likes.AllTaken
}

// service is a service with its seats.
type service struct {
	driver              *likes.Driver
	phase               *likes.Phase
	seats               []*likes.Seat
	users, pages, total uint32
}

func (it *service) takeAll() {
	for i := uint32(0); i <= it.total; i++ {
		seat := it.driver.TakeSeat()
		fmt.Fprintln(out, "seat", taken(seat != nil))
		if seat != nil {
			it.seats = append(it.seats, seat)
		}
	}
	it.phase = it.driver.TakePhase()
	fmt.Fprintln(out, "phase", taken(it.phase != nil))
	fmt.Fprintln(out, "phase", taken(it.driver.TakePhase() != nil))
}

func (it *service) user(number uint32) uint32 {
	if rarely() {
		return pick(draw(2) == 0, func() uint32 { return it.users + draw(3) }, fixed(math.MaxUint32))
	}
	user := draw(it.users)
	if draw(8) == 0 {
		return user
	}
	return user - user%it.total + number
}

func (it *service) likeOrLook(number, kind uint32) {
	seat, user := it.seats[number], it.user(number)
	page := drawPage(it.pages)
	switch {
	case kind < 6:
		fmt.Fprintln(out, "like", statusText(seat.Like(user, page)))
	case kind < 8:
		fmt.Fprintln(out, "look", seenText(seat.Look(user, page, next())))
	default:
		fmt.Fprintln(out, "glance", seenText(seat.Glance(user, page)))
	}
}

func (it *service) run(number uint32) {
	row := make([]likes.Request, draw(5))
	for i := range row {
		row[i] = likes.Request{Tag: uint64(i), Op: likes.Op(draw(3))}
		row[i].User = it.user(number)
		row[i].Page = drawPage(it.pages)
	}
	answers := make([]likes.Answer, len(row))
	done := it.seats[number].Run(row, answers)
	told := []string{}
	for i := 0; i < len(row) && i <= done; i++ {
		seen := likes.Seen{Last: answers[i].Last, Count: answers[i].Count}
		told = append(told, seenText(seen, answers[i].Status, answers[i].Err()))
	}
	fmt.Fprintln(out, strings.TrimRight("run "+strings.Join(told, ", "), " "))
}

func (it *service) found(seat *likes.Seat) {
	found, isFound := seat.TakeFound()
	if !isFound {
		fmt.Fprintln(out, "none")
		return
	}
	fmt.Fprint(out, "found ", found.Tag, " ", found.Count, " ", found.Asked, " ", found.Ran)
	fmt.Fprintln(out, "", found.User, found.Page, lastText(found.Last))
}

func (it *service) lasts(number, from, length uint32) {
	lasts := make([]uint32, length)
	err := it.seats[number].Lasts(from, lasts)
	fmt.Fprintln(out, "lasts", lastsText(lasts, err))
}

func (it *service) someLasts(number uint32, isOne bool) {
	if isOne {
		last, err := it.seats[number].Last(it.user(number))
		fmt.Fprintln(out, "lasts", lastsText([]uint32{last}, err))
		return
	}
	from := draw(5)
	it.lasts(number, from, draw(5))
}

func (it *service) counts(isSnapshot bool, from, length uint32) {
	counts := make([]uint64, length)
	if isSnapshot {
		status, err := it.driver.Snapshot(from, counts)
		fmt.Fprintln(out, "snapshot", countsText(counts, status, err))
	} else {
		status, err := it.driver.LastCounts(from, counts)
		fmt.Fprintln(out, "counts", countsText(counts, status, err))
	}
}

func (it *service) propose() {
	pages := make([]uint32, draw(3))
	for i := range pages {
		pages[i] = drawPage(it.pages)
	}
	fmt.Fprintln(out, "propose", lastsText(nil, it.driver.Propose(pages...)))
}

func (it *service) splitPages() {
	text := "split"
	for _, page := range it.driver.SplitPages(make([]uint32, draw(4))) {
		text += fmt.Sprint(" ", page)
	}
	fmt.Fprintln(out, text)
}

// other makes one of the calls that come less often.
func (it *service) other(seat *likes.Seat) {
	switch draw(7) {
	case 0:
		it.propose()
	case 1:
		it.splitPages()
	case 2:
		fmt.Fprintln(out, "phase", seat.Phase())
	case 3:
		fmt.Fprintln(out, "phase", it.driver.Phase())
	case 4:
		fmt.Fprintln(out, "phase", it.phase.Now())
	case 5:
		it.mayRetire(seat)
	default:
		status, _ := seat.ComeBack()
		fmt.Fprintln(out, "come back", status)
	}
}

func (it *service) mayRetire(seat *likes.Seat) {
	if draw(4) != 0 {
		fmt.Fprintln(out)
		return
	}
	status, _ := seat.Retire()
	fmt.Fprintln(out, "retire", status)
}

func (it *service) call() {
	number, kind := draw(it.total), draw(20)
	seat := it.seats[number]
	switch {
	case kind < 9:
		it.likeOrLook(number, kind)
	case kind == 9:
		it.run(number)
	case kind == 10:
		it.found(seat)
	case kind < 13:
		it.someLasts(number, kind == 11)
	case kind < 15:
		fmt.Fprintln(out, "turn", statusText(seat.Turn()))
	case kind < 17:
		fmt.Fprintln(out, "driver", statusText(it.driver.Turn(likes.End(draw(3)))))
	case kind < 19:
		from := draw(it.pages + 1)
		it.counts(kind == 17, from, draw(it.pages+1))
	default:
		it.other(seat)
	}
}

func (it *service) end() {
	for status := likes.GoesOn; status != likes.Ended; {
		for _, seat := range it.seats {
			status, _ := seat.Retire()
			fmt.Fprintln(out, "retire", status)
		}
		status, _ = it.driver.Turn(likes.EndIfItServes)
		fmt.Fprintln(out, "driver", status)
	}
	it.counts(false, 0, it.pages)
	for number := uint32(0); number < it.total; number++ {
		it.lasts(number, 0, (it.users+it.total-1-number)/it.total)
	}
	it.driver.Close()
}

// drawOpening draws what a service is opened with.
func drawOpening() (options likes.Options, counts []uint64) {
	pages := pick(rarely(), fixed(0), func() uint32 { return 1 + draw(6) })
	counts = make([]uint64, pages)
	for i := range counts {
		counts[i] = uint64(draw(100))
	}
	if rarely() && pages > 0 {
		counts[0] = 1000000000000000001
	}
	options.Seats = pick(rarely(), func() uint32 { return 65 + draw(2) }, func() uint32 { return 1 + draw(3) })
	options.Users = pick(rarely(), fixed(0), func() uint32 { return 1 + draw(12) })
	options.Room = pick(rarely(), fixed(4097), func() uint32 { return 1 + draw(3) })
	options.Hot = pick(rarely(), fixed(1000001), func() uint32 { return [2]uint32{likes.NoHot, 512}[draw(2)] })
	options.Marks = make([]uint32, draw(3))
	for i := range options.Marks {
		options.Marks[i] = drawPage(pages)
	}
	if draw(3) != 0 {
		options.Lasts = make([]uint32, options.Users+pick(rarely(), fixed(1), fixed(0)))
	}
	for i := range options.Lasts {
		options.Lasts[i] = pick(draw(2) == 0, fixed(likes.NoPage), func() uint32 { return drawPage(pages) })
	}
	return options, counts
}

// shared is a service that goroutines share.
type shared struct {
	service      *likes.Service
	users, pages uint32
}

func (it *shared) user() uint32 {
	if rarely() {
		return pick(draw(2) == 0, func() uint32 { return it.users + draw(3) }, fixed(math.MaxUint32))
	}
	return draw(it.users)
}

// tell prints what a call answers, or why it is refused.
func tell(name, text string, err error) {
	if err != nil {
		text = " " + err.Error()
	}
	fmt.Fprintln(out, name+text)
}

// done prints that a call is done, or why it is refused.
func done(name string, err error) {
	tell(name, " ok", err)
}

// listed is numbers, each behind a space.
func listed(numbers []uint64) (text string) {
	for _, number := range numbers {
		text += fmt.Sprint(" ", number)
	}
	return text
}

func listedLasts(lasts []uint32) (text string) {
	for _, last := range lasts {
		text += " " + lastText(last)
	}
	return text
}

func tellMoment(name string, m *likes.Moment, err error) {
	text := ""
	if err == nil {
		text = listed(m.Counts) + listedLasts(m.Lasts)
	}
	tell(name, text, err)
}

func tellSeen(name string, seen likes.Seen, err error) {
	tell(name, fmt.Sprint(" ", lastText(seen.Last), " ", seen.Count), err)
}

func (it *shared) likeOrLook(kind uint32) {
	user := it.user()
	page := drawPage(it.pages)
	switch {
	case kind < 4:
		done("like", it.service.Like(user, page))
	case kind == 4:
		seen, err := it.service.Look(user, page)
		tellSeen("look", seen, err)
	case kind == 5:
		seen, err := it.service.LookWithin(user, page, 10*time.Second)
		tellSeen("within", seen, err)
	default:
		shown, err := it.service.Glance(user, page)
		tell("glance", " "+lastText(shown.Last), err)
	}
}

func (it *shared) tellAll(kind uint32) {
	switch kind {
	case 7:
		last, err := it.service.Last(it.user())
		tell("last", " "+lastText(last), err)
	case 8:
		lasts, err := it.service.Lasts()
		tell("lasts", listedLasts(lasts), err)
	case 9:
		counts, err := it.service.Counts()
		tell("counts", listed(counts), err)
	default:
		m, err := it.service.Snapshot()
		tellMoment("snapshot", m, err)
	}
}

func (it *shared) write() {
	writer, err := it.service.NewWriter()
	if err != nil {
		panic(err)
	}
	for i, length := uint32(0), draw(100); i < length; i++ {
		user := it.user()
		if err := writer.Like(user, drawPage(it.pages)); err != nil {
			fmt.Fprintln(out, "kept", err)
		}
	}
	user := it.user()
	seen, err := writer.Look(user, drawPage(it.pages))
	tell("shown", " "+lastText(seen.Last), err)
	done("flush", writer.Flush())
	_, err = it.service.Stop()
	done("stop", err)
	done("close", writer.Close())
}

func (it *shared) propose() {
	pages := make([]uint32, draw(3))
	for i := range pages {
		pages[i] = drawPage(it.pages)
	}
	done("propose", it.service.Propose(pages...))
}

func (it *shared) run() {
	number := draw(it.service.Seats())
	row := make([]likes.Request, draw(5))
	for i := range row {
		row[i].Op = likes.Op(pick(draw(2) == 0, fixed(uint32(likes.Like)), fixed(uint32(likes.Glance))))
		row[i].User = it.user()
		row[i].Page = drawPage(it.pages)
	}
	answers := make([]likes.Answer, len(row))
	err := it.service.WithSeat(number, func(seat *likes.Held) error {
		seat.Run(row, answers)
		return nil
	})
	for _, answer := range answers {
		if isShown(answer.Status) {
			tell("row", " "+lastText(answer.Last), err)
		} else {
			done("row", answer.Err())
		}
	}
}

func (it *shared) leave() {
	number := draw(it.service.Seats() + 1)
	done("retire", it.service.RetireSeat(number))
	done("like", it.service.Like(0, 0))
	done("back", it.service.BringBackSeat(number))
}

func (it *shared) tellStatistics() {
	told, err := it.service.Statistics()
	tell("statistics", fmt.Sprint(" ", told.Likes, " ", told.Looks), err)
}

func (it *shared) call() {
	kind := draw(16)
	switch {
	case kind < 7:
		it.likeOrLook(kind)
	case kind < 11:
		it.tellAll(kind)
	case kind == 11:
		it.write()
	case kind == 12:
		it.propose()
	case kind == 13:
		it.run()
	case kind == 14:
		it.leave()
	default:
		it.tellStatistics()
	}
}

func openAndCallShared() {
	counts := make([]uint64, 1+draw(6))
	for i := range counts {
		counts[i] = uint64(draw(100))
	}
	options := likes.Options{Seats: 1 + draw(3), Hot: likes.NoHot, Period: 200 * time.Microsecond}
	options.Users = 1 + draw(12)
	options.Marks = make([]uint32, draw(2))
	service, err := likes.Open(options, counts)
	done("share", err)
	it := &shared{service, options.Users, uint32(len(counts))}
	for i := 0; i < sharedCalls; i++ {
		it.call()
	}
	m, err := service.Stop()
	tellMoment("stop", m, err)
	it.tellStatistics()
}

func main() {
	defer out.Flush()
	for i := 0; i < services; i++ {
		options, counts := drawOpening()
		driver, err := likes.OpenDriver(options, counts)
		if err != nil {
			fmt.Fprintln(out, "open", err)
			continue
		}
		fmt.Fprintln(out, "open ok")
		it := &service{driver: driver, users: options.Users, pages: uint32(len(counts)), total: options.Seats}
		it.takeAll()
		for j := 0; j < calls; j++ {
			it.call()
		}
		it.end()
	}
	for i := 0; i < sharedServices; i++ {
		openAndCallShared()
	}
}
