package saved

import (
	"bufio"
	"errors"
	"fmt"
	"hash/crc32"
	"io"
	"strconv"
	"strings"
	"time"
)

// The lines of a file, here with three pages and ten users, of whom two have liked something:
//
//	likes 1
//	began 2026-01-31T12:00:00.5Z
//	pages 3
//	12 news
//	1 sport
//	0 other news
//	users 10
//	7 0
//	9 1
//	end 1a2b3c4d
//
// A page's line has its count and its name, and a user's line the user and the page of the last like, which are
// numbered from 0. The last line has the CRC-32 (IEEE) of all bytes before it. 1 is the version of the format.

const (
	first = "likes 1"
	// endLength is the length of the last line, with the end of the line.
	endLength = len("end 00000000\n")
)

var errCut = errors.New("its end is missing or damaged")

// write writes a moment.
func write(out io.Writer, m *Moment) error {
	sum := crc32.NewIEEE()
	lines := bufio.NewWriterSize(io.MultiWriter(out, sum), 1<<16)
	fmt.Fprintf(lines, "%s\nbegan %s\npages %d\n", first, m.Began.UTC().Format(time.RFC3339Nano), len(m.Names))
	var line []byte
	for page, name := range m.Names {
		line = append(strconv.AppendUint(line[:0], m.Counts[page], 10), ' ')
		lines.Write(append(append(line, name...), '\n'))
	}
	fmt.Fprintf(lines, "users %d\n", len(m.Lasts))
	for user, page := range m.Lasts {
		if page != NoPage {
			line = append(strconv.AppendUint(line[:0], uint64(user), 10), ' ')
			lines.Write(append(strconv.AppendUint(line, uint64(page), 10), '\n'))
		}
	}
	// A writer of bufio keeps its first error until here.
	if err := lines.Flush(); err != nil {
		return err
	}
	_, err := fmt.Fprintf(out, "end %08x\n", sum.Sum32())
	return err
}

// read reads the text of a file.
func read(text string) (*Moment, error) {
	text, err := whole(text)
	if err != nil {
		return nil, err
	}
	rest, m := &reader{text: text}, &Moment{}
	for _, part := range []func(*reader) error{m.readHead, m.readPages, m.readUsers} {
		if err := part(rest); err != nil {
			return nil, fmt.Errorf("line %d: %w", rest.line, err)
		}
	}
	return m, nil
}

// whole gives the text before the last line, if that line is right.
func whole(text string) (string, error) {
	if len(text) < endLength {
		return "", errCut
	}
	lines, end := text[:len(text)-endLength], text[len(text)-endLength:]
	if end != fmt.Sprintf("end %08x\n", crc32.ChecksumIEEE([]byte(lines))) {
		return "", errCut
	}
	return lines, nil
}

func (m *Moment) readHead(from *reader) error {
	if line := from.next(); line != first {
		return fmt.Errorf("%q, and not %q", line, first)
	}
	began, err := from.after("began ")
	if err != nil {
		return err
	}
	m.Began, err = time.Parse(time.RFC3339Nano, began)
	return err
}

func (m *Moment) readPages(from *reader) error {
	pages, err := from.numberAfter("pages ")
	if err != nil {
		return err
	}
	for page := uint64(0); page < pages; page++ {
		count, name, _ := strings.Cut(from.next(), " ")
		number, err := numberOf(count, MostCount)
		if err != nil {
			return err
		}
		m.Names, m.Counts = append(m.Names, name), append(m.Counts, number)
	}
	return nil
}

func (m *Moment) readUsers(from *reader) error {
	users, err := from.numberAfter("users ")
	if err != nil {
		return err
	}
	m.Lasts = noLasts(int(users))
	for next := uint64(0); from.text != ""; {
		before, after, _ := strings.Cut(from.next(), " ")
		user, err := numberOf(before, NoPage)
		if err != nil || user < next || user >= users {
			return fmt.Errorf("%q is no user, or not in turn", before)
		}
		page, err := numberOf(after, NoPage)
		if err != nil || page >= uint64(len(m.Names)) {
			return fmt.Errorf("%q is no page", after)
		}
		m.Lasts[user], next = uint32(page), user+1
	}
	return nil
}

// noLasts is what users have liked last who have liked nothing.
func noLasts(users int) []uint32 {
	lasts := make([]uint32, users)
	for user := range lasts {
		lasts[user] = NoPage
	}
	return lasts
}

// reader gives the lines of a text.
type reader struct {
	text string
	line int
}

func (r *reader) next() string {
	line, rest, _ := strings.Cut(r.text, "\n")
	r.text = rest
	r.line++
	return line
}

// after gives what is behind the word of the next line.
func (r *reader) after(word string) (string, error) {
	line := r.next()
	if !strings.HasPrefix(line, word) {
		return "", fmt.Errorf("%q does not begin with %q", line, word)
	}
	return line[len(word):], nil
}

func (r *reader) numberAfter(word string) (uint64, error) {
	text, err := r.after(word)
	if err != nil {
		return 0, err
	}
	return numberOf(text, 1<<32-1)
}

// numberOf reads a decimal number.
func numberOf(text string, most uint64) (uint64, error) {
	number, err := strconv.ParseUint(text, 10, 64)
	if err != nil || number > most {
		return 0, fmt.Errorf("%q is no number up to %d", text, most)
	}
	return number, nil
}
