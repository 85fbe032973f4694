package saved

import (
	"fmt"
	"hash/crc32"
	"reflect"
	"strings"
	"testing"
	"time"
)

var example = &Moment{
	Began:  time.Date(2026, 1, 31, 12, 0, 0, 500000000, time.UTC),
	Names:  []string{"news", " sport  & more", "12 news", "é\u2028"},
	Counts: []uint64{12, 1, 0, MostCount},
	Lasts:  []uint32{NoPage, 3, NoPage, 0, NoPage},
}

const lines = `likes 1
began 2026-01-31T12:00:00.5Z
pages 4
12 news
1  sport  & more
0 12 news
1000000000000000000 é` + "\u2028" + `
users 5
1 3
3 0
`

// ended puts the last line behind others.
func ended(text string) string {
	return text + fmt.Sprintf("end %08x\n", crc32.ChecksumIEEE([]byte(text)))
}

func text(t *testing.T, m *Moment) string {
	t.Helper()
	var out strings.Builder
	if err := write(&out, m); err != nil {
		t.Fatal(err)
	}
	return out.String()
}

func TestFormat(t *testing.T) {
	if written := text(t, example); written != ended(lines) {
		t.Error(written)
	}
	least := &Moment{Names: []string{"a"}, Counts: []uint64{0}, Lasts: []uint32{0}}
	for _, m := range []*Moment{example, least, {Lasts: []uint32{}}} {
		back, err := read(text(t, m))
		if err != nil || !back.Began.Equal(m.Began) {
			t.Fatal(back, err)
		}
		back.Began = m.Began
		if !reflect.DeepEqual(back, m) {
			t.Errorf("%v, and not %v", back, m)
		}
	}
}

// No part of a file is taken for one, nor one with another byte, nor one with more behind it.
func TestDamage(t *testing.T) {
	right := ended(lines)
	for length := range right {
		if m, err := read(right[:length]); err == nil {
			t.Errorf("%d bytes: %v", length, m)
		}
	}
	for at := range []byte(right) {
		for _, flip := range []byte{1, 32, 128} {
			wrong := []byte(right)
			wrong[at] ^= flip
			if m, err := read(string(wrong)); err == nil {
				t.Errorf("byte %d: %v", at, m)
			}
		}
	}
	for _, more := range []string{"\n", right} {
		if m, err := read(right + more); err == nil {
			t.Error(m)
		}
	}
}

// Lines that somebody wrote by hand, with a right end.
func TestWrongLines(t *testing.T) {
	for _, it := range []struct{ old, new, line string }{
		{"likes 1", "likes 2", "line 1:"},
		{"began 2026", "began at 2026", "line 2:"},
		{"began", "begun", "line 2:"},
		{"pages 4", "pages 5", "line 8:"},
		{"pages 4", "pages 3", "line 7:"},
		{"pages 4", "pages -1", "line 3:"},
		{"pages 4", "pages 4294967296", "line 3:"},
		{"12 news\n1 ", "12 news\n-1 ", "line 5:"},
		{"000 é", "001 é", "line 7:"},
		{"users 5", "users 3", "line 10:"},
		{"users 5", "users 0", "line 9:"},
		{"users 5\n", "", "line 8:"},
		{"1 3", "1 4", "line 9:"},
		{"1 3", "1", "line 9:"},
		{"1 3", "1 3 0", "line 9:"},
		{"1 3", "3 3", "line 10:"},
		{"3 0", "1 0", "line 10:"},
		{"3 0\n", "\n", "line 10:"},
	} {
		if !strings.Contains(lines, it.old) {
			t.Fatal(it.old)
		}
		_, err := read(ended(strings.Replace(lines, it.old, it.new, 1)))
		if err == nil || !strings.HasPrefix(err.Error(), it.line) {
			t.Errorf("%q in place of %q: %v", it.new, it.old, err)
		}
	}
}
