package saved

import (
	"errors"
	"os"
	"reflect"
	"strings"
	"testing"
)

var errPlanted = errors.New("planted")

// flaky is the disk of this machine, but for one of its calls, which fails. It notes them all.
type flaky struct {
	fails int
	calls []string
}

func (f *flaky) note(call string) error {
	f.calls = append(f.calls, call)
	if len(f.calls) == f.fails {
		return errPlanted
	}
	return nil
}

func (f *flaky) create(name string) (syncedFile, error) {
	if err := f.note("create"); err != nil {
		return nil, err
	}
	file, err := system{}.create(name)
	return &flakyFile{file, f}, err
}

func (f *flaky) rename(from, to string) error {
	if err := f.note("rename"); err != nil {
		return err
	}
	return system{}.rename(from, to)
}

func (f *flaky) syncFolder(name string) error {
	if err := f.note("sync folder"); err != nil {
		return err
	}
	return system{}.syncFolder(name)
}

func (f *flaky) remove(name string) error {
	return system{}.remove(name)
}

type flakyFile struct {
	syncedFile
	of *flaky
}

func (f *flakyFile) Write(data []byte) (int, error) {
	if err := f.of.note("write"); err != nil {
		return 0, err
	}
	return f.syncedFile.Write(data)
}

func (f *flakyFile) Sync() error {
	if err := f.of.note("sync"); err != nil {
		return err
	}
	return f.syncedFile.Sync()
}

func (f *flakyFile) Close() error {
	err := f.syncedFile.Close()
	if planted := f.of.note("close"); planted != nil {
		return planted
	}
	return err
}

// counted is a moment with one page of such a count.
func counted(count uint64) *Moment {
	return &Moment{Names: []string{"news"}, Counts: []uint64{count}, Lasts: []uint32{NoPage}}
}

func opened(t *testing.T, name string) *File {
	t.Helper()
	file, err := Open(name)
	if err != nil {
		t.Fatal(err)
	}
	t.Cleanup(func() { file.Close() })
	return file
}

// has holds that the file has a moment of such a count.
func (f *File) has(t *testing.T, count uint64) {
	t.Helper()
	if m, err := f.Load(); err != nil || !reflect.DeepEqual(m.Counts, []uint64{count}) {
		t.Errorf("%v, %v, and not %d", m, err, count)
	}
}

func TestSaves(t *testing.T) {
	file := opened(t, t.TempDir()+"/counts")
	if m, err := file.Load(); err != nil || len(m.Names) != 0 {
		t.Error(m, err)
	}
	for count := uint64(0); count < 3; count++ {
		if err := file.Save(counted(count)); err != nil {
			t.Error(err)
		}
		file.has(t, count)
	}
}

// The file is on the disk before it takes the old one's place. Whichever call fails, there is the old file or the new
// one, and no other.
func TestFailures(t *testing.T) {
	folder := t.TempDir()
	file := opened(t, folder+"/counts")
	on := &flaky{}
	if err := save(on, file.name, counted(1)); err != nil {
		t.Fatal(err)
	}
	calls := []string{"create", "write", "write", "sync", "close", "rename", "sync folder"}
	if !reflect.DeepEqual(on.calls, calls) {
		t.Fatal(on.calls)
	}
	for fails, call := range calls {
		err := save(&flaky{fails: fails + 1}, file.name, counted(uint64(fails+2)))
		if err != errPlanted {
			t.Errorf("%s: %v", call, err)
		}
		if call == "sync folder" {
			file.has(t, uint64(fails+2))
		} else {
			file.has(t, 1)
		}
		if left, _ := os.ReadDir(folder); len(left) != 2 {
			t.Errorf("%s: %v", call, left)
		}
	}
}

func TestLock(t *testing.T) {
	folder := t.TempDir()
	first := opened(t, folder+"/counts")
	if err := first.Save(counted(1)); err != nil {
		t.Fatal(err)
	}
	os.Symlink("counts", folder+"/link")
	for _, name := range []string{"/counts", "/link"} {
		if second, err := Open(folder + name); err == nil || !strings.Contains(err.Error(), "another server") {
			t.Error(second, err)
		}
	}
	first.Close()
	second := opened(t, folder+"/link")
	if err := second.Save(counted(2)); err != nil {
		t.Error(err)
	}
	second.has(t, 2)
	if at, err := os.Readlink(folder + "/link"); at != "counts" {
		t.Error(at, err)
	}
}

// Links stay links, also those to a file that doesn't exist yet, and from a folder that is a link itself.
func TestLinks(t *testing.T) {
	folder := t.TempDir()
	os.MkdirAll(folder+"/disk/links", 0o700)
	links := map[string]string{
		"first": "links/second", "links": "disk/links", "disk/links/second": "../third",
		"disk/third": folder + "/disk/counts",
	}
	for name, to := range links {
		if err := os.Symlink(to, folder+"/"+name); err != nil {
			t.Fatal(err)
		}
	}
	file := opened(t, folder+"/first")
	for count := uint64(1); count < 3; count++ {
		if err := file.Save(counted(count)); err != nil {
			t.Error(err)
		}
		file.has(t, count)
	}
	for name, to := range links {
		if at, err := os.Readlink(folder + "/" + name); at != to {
			t.Error(name, at, err)
		}
	}
	if second, err := Open(folder + "/disk/counts"); err == nil || !strings.Contains(err.Error(), "another server") {
		t.Error(second, err)
	}
	file.Close()
	opened(t, folder+"/disk/counts").has(t, 2)
	os.Symlink("circle", folder+"/circle")
	if circle, err := Open(folder + "/circle"); err == nil || err.Error() != folder+"/circle: too many links" {
		t.Error(circle, err)
	}
}

func TestNoFile(t *testing.T) {
	folder := t.TempDir()
	if _, err := Open(folder + "/none/counts"); err == nil {
		t.Error("a folder that doesn't exist was taken")
	}
	os.Mkdir(folder+"/counts", 0o700)
	file := opened(t, folder+"/counts")
	if _, err := file.Load(); err == nil {
		t.Error("a folder was read")
	}
	if err := file.Save(counted(1)); err == nil {
		t.Error("a folder was replaced")
	}
	os.WriteFile(folder+"/other", []byte("name,count,split\n"), 0o600)
	if _, err := opened(t, folder+"/other").Load(); err == nil || !strings.HasPrefix(err.Error(), folder+"/other: ") {
		t.Error(err)
	}
}
