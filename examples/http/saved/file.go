package saved

import (
	"errors"
	"fmt"
	"io"
	"os"
	"path/filepath"
	"syscall"
)

// File is a file with a moment that only this server uses, until it is closed.
type File struct {
	name string
	lock *os.File
}

// Open keeps other servers off a file, which need not exist yet. It makes NAME.lock, which stays.
func Open(name string) (*File, error) {
	name, err := followed(name)
	if err != nil {
		return nil, err
	}
	lock, err := os.OpenFile(name+".lock", os.O_RDWR|os.O_CREATE, 0o600)
	if err != nil {
		return nil, err
	}
	err = syscall.Flock(int(lock.Fd()), syscall.LOCK_EX|syscall.LOCK_NB)
	if errors.Is(err, syscall.EWOULDBLOCK) {
		err = errors.New("another server uses it")
	}
	if err != nil {
		lock.Close()
		return nil, fmt.Errorf("%s: %w", name, err)
	}
	return &File{name, lock}, nil
}

// mostLinks is how many links lead to a file at most, as in Linux.
const mostLinks = 40

// followed is the file that a name leads to, which need not exist yet. A save takes that file's place, so links stay
// links.
func followed(name string) (string, error) {
	for links := 0; links <= mostLinks; links++ {
		to, err := os.Readlink(name)
		if err != nil {
			// It is no link. If its folder can't be read, the lock can't be made either.
			return name, nil
		}
		if !filepath.IsAbs(to) {
			// Not by Join, which takes "folder/.." away: the folder may be a link.
			folder, _ := filepath.Split(name)
			to = folder + to
		}
		name = to
	}
	return "", fmt.Errorf("%s: too many links", name)
}

// Close lets another server have the file.
func (f *File) Close() error {
	return f.lock.Close()
}

// Load reads the file. One that doesn't exist is a moment at which nothing was known.
func (f *File) Load() (*Moment, error) {
	text, err := os.ReadFile(f.name)
	if errors.Is(err, os.ErrNotExist) {
		return &Moment{}, nil
	}
	if err != nil {
		return nil, err
	}
	m, err := read(string(text))
	if err != nil {
		return nil, fmt.Errorf("%s: %w", f.name, err)
	}
	return m, nil
}

// Save writes a moment to NAME.tmp in the same folder, and lets that take the file's place once it is on the disk. So
// there is the old file or the new one at any time, whenever the server or the machine stops.
func (f *File) Save(m *Moment) error {
	return save(system{}, f.name, m)
}

// disk is what a save asks of the system.
type disk interface {
	create(name string) (syncedFile, error)
	rename(from, to string) error
	syncFolder(name string) error
	remove(name string) error
}

// syncedFile is a file that can be brought to the disk.
type syncedFile interface {
	io.WriteCloser
	Sync() error
}

func save(on disk, name string, m *Moment) error {
	part := name + ".tmp"
	err := fill(on, part, m)
	if err == nil {
		err = on.rename(part, name)
	}
	if err != nil {
		on.remove(part)
		return err
	}
	return on.syncFolder(filepath.Dir(name))
}

// fill writes a file, and brings it to the disk.
func fill(on disk, name string, m *Moment) error {
	file, err := on.create(name)
	if err != nil {
		return err
	}
	err = write(file, m)
	if err == nil {
		err = file.Sync()
	}
	if closed := file.Close(); err == nil {
		err = closed
	}
	return err
}

// system is the disk of this machine.
type system struct{}

func (system) create(name string) (syncedFile, error) {
	return os.OpenFile(name, os.O_WRONLY|os.O_CREATE|os.O_TRUNC, 0o600)
}

func (system) rename(from, to string) error {
	return os.Rename(from, to)
}

func (system) syncFolder(name string) error {
	folder, err := os.Open(name)
	if err != nil {
		return err
	}
	defer folder.Close()
	return folder.Sync()
}

func (system) remove(name string) error {
	return os.Remove(name)
}
