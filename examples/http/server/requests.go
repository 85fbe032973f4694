package main

import (
	"errors"
	"mime"
	"net/http"
	"net/url"
	"os"
	"strconv"

	"likeserver/names"
)

// refusal is why a request isn't done: a status of HTTP, and a line for the client.
type refusal struct {
	code int
	why  string
}

func (r refusal) Error() string {
	return r.why
}

// The refusals that have nothing to do with what is asked for.
var (
	errStarts  = refusal{http.StatusServiceUnavailable, "the server starts"}
	errBusy    = refusal{http.StatusServiceUnavailable, "too many requests at a time"}
	errUnknown = refusal{http.StatusNotFound, "unknown page"}
)

// refuse answers a request that isn't done.
func refuse(w http.ResponseWriter, r *http.Request, err error) {
	code := http.StatusInternalServerError
	var why refusal
	switch {
	case errors.As(err, &why):
		code = why.code
	case err == errEnded:
		code = http.StatusServiceUnavailable
	case err == names.ErrFull:
		code = http.StatusInsufficientStorage
	}
	if code == http.StatusServiceUnavailable {
		w.Header().Set("Retry-After", "1")
	}
	// What is left of a body isn't waited for.
	if r.ContentLength != 0 {
		w.Header().Set("Connection", "close")
	}
	http.Error(w, err.Error(), code)
}

// checkMethod refuses other methods than one. Who may get something may ask for its head.
func checkMethod(w http.ResponseWriter, r *http.Request, method string) error {
	if r.Method == method || method == http.MethodGet && r.Method == http.MethodHead {
		return nil
	}
	allowed := method
	if method == http.MethodGet {
		allowed = "GET, HEAD"
	}
	w.Header().Set("Allow", allowed)
	return refusal{http.StatusMethodNotAllowed, "the method is " + allowed}
}

// readForm reads the values of a request, from its query and from its body, which only a POST may have.
func readForm(w http.ResponseWriter, r *http.Request) (url.Values, error) {
	if r.ContentLength != 0 {
		if err := checkBody(r); err != nil {
			return nil, err
		}
		r.Body = http.MaxBytesReader(w, r.Body, mostBody)
	}
	err := r.ParseForm()
	var isLarge *http.MaxBytesError
	switch {
	case err == nil:
		return r.Form, nil
	case errors.As(err, &isLarge):
		return nil, refusal{http.StatusRequestEntityTooLarge, "the body is too large"}
	case errors.Is(err, os.ErrDeadlineExceeded):
		return nil, refusal{http.StatusRequestTimeout, "the body took too long"}
	}
	return nil, refusal{http.StatusBadRequest, "the query or the body can't be read"}
}

// checkBody refuses a body by what the head says of it.
func checkBody(r *http.Request) error {
	if r.Method != http.MethodPost {
		return refusal{http.StatusBadRequest, "only a POST has a body"}
	}
	if r.ContentLength > mostBody {
		return refusal{http.StatusRequestEntityTooLarge, "the body is too large"}
	}
	kind, _, err := mime.ParseMediaType(r.Header.Get("Content-Type"))
	if err != nil || kind != "application/x-www-form-urlencoded" {
		return refusal{http.StatusUnsupportedMediaType, "the body is application/x-www-form-urlencoded"}
	}
	return nil
}

// one gives a value that is there once.
func one(form url.Values, field string) (string, error) {
	if len(form[field]) != 1 {
		return "", refusal{http.StatusBadRequest, field + " is given once"}
	}
	return form[field][0], nil
}

// readUserAndPage reads the user and the name of a page that each request has.
func readUserAndPage(w http.ResponseWriter, r *http.Request, users uint32) (uint32, string, error) {
	form, err := readForm(w, r)
	if err != nil {
		return 0, "", err
	}
	given, err := one(form, "user")
	if err != nil {
		return 0, "", err
	}
	user, err := strconv.ParseUint(given, 10, 32)
	if err != nil || user >= uint64(users) {
		return 0, "", refusal{http.StatusBadRequest, "unknown user"}
	}
	name, err := one(form, "page")
	if err != nil {
		return 0, "", err
	}
	if err := names.Check(name); err != nil {
		return 0, "", refusal{http.StatusBadRequest, err.Error()}
	}
	return uint32(user), name, nil
}
