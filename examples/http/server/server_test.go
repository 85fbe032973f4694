package main

import (
	"io"
	"net/http"
	"net/http/httptest"
	"net/url"
	"strings"
	"testing"

	"likeserver/saved"
)

// started starts a counter of ten users and room for four pages.
func started(t *testing.T, from *saved.Moment) *counter {
	t.Helper()
	c, err := start(from, &options{pages: "news,sport", mostPages: 4, users: 10, seats: 2})
	if err != nil {
		t.Fatal(err)
	}
	t.Cleanup(func() {
		if !c.isEnded {
			c.end()
		}
	})
	return c
}

// serving is a server that is ready.
func serving(t *testing.T) *server {
	s := newServer(2)
	s.counter.Store(started(t, &saved.Moment{}))
	return s
}

// tell has a handler answer a request.
func (s *server) tell(r *http.Request) *httptest.ResponseRecorder {
	told := httptest.NewRecorder()
	s.handler().ServeHTTP(told, r)
	return told
}

// get is the status and the text that are answered to a GET.
func (s *server) get(target string) (int, string) {
	told := s.tell(httptest.NewRequest("GET", target, nil))
	return told.Code, told.Body.String()
}

// post is a request with a body of a kind, or without a body.
func post(target, kind, body string) *http.Request {
	var from io.Reader
	if body != "" {
		from = strings.NewReader(body)
	}
	r := httptest.NewRequest("POST", target, from)
	if kind != "" {
		r.Header.Set("Content-Type", kind)
	}
	return r
}

const form = "application/x-www-form-urlencoded"

func TestRequests(t *testing.T) {
	s := serving(t)
	for _, it := range []struct {
		r    *http.Request
		code int
	}{
		{post("/like?user=7&page=news", "", ""), 204},
		{post("/like", form, "user=7&page=news"), 204},
		{post("/like?user=7", form+"; charset=utf-8", "page=news"), 204},
		{post("/like?user=7&page=new", "", ""), 204},
		{post("/like?user=7&page=%C3%A9+%26%2F%22", "", ""), 204},
		{post("/like?user=7&page=a+fifth", "", ""), 507},
		{post("/like?user=10&page=a+sixth", "", ""), 400},
		{post("/like?user=-1&page=news", "", ""), 400},
		{post("/like?user=4294967303&page=news", "", ""), 400},
		{post("/like?user=&page=news", "", ""), 400},
		{post("/like?page=news", "", ""), 400},
		{post("/like?user=7", "", ""), 400},
		{post("/like?user=7&page=", "", ""), 400},
		{post("/like?user=7&page=a%0Ab", "", ""), 400},
		{post("/like?user=7&page=%FF", "", ""), 400},
		{post("/like?user=7&page=%zz", "", ""), 400},
		{post("/like?user=7&page="+strings.Repeat("x", 257), "", ""), 400},
		{post("/like?user=7&user=7&page=news", "", ""), 400},
		{post("/like?user=7", form, "user=7&page=news"), 400},
		{post("/like", form, "user=7&page=%zz"), 400},
		{post("/like", "", "user=7&page=news"), 415},
		{post("/like", "application/json", `{"user":7,"page":"news"}`), 415},
		{post("/like", form, "user=7&page=news&x="+strings.Repeat("x", mostBody)), 413},
		{httptest.NewRequest("GET", "/like?user=7&page=news", nil), 405},
		{httptest.NewRequest("PUT", "/like?user=7&page=news", nil), 405},
		{httptest.NewRequest("GET", "/look?user=7&page=news", nil), 200},
		{httptest.NewRequest("HEAD", "/look?user=7&page=news", nil), 200},
		{httptest.NewRequest("GET", "/look?user=7&page=none", nil), 404},
		{httptest.NewRequest("GET", "/look?user=10&page=news", nil), 400},
		{httptest.NewRequest("GET", "/look?user=7&page=news", strings.NewReader("x")), 400},
		{post("/look?user=7&page=news", "", ""), 405},
		{post("/pages", "", ""), 405},
		{httptest.NewRequest("GET", "/pages", strings.NewReader("x")), 400},
		{httptest.NewRequest("DELETE", "/metrics", nil), 405},
		{post("/healthz", "", ""), 405},
		{httptest.NewRequest("GET", "/page/news", nil), 404},
	} {
		told := s.tell(it.r)
		if told.Code != it.code {
			t.Errorf("%s %s: %d, and not %d: %s", it.r.Method, it.r.URL, told.Code, it.code, told.Body)
		}
		if allow := told.Header().Get("Allow"); (allow != "") != (it.code == 405) {
			t.Errorf("%s %s: Allow is %q", it.r.Method, it.r.URL, allow)
		}
	}
	right := "{\n\"news\": 3,\n\"sport\": 0,\n\"new\": 1,\n\"é \\u0026/\\\"\": 1\n}\n"
	if code, text := s.get("/pages"); code != 200 || text != right {
		t.Error(code, text)
	}
	right = "{\"page\":\"news\",\"count\":3,\"last\":\"é \\u0026/\\\"\"}\n"
	if _, text := s.get("/look?user=7&page=news"); text != right {
		t.Error(text)
	}
	if _, text := s.get("/look?user=0&page=sport"); text != "{\"page\":\"sport\",\"count\":0}\n" {
		t.Error(text)
	}
}

// A body whose length nobody tells is read up to the limit.
func TestLongBody(t *testing.T) {
	s := serving(t)
	for length, code := range map[int]int{100: 204, mostBody: 413} {
		r := post("/like", form, "user=7&page=news&x="+strings.Repeat("x", length))
		r.ContentLength = -1
		if told := s.tell(r); told.Code != code {
			t.Errorf("%d: %d", length, told.Code)
		}
	}
}

func TestStates(t *testing.T) {
	s := newServer(2)
	for _, it := range []struct {
		change       func()
		health, like int
		text         string
	}{
		{func() {}, 503, 503, "starting\n"},
		{func() { s.counter.Store(started(t, &saved.Moment{})) }, 200, 204, "ok\n"},
		{func() { s.stops.Store(true) }, 503, 204, "stopping\n"},
		{func() { s.counter.Load().end() }, 503, 503, "stopping\n"},
	} {
		it.change()
		if code, text := s.get("/healthz"); code != it.health || text != it.text {
			t.Errorf("%s: %d %s", it.text, code, text)
		}
		told := s.tell(post("/like?user=7&page=news", "", ""))
		if told.Code != it.like || (told.Header().Get("Retry-After") != "") != (it.like == 503) {
			t.Errorf("%s: %d %s", it.text, told.Code, told.Body)
		}
		if code, text := s.get("/metrics"); code != 200 {
			t.Errorf("%s: %d %s", it.text, code, text)
		}
	}
}

func TestInFlight(t *testing.T) {
	s := serving(t)
	like := func() int { return s.tell(post("/like?user=7&page=news", "", "")).Code }
	s.slots.take()
	if code := like(); code != 204 {
		t.Error(code)
	}
	s.slots.take()
	if code := like(); code != 503 {
		t.Error(code)
	}
	if code, text := s.get("/metrics"); code != 200 || !strings.Contains(text, "\nlikes_requests_in_flight 2\n") {
		t.Error(code, text)
	}
	s.slots.give()
	if code := like(); code != 204 {
		t.Error(code)
	}
	s.lists.take()
	s.lists.take()
	if code, _ := s.get("/pages"); code != 503 {
		t.Error(code)
	}
}

func TestMetrics(t *testing.T) {
	s := serving(t)
	for _, page := range []string{"news", "sport", "new", "", "newer", "newest"} {
		s.tell(post("/like?user=7&page="+url.QueryEscape(page), "", ""))
	}
	file, err := saved.Open(t.TempDir() + "/counts")
	if err != nil {
		t.Fatal(err)
	}
	defer file.Close()
	keeper := &saver{file, s.metrics}
	if err := s.counter.Load().moment(keeper.save); err != nil {
		t.Error(err)
	}
	code, text := s.get("/metrics")
	for _, line := range []string{
		"# TYPE likes_requests_total counter",
		`likes_requests_total{path="/like",code="204"} 4`,
		`likes_requests_total{path="/like",code="400"} 1`,
		`likes_requests_total{path="/like",code="507"} 1`,
		"likes_saves_total 1",
		"likes_save_failures_total 0",
		"likes_requests_in_flight 0",
		"likes_pages 4",
		"likes_pages_limit 4",
		"likes_split_pages 0",
	} {
		if !strings.Contains("\n"+text, "\n"+line+"\n") {
			t.Errorf("%d, without %s: %s", code, line, text)
		}
	}
}

func TestOptions(t *testing.T) {
	for words, isRight := range map[string]bool{
		"": true, "-users 4294967295 -seats 64 -most-pages 16777216 -every 1ms -in-flight 1": true, "-drain 0s": true,
		"-users 0": false, "-users 4294967296": false, "-seats 0": true, "-seats 65": false, "-most-pages 0": false,
		"-most-pages 16777217": false, "-every 0s": false, "-in-flight 0": false, "-body-timeout 0s": false,
		"-drain -1s": false, "more": false, "-more": false, "-users x": false,
	} {
		if _, err := optionsOf(strings.Fields(words)); (err == nil) != isRight {
			t.Errorf("%s: %v", words, err)
		} else if err != nil && strings.Contains(err.Error(), "\n") {
			t.Errorf("%q", err.Error())
		}
	}
}
