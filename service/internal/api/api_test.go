package api

import (
	"bytes"
	"context"
	"encoding/hex"
	"encoding/json"
	"fmt"
	"io"
	"net/http"
	"net/http/httptest"
	"net/url"
	"sort"
	"strings"
	"testing"
	"time"

	"github.com/getkin/kin-openapi/openapi3"
	"github.com/getkin/kin-openapi/openapi3filter"
	"github.com/getkin/kin-openapi/routers"
	"github.com/getkin/kin-openapi/routers/legacy"
	"github.com/gorilla/mux"

	"mlscheckd/internal/events"
	"mlscheckd/internal/follow"
	"mlscheckd/internal/follow/followtest"
	"mlscheckd/internal/groups"
	"mlscheckd/internal/metrics"
	"mlscheckd/internal/store"
	"mlscheckd/internal/store/storetest"
	"mlscheckd/internal/wire"
)

// a client sends requests to an API, and has each answer checked against openapi.yaml.
type client struct {
	*testing.T
	api     *API
	service *groups.Service
	lines   *bytes.Buffer
	router  routers.Router
}

func described3(t *testing.T) *openapi3.T {
	t.Helper()
	doc, err := openapi3.NewLoader().LoadFromData(description)
	if err != nil {
		t.Fatal(err)
	}
	if err := doc.Validate(context.Background()); err != nil {
		t.Fatal(err)
	}
	return doc
}

func open(t *testing.T, db groups.Store, library follow.Library, limits Limits, own groups.Limits) client {
	router, err := legacy.NewRouter(described3(t))
	if err != nil {
		t.Fatal(err)
	}
	var lines bytes.Buffer
	log, m := events.New(&lines), metrics.New()
	limits.Time, own.Store = 5*time.Minute, 5*time.Minute // the machine may be busy
	service := groups.New(db, library, own, m, log)
	t.Cleanup(service.Close)
	page := func(w http.ResponseWriter, r *http.Request) { io.WriteString(w, "page") }
	a := New(service, limits, m, log, map[string]http.HandlerFunc{"/": page, "/group/{name}": page})
	return client{t, a, service, &lines, router}
}

// each runs a test over both stores.
func each(t *testing.T, test func(t *testing.T, c client)) {
	storetest.Each(t, func(t *testing.T, name string) {
		test(t, open(t, storetest.Open(t, name), &followtest.Library{}, DefaultLimits, groups.DefaultLimits))
	})
}

// an answer is what came of a request.
type answer struct {
	client
	*httptest.ResponseRecorder
}

func (c client) send(method, path string, body []byte, headers ...string) answer {
	c.Helper()
	r := httptest.NewRequest(method, path, bytes.NewReader(body))
	r.Header.Set("Content-Type", "application/octet-stream")
	for i := 0; i < len(headers); i += 2 {
		r.Header.Set(headers[i], headers[i+1])
	}
	w := httptest.NewRecorder()
	c.api.ServeHTTP(w, r)
	c.described(method, path, w)
	return answer{c, w}
}

// described checks an answer against openapi.yaml. That of a path or a method that there is not is a failure.
func (c client) described(method, path string, w *httptest.ResponseRecorder) {
	c.Helper()
	bare, _, _ := strings.Cut(path, "?")
	plain := httptest.NewRequest(method, "/", nil)
	plain.URL = &url.URL{Path: bare} // the validator reads no escapes
	route, params, err := c.router.FindRoute(plain)
	if err != nil || route == nil {
		route, params, err = c.router.FindRoute(&http.Request{Method: "GET", URL: &url.URL{Path: "/v1/groups/g"}})
	}
	if err != nil {
		c.Fatal(method, path, err)
	}
	in := &openapi3filter.ResponseValidationInput{
		RequestValidationInput: &openapi3filter.RequestValidationInput{Request: plain, PathParams: params, Route: route},
		Status:                 w.Code,
		Header:                 w.Header(),
		Options:                &openapi3filter.Options{IncludeResponseStatus: true},
	}
	if kind := w.Header().Get("Content-Type"); kind != "application/json" {
		in.Options.ExcludeResponseBody = true
	}
	in.SetBodyBytes(w.Body.Bytes())
	if err := openapi3filter.ValidateResponse(context.Background(), in); err != nil {
		c.Fatal(method, path, w.Code, w.Body, err)
	}
}

// is expects a status, and returns the JSON of the answer.
func (a answer) is(status int) map[string]any {
	a.Helper()
	if a.Code != status {
		a.Fatal(a.Code, a.Body)
	}
	var value map[string]any
	if err := json.Unmarshal(a.Body.Bytes(), &value); err != nil {
		a.Fatal(err, a.Body)
	}
	return value
}

// fails expects a failure.
func (a answer) fails(status int, code string) {
	a.Helper()
	if got := a.is(status)["error"]; got != code {
		a.Fatal(got, a.Body)
	}
	if (a.Header().Get("Retry-After") != "") != (status == http.StatusServiceUnavailable) {
		a.Fatal(a.Header())
	}
}

func (c client) start(name string, members ...string) {
	c.Helper()
	info, tree := followtest.Info(name, 1), followtest.Tree(members...)
	c.send("PUT", fmt.Sprintf("/v1/groups/%s?tree=%d", url.PathEscape(name), len(tree)), append(info, tree...)).is(http.StatusCreated)
}

var alice = followtest.Member(0, "alice")

func commit(group string, epoch uint64, list ...[]byte) []byte {
	return followtest.Commit(group, epoch, alice, "", list...)
}

// The paths and methods of openapi.yaml are those of the program, but for the pages.
func TestRoutes(t *testing.T) {
	each(t, func(t *testing.T, c client) {
		var want, got []string
		for path, item := range described3(t).Paths {
			for method := range item.Operations() {
				want = append(want, method+" "+path)
			}
		}
		c.api.router.Walk(func(route *mux.Route, _ *mux.Router, _ []*mux.Route) error {
			path, err := route.GetPathTemplate()
			if err != nil {
				t.Fatal(err)
			}
			methods, _ := route.GetMethods()
			for _, method := range methods {
				if method != "HEAD" && path != "/" && path != "/group/{name}" {
					got = append(got, method+" "+path)
				}
			}
			return nil
		})
		sort.Strings(want)
		sort.Strings(got)
		if strings.Join(got, "\n") != strings.Join(want, "\n") {
			t.Fatalf("%q\n%q", got, want)
		}
		if served := c.send("GET", "/openapi.yaml", nil); served.Code != 200 || !bytes.Equal(served.Body.Bytes(), description) {
			t.Fatal(served.Code)
		}
	})
}

// Each request once, with what it answers.
func TestRequests(t *testing.T) {
	each(t, func(t *testing.T, c client) {
		c.start("g", "alice", "bob")
		info, tree := followtest.Info("g", 1), followtest.Tree("alice", "bob")
		again := c.send("PUT", fmt.Sprintf("/v1/groups/g?tree=%d", len(tree)), append(info, tree...)).is(200)
		if again["name"] != "g" || again["profile"] != "members" || len(again["rules"].([]any)) != 13 || again["lifetimes"] != "checked" {
			t.Fatal(again)
		}
		add := followtest.Proposal("g", 1, alice, "", followtest.Add("carol"))
		first := c.send("POST", "/v1/groups/g/handshakes", add).is(200)
		if first["verdict"] != "accepted" || first["sequence"] != 1.0 || first["kind"] != "proposal" || first["repeated"] != nil {
			t.Fatal(first)
		}
		repeated := c.send("POST", "/v1/groups/g/handshakes", add).is(200)
		if repeated["repeated"] != true {
			t.Fatal(repeated)
		}
		delete(repeated, "repeated")
		if fmt.Sprint(repeated) != fmt.Sprint(first) {
			t.Fatal(repeated, first)
		}
		refused := c.send("POST", "/v1/groups/g/handshakes", followtest.Forged(add)).is(200)
		if refused["verdict"] != "refused" || refused["rule"] != 7.0 || refused["name"] != "BadSignature" || refused["section"] != "6.1, 12.1.8, 12.4.3.2" {
			t.Fatal(refused)
		}
		batch := wire.AppendVector(wire.AppendVector(nil, commit("g", 1, followtest.ByReference(followtest.Reference(add)))), commit("g", 1))
		answers := c.send("POST", "/v1/groups/g/batch", batch).is(200)
		if list := answers["answers"].([]any); len(list) != 2 || list[0].(map[string]any)["verdict"] != "accepted" || list[1].(map[string]any)["rule"] != 4.0 {
			t.Fatal(answers)
		}
		c.send("POST", "/v1/groups/g/handshakes", commit("g", 2)).is(200)
		if g := c.send("POST", "/v1/groups/g/undo?sequence=3", nil).is(200); g["sequence"] != 4.0 || g["epoch"] != 2.0 || g["members"] != 3.0 {
			t.Fatal(g)
		}
		if u := c.send("POST", "/v1/groups/g/handshakes", commit("g", 2)).is(200); u["verdict"] != "undone" || u["sequence"] != 4.0 {
			t.Fatal(u)
		}
		if g := c.send("POST", "/v1/groups/g/confirm?epoch=2", nil).is(200); g["confirmed"] != 2.0 {
			t.Fatal(g)
		}
		c.send("POST", "/v1/groups/g/undo?sequence=2", nil).fails(409, "confirmed")
		rows := c.send("GET", "/v1/groups/g/handshakes", nil).is(200)["handshakes"].([]any)
		if len(rows) != 4 || rows[2].(map[string]any)["undone_by"] != 4.0 || rows[3].(map[string]any)["kind"] != "undo" {
			t.Fatal(rows)
		}
		if rows := c.send("GET", "/v1/groups/g/handshakes?after=1&limit=1", nil).is(200)["handshakes"].([]any); len(rows) != 1 {
			t.Fatal(rows)
		}
		members := c.send("GET", "/v1/groups/g/members", nil).is(200)["members"].([]any)
		if m := members[2].(map[string]any); len(members) != 3 || m["leaf"] != 2.0 || m["identity"] != "Y2Fyb2w=" || m["credential"] != "basic" {
			t.Fatal(members)
		}
		for path, want := range map[string][]byte{"info": info, "info-tree": tree, "tree": followtest.Tree("alice", "bob", "carol")} {
			if got := c.send("GET", "/v1/groups/g/"+path, nil); got.Code != 200 || !bytes.Equal(got.Body.Bytes(), want) {
				t.Fatal(path, got.Code)
			}
		}
		if log := c.send("GET", "/v1/groups/g/log", nil); log.Header().Get(SequenceHeader) != "4" {
			t.Fatal(log.Header())
		} else if messages, ok := wire.Vectors(log.Body.Bytes()); !ok || len(messages) != 2 || !bytes.Equal(messages[0], add) {
			t.Fatal(log.Body)
		}
		if log := c.send("GET", "/v1/groups/g/log?until=1", nil); log.Body.Len() != len(add)+2 {
			t.Fatal(log.Body.Len())
		}
		// Three of the start, two of the Add, one of each commit, that of the refused one among them: its signature is good.
		receipts := strings.Fields(c.send("GET", "/v1/groups/g/receipts", nil).Body.String())
		if digits, err := hex.DecodeString(receipts[0]); len(receipts) != 3+2+3 || err != nil || len(digits) != 32 {
			t.Fatal(receipts)
		}
		if state := c.send("GET", "/v1/groups/g/state", nil); state.Code != 200 || state.Header().Get(SequenceHeader) != "4" || state.Body.Len() == 0 {
			t.Fatal(state.Code)
		}
		for end := time.Now().Add(time.Minute); ; time.Sleep(time.Millisecond) {
			if list := c.send("GET", "/v1/groups/g/refusals?limit=5", nil).is(200)["refusals"].([]any); len(list) == 2 {
				break
			} else if time.Now().After(end) {
				t.Fatal(list)
			}
		}
		c.start("h", "alice")
		if list := c.send("GET", "/v1/groups?after=g", nil).is(200)["groups"].([]any); len(list) != 1 {
			t.Fatal(list)
		}
		c.send("GET", "/v1/groups/h", nil).is(200)
		for path, text := range map[string]string{"/healthz": "ok\n", "/readyz": "ready\n"} {
			if got := c.send("GET", path, nil).Body.String(); got != text {
				t.Fatal(got)
			}
		}
		shown := c.send("GET", "/metrics", nil).Body.String()
		for _, line := range []string{`mlscheckd_verdicts_total{name="BadSignature",rule="7"} 1`, `mlscheckd_verdicts_total{name="accepted",rule="0"} 3`,
			`mlscheckd_undos_total 1`, `mlscheckd_repeats_total 1`, `mlscheckd_phase_seconds_count{phase="store"} 3`} {
			if !strings.Contains(shown, line+"\n") {
				t.Error(line)
			}
		}
	})
}

func TestOptions(t *testing.T) {
	each(t, func(t *testing.T, c client) {
		tree := followtest.Tree("alice")
		body := append(followtest.Info("g", 1), tree...)
		path := func(name, more string) string { return fmt.Sprintf("/v1/groups/%s?tree=%d%s", name, len(tree), more) }
		plain := c.send("PUT", path("plain", "&rules=plain&profile=full&lifetimes=ignored"), body).is(201)
		if len(plain["rules"].([]any)) != 0 || plain["profile"] != "full" || plain["lifetimes"] != "ignored" {
			t.Fatal(plain)
		}
		some := c.send("PUT", path("some", "&allow=47,46"), body).is(201)
		if fmt.Sprint(some["rules"]) != "[40 41 42 43 44 45 48 49 50 51 52]" {
			t.Fatal(some)
		}
		c.send("PUT", path("some", ""), body).fails(409, "other_start")
		for _, wrong := range []string{"&rules=some", "&profile=none", "&lifetimes=1", "&allow=53", "&allow=x", "&allow=-1"} {
			c.send("PUT", path("other", wrong), body).fails(400, "parameter")
		}
		for _, count := range []string{"-1", "x", "99999999999999999999", fmt.Sprint(len(body) + 1)} {
			c.send("PUT", "/v1/groups/other?tree="+count, body).fails(400, "parameter")
		}
		c.send("GET", "/v1/groups/some/info-tree", nil)
		c.send("GET", "/v1/groups/other", nil).fails(404, "no_group")
	})
}

// What is wrong with a request is said as JSON, and there is no verdict.
func TestBadRequests(t *testing.T) {
	each(t, func(t *testing.T, c client) {
		c.start("g", "alice")
		long := make([]byte, DefaultLimits.Message+1)
		for _, test := range []struct {
			method, path string
			body         []byte
			status       int
			code         string
		}{
			{"POST", "/v1/groups/none/handshakes", commit("g", 1), 404, "no_group"},
			{"POST", "/v1/groups/none/handshakes", nil, 400, "empty"},
			{"POST", "/v1/groups/g/handshakes", nil, 400, "empty"},
			{"POST", "/v1/groups/g/handshakes", long, 413, "limit"},
			{"POST", "/v1/groups/g/batch", nil, 400, "empty"},
			{"POST", "/v1/groups/g/batch", []byte{5}, 400, "batch"},
			{"POST", "/v1/groups/g/batch", []byte{0xc0}, 400, "batch"},
			{"POST", "/v1/groups/g/batch", make([]byte, 1001), 413, "limit"},
			{"POST", "/v1/groups/none/batch", []byte{0}, 404, "no_group"},
			{"PUT", "/v1/groups/h", nil, 400, "empty"},
			{"PUT", "/v1/groups/g", followtest.Info("g", 1), 409, "other_start"},
			{"POST", "/v1/groups/g/undo", nil, 400, "parameter"},
			{"POST", "/v1/groups/g/undo?sequence=x", nil, 400, "parameter"},
			{"POST", "/v1/groups/g/undo?sequence=-1", nil, 400, "parameter"},
			{"POST", "/v1/groups/g/undo?sequence=9223372036854775808", nil, 400, "parameter"},
			{"POST", "/v1/groups/g/undo?sequence=1", nil, 409, "no_commit"},
			{"POST", "/v1/groups/none/undo?sequence=1", nil, 404, "no_group"},
			{"POST", "/v1/groups/g/confirm", nil, 400, "parameter"},
			{"POST", "/v1/groups/g/confirm?epoch=2", nil, 409, "no_commit"},
			{"POST", "/v1/groups/g/confirm?epoch=18446744073709551616", nil, 400, "parameter"},
			{"POST", "/v1/groups/none/confirm?epoch=1", nil, 404, "no_group"},
			{"GET", "/v1/groups?limit=1001", nil, 400, "parameter"},
			{"GET", "/v1/groups?after=%ff", nil, 400, "parameter"},
			{"GET", "/v1/groups?after=%00", nil, 400, "parameter"},
			{"GET", "/v1/groups/g/handshakes?after=x", nil, 400, "parameter"},
			{"GET", "/v1/groups/g/handshakes?limit=-1", nil, 400, "parameter"},
			{"GET", "/v1/groups/g/refusals?limit=101", nil, 400, "parameter"},
			{"GET", "/v1/groups/g/log?until=x", nil, 400, "parameter"},
			{"GET", "/v1/groups/none", nil, 404, "no_group"},
			{"GET", "/v1/groups/none/state", nil, 404, "no_group"},
			{"GET", "/v1/groups/none/log", nil, 404, "no_group"},
			{"GET", "/v1/groups/none/refusals", nil, 404, "no_group"},
			{"GET", "/v1/groups/none/handshakes", nil, 404, "no_group"},
			{"GET", "/v1/groups/" + strings.Repeat("n", 256), nil, 400, "name"},
			{"GET", "/v1/groups/%00", nil, 400, "name"},
			{"GET", "/v1/groups/%ff", nil, 400, "name"},
			{"GET", "/v1/groups/a%0ab", nil, 400, "name"},
			{"GET", "/v1/groups/%2e%2e", nil, 400, "name"},
			{"GET", "/v1/groups/.", nil, 400, "name"},
			{"GET", "/v1/groups/", nil, 404, "no_path"},
			{"GET", "/v1/groups//state", nil, 404, "no_path"},
			{"GET", "/v1/groups/g/nothing", nil, 404, "no_path"},
			{"GET", "/v2/groups", nil, 404, "no_path"},
			{"GET", "/v1/groups/g/state/", nil, 404, "no_path"},
			{"POST", "/v1/groups/g/state", nil, 405, "method"},
			{"DELETE", "/v1/groups/g", nil, 405, "method"},
			{"PUT", "/v1/groups", nil, 405, "method"},
			{"PATCH", "/healthz", nil, 405, "method"},
		} {
			a := c.send(test.method, test.path, test.body)
			a.fails(test.status, test.code)
			if a.Header().Get("Content-Type") != "application/json" {
				t.Error(test, a.Header())
			}
		}
		if allow := c.send("DELETE", "/v1/groups/g", nil).Header().Get("Allow"); allow != "GET, HEAD, PUT" {
			t.Error(allow)
		}
		refused := c.send("PUT", "/v1/groups/h", []byte("no GroupInfo")).is(422)
		if refused["error"] != "start_refused" || refused["number"] != 106.0 || refused["name"] != "InfoUnreadable" || refused["words"] == "" {
			t.Fatal(refused)
		}
		if g := c.send("GET", "/v1/groups/g", nil).is(200); g["sequence"] != 0.0 {
			t.Fatal(g)
		}
	})
}

// A name may have any printable characters.
func TestNames(t *testing.T) {
	each(t, func(t *testing.T, c client) {
		for _, name := range []string{"a b", "a/b", "..//..", "'; DROP TABLE groups; --", "<script>alert(1)</script>", "%2f", "?x=1#y", "ü🙂",
			"\u202egroup", strings.Repeat("n", 255)} {
			c.start(name, "alice")
			path := "/v1/groups/" + url.PathEscape(name)
			if g := c.send("GET", path, nil).is(200); g["name"] != name {
				t.Fatal(g)
			}
			if a := c.send("POST", path+"/handshakes", commit(name, 1)).is(200); a["verdict"] != "accepted" {
				t.Fatal(a)
			}
		}
		for _, line := range strings.Split(strings.TrimSpace(c.lines.String()), "\n") {
			if !json.Valid([]byte(line)) {
				t.Error(line)
			}
		}
	})
}

// Senders outside the group need the header.
func TestOutside(t *testing.T) {
	each(t, func(t *testing.T, c client) {
		tree := followtest.Tree("alice")
		c.send("PUT", fmt.Sprintf("/v1/groups/g?profile=full&tree=%d", len(tree)), append(followtest.Info("g", 1), tree...)).is(201)
		m := followtest.Proposal("g", 1, followtest.Sender{Kind: follow.SenderNewMemberProposal, Name: "outside 3"}, "", followtest.Add("bob"))
		for _, value := range []string{"", "Outside", "members", "outside, outside"} {
			c.send("POST", "/v1/groups/g/handshakes", m, AllowHeader, value).fails(403, "outside")
			c.send("POST", "/v1/groups/g/batch", wire.AppendVector(nil, m), AllowHeader, value).fails(403, "outside")
		}
		twice := httptest.NewRequest("POST", "/v1/groups/g/handshakes", bytes.NewReader(m))
		twice.Header[AllowHeader] = []string{"outside", "members"}
		w := httptest.NewRecorder()
		c.api.ServeHTTP(w, twice)
		answer{c, w}.fails(403, "outside")
		if a := c.send("POST", "/v1/groups/g/handshakes", m, AllowHeader, "outside").is(200); a["verdict"] != "accepted" {
			t.Fatal(a)
		}
	})
}

// A page of another site in the browser of an operator changes nothing.
func TestOtherSite(t *testing.T) {
	each(t, func(t *testing.T, c client) {
		c.start("g", "alice")
		c.send("POST", "/v1/groups/g/handshakes", commit("g", 1), "Sec-Fetch-Site", "cross-site").fails(403, "other_site")
		c.send("POST", "/v1/groups/g/handshakes", commit("g", 1), "Sec-Fetch-Site", "same-origin").is(200)
		c.send("GET", "/v1/groups/g", nil, "Sec-Fetch-Site", "cross-site").is(200)
	})
}

// unavailable is a store that does not answer.
type unavailable struct {
	*store.Store
	err *error
}

func (u unavailable) Append(ctx context.Context, g store.Group, r store.Row) error {
	if *u.err != nil {
		return *u.err
	}
	return u.Store.Append(ctx, g, r)
}

func (u unavailable) Ping(ctx context.Context) error { return *u.err }

// A batch ends at the first message without a verdict, and says why.
func TestBatchEnds(t *testing.T) {
	storetest.Each(t, func(t *testing.T, name string) {
		var fault error
		c := open(t, unavailable{storetest.Open(t, name), &fault}, &followtest.Library{}, DefaultLimits, groups.DefaultLimits)
		c.start("g", "alice")
		outside := followtest.Proposal("g", 2, followtest.Sender{Kind: follow.SenderNewMemberProposal, Name: "outside 3"}, "",
			followtest.Add("bob"))
		first, last := wire.AppendVector(nil, commit("g", 1)), wire.AppendVector(nil, commit("g", 2))
		batch := append(wire.AppendVector(first, outside), last...)
		a := c.send("POST", "/v1/groups/g/batch", batch).is(200)
		if len(a["answers"].([]any)) != 1 || a["messages"] != 3.0 || a["error"] != "outside" {
			t.Fatal(a)
		}
		if strings.Contains(c.lines.String(), "fault") {
			t.Fatal(c.lines)
		}
		fault = fmt.Errorf("the store is away")
		a = c.send("POST", "/v1/groups/g/batch", append(first[:len(first):len(first)], last...)).is(200)
		if len(a["answers"].([]any)) != 1 || a["error"] != "fault" || !strings.Contains(c.lines.String(), "the store is away") {
			t.Fatal(a, c.lines)
		}
		fault = nil
		a = c.send("POST", "/v1/groups/g/batch", last).is(200)
		if list := a["answers"].([]any); len(list) != 1 || list[0].(map[string]any)["sequence"] != 2.0 || a["error"] != nil {
			t.Fatal(a)
		}
	})
}

// A request whose client has gone is no fault.
func TestGone(t *testing.T) {
	each(t, func(t *testing.T, c client) {
		c.start("g", "alice")
		gone, cancel := context.WithCancel(context.Background())
		cancel()
		w := httptest.NewRecorder()
		c.api.ServeHTTP(w, httptest.NewRequest("POST", "/v1/groups/g/handshakes", bytes.NewReader(commit("g", 1))).WithContext(gone))
		if w.Code != 503 || strings.Contains(c.lines.String(), "fault") {
			t.Fatal(w.Code, c.lines)
		}
		if g := c.send("GET", "/v1/groups/g", nil).is(200); g["sequence"] != 0.0 {
			t.Fatal(g)
		}
	})
}

// A fault is no verdict, and says nothing of the store to the client.
func TestFault(t *testing.T) {
	storetest.Each(t, func(t *testing.T, name string) {
		var fault error
		c := open(t, unavailable{storetest.Open(t, name), &fault}, &followtest.Library{}, DefaultLimits, groups.DefaultLimits)
		c.start("g", "alice")
		fault = fmt.Errorf("password of the store")
		a := c.send("POST", "/v1/groups/g/handshakes", commit("g", 1))
		a.fails(503, "fault")
		if strings.Contains(a.Body.String(), "password") || !strings.Contains(c.lines.String(), "password") {
			t.Fatal(a.Body, c.lines)
		}
		c.send("GET", "/readyz", nil).fails(503, "store")
		fault = nil
		if a := c.send("POST", "/v1/groups/g/handshakes", commit("g", 1)).is(200); a["repeated"] != nil || a["sequence"] != 1.0 {
			t.Fatal(a)
		}
		c.api.Stop()
		c.send("GET", "/readyz", nil).fails(503, "stopping")
		c.send("GET", "/v1/groups/g", nil).is(200)
	})
}

// newer is a library that resumes from no stored state.
type newer struct{ *followtest.Library }

func (newer) ResumeQuery([]byte, []follow.Receipt) ([]follow.Signature, error) {
	return nil, follow.Refused{Number: 3}
}

func (newer) Resume(follow.Profile, []byte, []follow.Receipt) (follow.Group, error) {
	return nil, follow.Refused{Number: 3}
}

// A stored state that the library refuses is a fault, which the log names, and no refused start.
func TestNotResumed(t *testing.T) {
	storetest.Each(t, func(t *testing.T, name string) {
		c := open(t, storetest.Open(t, name), newer{&followtest.Library{}}, DefaultLimits, groups.DefaultLimits)
		c.start("g", "alice")
		c.send("POST", "/v1/groups/g/handshakes", commit("g", 1)).fails(503, "fault")
		c.send("GET", "/v1/groups/g/state", nil).fails(503, "fault")
		if !strings.Contains(c.lines.String(), "is not resumed: refused 3") {
			t.Fatal(c.lines)
		}
		c.send("GET", "/v1/groups/g", nil).is(200)
	})
}

// A panic is answered, logged, and leaves the group as it is in the store.
func TestPanic(t *testing.T) {
	storetest.Each(t, func(t *testing.T, name string) {
		l := &followtest.Library{}
		c := open(t, storetest.Open(t, name), l, DefaultLimits, groups.DefaultLimits)
		c.start("g", "alice")
		l.Fault = func(call string) error {
			if call == "Apply" {
				panic("an error of this program")
			}
			return nil
		}
		a := c.send("POST", "/v1/groups/g/handshakes", commit("g", 1))
		a.fails(503, "fault")
		if !strings.Contains(c.lines.String(), "an error of this program") || !strings.Contains(c.lines.String(), "(*group).Apply") {
			t.Fatal(c.lines)
		}
		l.Fault = nil
		if a := c.send("POST", "/v1/groups/g/handshakes", commit("g", 1)).is(200); a["repeated"] != true {
			t.Fatal(a)
		}
	})
}
