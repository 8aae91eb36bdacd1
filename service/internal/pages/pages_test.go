package pages

import (
	"bytes"
	"context"
	"encoding/xml"
	"fmt"
	"net/http/httptest"
	"net/url"
	"strings"
	"testing"
	"time"

	"github.com/gorilla/mux"

	"mlscheckd/internal/events"
	"mlscheckd/internal/follow"
	"mlscheckd/internal/follow/followtest"
	"mlscheckd/internal/groups"
	"mlscheckd/internal/metrics"
	"mlscheckd/internal/store"
	"mlscheckd/internal/store/storetest"
)

var ctx = context.Background()

type tester struct {
	*testing.T
	service *groups.Service
	store   *store.Store
	library *followtest.Library
	router  *mux.Router
}

func each(t *testing.T, test func(t tester)) {
	storetest.Each(t, func(t *testing.T, name string) {
		l := &followtest.Library{}
		log := events.New(&bytes.Buffer{})
		db := storetest.Open(t, name)
		service := groups.New(db, l, groups.DefaultLimits, metrics.New(), log)
		t.Cleanup(service.Close)
		router := mux.NewRouter().UseEncodedPath().SkipClean(true)
		for path, page := range New(service, log) {
			router.HandleFunc(path, page)
		}
		test(tester{t, service, db, l, router})
	})
}

func (t tester) start(name string, members ...string) {
	t.Helper()
	o := groups.Options{Profile: follow.Members, Rules: follow.Strict}
	if _, _, err := t.service.Start(ctx, name, o, followtest.Info(name, 1), followtest.Tree(members...)); err != nil {
		t.Fatal(err)
	}
}

func (t tester) judge(name string, message []byte) {
	t.Helper()
	if _, err := t.service.Judge(ctx, name, message, false); err != nil {
		t.Fatal(err)
	}
}

func (t tester) page(path string, status int) string {
	t.Helper()
	w := httptest.NewRecorder()
	t.router.ServeHTTP(w, httptest.NewRequest("GET", path, nil))
	if w.Code != status || w.Header().Get("Content-Security-Policy") == "" {
		t.Fatal(w.Code, w.Body)
	}
	wellFormed(t.T, w.Body.String())
	return w.Body.String()
}

// wellFormed checks that the elements of a page end where they should.
func wellFormed(t *testing.T, page string) {
	t.Helper()
	d := xml.NewDecoder(strings.NewReader(page))
	d.Strict = false
	d.AutoClose = []string{"br", "meta"}
	d.Entity = xml.HTMLEntity
	for {
		if _, err := d.Token(); err != nil {
			if err.Error() != "EOF" {
				t.Fatal(err, page)
			}
			return
		}
	}
}

func (t tester) has(page string, texts ...string) {
	t.Helper()
	for _, text := range texts {
		if !strings.Contains(page, text) {
			t.Fatalf("%q is not in\n%s", text, page)
		}
	}
}

func TestPages(t *testing.T) {
	each(t, func(t tester) {
		t.has(t.page("/", 200), "There are none")
		t.has(t.page("/?after=%ff", 200), "There are none")
		t.start("g", "alice", "bob")
		alice := followtest.Member(0, "alice")
		m := followtest.Commit("g", 1, alice, "", followtest.ByValue(followtest.Add("carol")))
		t.judge("g", followtest.Forged(m))
		t.judge("g", m)
		t.judge("g", followtest.Commit("g", 2, alice, "", followtest.ByValue(followtest.Remove(1))))
		t.judge("g", followtest.Commit("g", 3, alice, ""))
		if _, err := t.service.Undo(ctx, "g", 3); err != nil {
			t.Fatal(err)
		}
		t.has(t.page("/", 200), `<a href="/group/g">g</a></td><td>3</td><td>2</td><td>4</td>`)
		var page string
		for end := time.Now().Add(time.Minute); time.Now().Before(end); time.Sleep(time.Millisecond) {
			if page = t.page("/group/g", 200); strings.Contains(page, "BadSignature") {
				break
			}
		}
		t.has(page, "Epoch 3, 2 members, sequence 4", "7 BadSignature", "its signature is not good",
			`<a href="https://www.rfc-editor.org/rfc/rfc9420.html#section-12.4.3.2">12.4.3.2</a>`, "basic: alice", "basic: carol",
			`<tr class="undone"><td>3</td>`, "<svg", "leaf 0", "leaf 2", "blank", "13 of the 13 strict rules", `href="/v1/groups/g/info-tree"`)
		if strings.Contains(page, "basic: bob") {
			t.Fatal("bob was removed")
		}
		t.has(t.page("/group/none", 404), "No such group")
		t.has(t.page("/group/%ff", 404), "No such group")
		t.library.Fault = func(call string) error { return follow.ErrGone }
		t.has(t.page("/group/g", 200), "The tree is not shown", "BadSignature")
	})
}

// Of a leaf node that is not valid the page says which it is, and why.
func TestMemberRefused(t *testing.T) {
	each(t, func(t tester) {
		t.start("g", "alice")
		g, err := t.service.Group(ctx, "g")
		if err != nil {
			t.Fatal(err)
		}
		t.store.KeepRefusal(g.ID, store.Refusal{Rule: 25, Inner: 4, Leaf: 7})
		var page string
		for end := time.Now().Add(time.Minute); time.Now().Before(end) && !strings.Contains(page, "25 Member"); time.Sleep(time.Millisecond) {
			page = t.page("/group/g", 200)
		}
		t.has(page, "25 Member", "Leaf 7: its signature key is in another leaf.")
	})
}

// Nothing from a name or a credential is markup.
func TestEscapes(t *testing.T) {
	each(t, func(t tester) {
		for _, name := range []string{`<script>alert(1)</script>`, `"onmouseover="alert(1)`, `a/b?c#d%2f`, `'; DROP TABLE groups; --`, "\u202e", `{{.}}`} {
			t.start(name, name)
			list := t.page("/", 200)
			path := "/group/" + url.PathEscape(name)
			t.has(list, `href="`+path)
			page := t.page(path, 200)
			for _, markup := range []string{"<script", `"onmouseover`} {
				if strings.Contains(list, markup) || strings.Contains(page, markup) {
					t.Fatal(markup)
				}
			}
			_, members, _ := strings.Cut(page, "<h2>Members</h2>")
			if strings.Contains(members, "\u202e") {
				t.Fatal("a character that changes the direction of others")
			}
		}
	})
}

// More groups than a page has are on the next one.
func TestMore(t *testing.T) {
	each(t, func(t tester) {
		for i := 0; i < shownGroups+1; i++ {
			t.start(fmt.Sprintf("g&%03d", i), "alice")
		}
		t.has(t.page("/", 200), `<a href="/?after=g%26099">More</a>`)
		t.has(t.page("/?after=g%26099", 200), "g&amp;100")
	})
}

func TestSections(t *testing.T) {
	for number := uint32(1); number <= 53; number++ {
		text := follow.RuleOf(number)
		if text.Name == "" {
			continue
		}
		links := 0
		for _, s := range sections(text.Section) {
			if s.Link != "" {
				links++
			}
		}
		if links == 0 && text.Section != "own limit" {
			t.Error(number, text.Section)
		}
	}
	got := sections("5.1.3, 7.6; RFC 9180, 7.1")
	if len(got) != 3 || got[0].Link != rfc("5.1.3") || got[2] != (section{Text: "RFC 9180, 7.1"}) {
		t.Fatal(got)
	}
}

// The parent of each node of a tree of eight leaves, as in RFC 9420, Appendix C.
func TestParents(t *testing.T) {
	want := map[int]int{0: 1, 2: 1, 4: 5, 6: 5, 8: 9, 10: 9, 12: 13, 14: 13, 1: 3, 5: 3, 9: 11, 13: 11, 3: 7, 11: 7}
	for index, up := range want {
		level := 0
		for index>>level&1 == 1 {
			level++
		}
		if got := parent(index, level); got != up {
			t.Error(index, got, up)
		}
	}
}

// A large tree is drawn in parts.
func TestParts(t *testing.T) {
	nodes := make([]follow.Node, 2*100-1)
	for i := range nodes {
		nodes[i] = follow.Node{Key: []byte{byte(i)}}
		if i%2 == 0 {
			nodes[i].Member = &follow.Member{Leaf: uint32(i / 2)}
		}
	}
	for _, test := range []struct{ leaf, first int }{{0, 0}, {63, 0}, {64, 64}, {99, 64}, {127, 64}, {128, 0}, {-1, 0}, {1 << 40, 0}} {
		d := draw(nodes, test.leaf)
		if !d.Parts || d.First != test.first || d.Leaves != 128 || len(d.Boxes) != 127 || len(d.Lines) != 126 ||
			d.Before != (d.First > 0) || d.After != (d.First == 0) {
			t.Fatal(test, d.First, d.Last, len(d.Boxes), len(d.Lines))
		}
		for i, b := range d.Boxes {
			if b.X < 0 || b.X+b.Width > d.Width || b.Y < 0 || b.Y+b.Height > d.Height {
				t.Fatal(i, b)
			}
		}
	}
	if d := draw(nil, 0); len(d.Boxes) != 1 || d.Boxes[0].Class != "blank" {
		t.Fatal(d)
	}
	if d := draw(nodes[:3], 0); d.Parts || len(d.Boxes) != 3 || len(d.Lines) != 2 {
		t.Fatal(d)
	}
}

func TestReadable(t *testing.T) {
	for in, want := range map[string]string{"alice": "alice", "": "0x", "\x00": "0x00", "\xff": "0xff", "a\nb": "0x610a62", "ä 🙂": "ä 🙂",
		strings.Repeat("x", 200): strings.Repeat("x", 119) + "…"} {
		if got := readable([]byte(in)); got != want {
			t.Errorf("%q: %q", in, got)
		}
	}
}
