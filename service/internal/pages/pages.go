// Package pages shows a person the groups of a service: for each the tree drawn, the members, the messages that were refused
// and why, and those that were accepted.
package pages

import (
	"bytes"
	"context"
	_ "embed"
	"encoding/hex"
	"errors"
	"fmt"
	"html/template"
	"math/bits"
	"net/http"
	"net/url"
	"regexp"
	"strconv"
	"strings"
	"time"
	"unicode"
	"unicode/utf8"

	"github.com/gorilla/mux"

	"mlscheckd/internal/events"
	"mlscheckd/internal/follow"
	"mlscheckd/internal/groups"
	"mlscheckd/internal/store"
)

// How much a page shows.
const (
	shownGroups   = 100
	shownMembers  = 500
	shownRefusals = 20
	shownRows     = 50
	drawnMembers  = 10000 // reading the tree of a larger group would hold up its messages
	longest       = 10 * time.Second
)

// Pages shows the groups of a service.
type Pages struct {
	service *groups.Service
	log     *events.Log
	places  chan struct{} // limits the pages that are made at a time
}

// New returns the pages of a service, by the paths at which they are.
func New(service *groups.Service, log *events.Log) map[string]http.HandlerFunc {
	p := &Pages{service, log, make(chan struct{}, 8)}
	return map[string]http.HandlerFunc{"/": p.made(p.groups), "/group/{name}": p.made(p.group)}
}

//go:embed pages.html
var text string

var templates = template.Must(template.New("pages").Funcs(template.FuncMap{
	"credential": credential,
	"hex":        hex.EncodeToString,
	"kind":       kind,
	"link":       link,
	"member":     follow.MemberWords,
	"rfc":        rfc,
	"rule":       follow.RuleOf,
	"sections":   sections,
	"short":      short,
	"time":       func(at time.Time) string { return at.UTC().Format("2006-01-02 15:04:05 UTC") },
}).Parse(text))

// made returns a handler that answers with a template and its data.
func (p *Pages) made(page func(ctx context.Context, r *http.Request) (string, any, error)) http.HandlerFunc {
	return func(w http.ResponseWriter, r *http.Request) {
		ctx, cancel := context.WithTimeout(r.Context(), longest)
		defer cancel()
		name, data, err := "", any(nil), error(groups.ErrBusy)
		select {
		case p.places <- struct{}{}:
			defer func() { <-p.places }()
			name, data, err = page(ctx, r)
		default:
		}
		status := http.StatusOK
		if err != nil {
			name, data, status = p.failure(r, err)
		}
		var made bytes.Buffer
		if err := templates.ExecuteTemplate(&made, name, data); err != nil {
			panic(err)
		}
		w.Header().Set("Content-Type", "text/html; charset=utf-8")
		w.Header().Set("Content-Security-Policy", "default-src 'none'; style-src 'unsafe-inline'; frame-ancestors 'none'")
		w.Header().Set("Referrer-Policy", "no-referrer")
		w.WriteHeader(status)
		w.Write(made.Bytes())
	}
}

type failure struct{ Title, Words string }

func (p *Pages) failure(r *http.Request, err error) (string, any, int) {
	switch {
	case errors.Is(err, store.ErrNoGroup):
		return "failure", failure{"No such group", "There is no group of this name."}, http.StatusNotFound
	case errors.Is(err, groups.ErrBusy):
		return "failure", failure{"Busy", "The service is busy. Load the page again."}, http.StatusServiceUnavailable
	}
	p.log.Error("page", err, "path", r.URL.Path)
	return "failure", failure{"Fault", "The store does not answer."}, http.StatusServiceUnavailable
}

type groupsPage struct {
	Title, After, More string
	Groups             []store.Group
}

func (p *Pages) groups(ctx context.Context, r *http.Request) (string, any, error) {
	page := groupsPage{Title: "Groups", After: r.URL.Query().Get("after")}
	if !groups.IsName(page.After) {
		page.After = ""
	}
	var err error
	page.Groups, err = p.service.Groups(ctx, page.After, shownGroups)
	if len(page.Groups) == shownGroups {
		page.More = page.Groups[shownGroups-1].Name
	}
	return "groups", page, err
}

type groupPage struct {
	Title    string
	Files    string // the path of the group's files
	HasTree  bool   // the tree was passed beside the GroupInfo
	Group    store.Group
	Rules    int    // how many strict rules are checked
	Fault    string // why the tree is not shown
	Drawing  drawing
	Members  []follow.Member
	Others   int
	Refusals []store.Refusal
	Rows     []store.Row // the last one first
	Earlier  bool
}

func (p *Pages) group(ctx context.Context, r *http.Request) (string, any, error) {
	name, err := url.PathUnescape(mux.Vars(r)["name"])
	if err != nil || !groups.IsName(name) {
		return "", nil, store.ErrNoGroup
	}
	g, err := p.service.Group(ctx, name)
	if err != nil {
		return "", nil, err
	}
	start, err := p.service.StartOf(ctx, g.ID)
	if err != nil {
		return "", nil, err
	}
	page := groupPage{Title: g.Name, Files: "/v1/groups/" + url.PathEscape(g.Name), HasTree: len(start.Tree) > 0, Group: g,
		Rules: bits.OnesCount16(g.Rules), Earlier: g.Seq > shownRows}
	if page.Refusals, err = p.service.Refusals(ctx, g.ID, shownRefusals); err != nil {
		return "", nil, err
	}
	rows, err := p.service.Rows(ctx, g.ID, g.Seq-shownRows, shownRows)
	if err != nil {
		return "", nil, err
	}
	for i := len(rows) - 1; i >= 0; i-- {
		page.Rows = append(page.Rows, rows[i])
	}
	if g.Members > drawnMembers {
		page.Fault = fmt.Sprintf("it has more than %d members", drawnMembers)
		return "group", page, nil
	}
	nodes, err := p.service.Nodes(ctx, name)
	if err != nil {
		// What is stored can be shown all the same.
		p.log.Error("page", err, "group", name)
		page.Fault = "the service cannot read the group now, and its log says why"
		return "group", page, nil
	}
	leaf, _ := strconv.ParseUint(r.URL.Query().Get("leaf"), 10, 32)
	page.Drawing = draw(nodes, int(leaf))
	for _, n := range nodes {
		if n.Member != nil && len(page.Members) < shownMembers {
			page.Members = append(page.Members, *n.Member)
		} else if n.Member != nil {
			page.Others++
		}
	}
	return "group", page, nil
}

// link returns the path of a group's page. In it each character that could end the path is escaped.
func link(name string) string { return "/group/" + url.PathEscape(name) }

// rfc returns the address of a section of RFC 9420.
func rfc(section string) string {
	return "https://www.rfc-editor.org/rfc/rfc9420.html#section-" + section
}

// A section is one that a rule is from, with its address if it is one of RFC 9420.
type section struct{ Text, Link string }

var isSection = regexp.MustCompile(`^\d+(\.\d+)*$`)

// sections returns the sections that the text of a rule names. After a semicolon it names those of another RFC.
func sections(all string) (list []section) {
	own, others, _ := strings.Cut(all, ";")
	for _, word := range strings.Split(own, ", ") {
		if isSection.MatchString(word) {
			list = append(list, section{word, rfc(word)})
		} else {
			list = append(list, section{Text: word})
		}
	}
	if others != "" {
		list = append(list, section{Text: strings.TrimSpace(others)})
	}
	return list
}

func short(digest []byte) string {
	if len(digest) > 6 {
		digest = digest[:6]
	}
	return hex.EncodeToString(digest)
}

func kind(r store.Row) string {
	switch r.Kind {
	case store.Commit:
		return "commit"
	case store.Proposal:
		return "proposal"
	}
	return "undo"
}

// credential returns a credential for a person to read.
func credential(c follow.Credential) string {
	if c.Type == follow.CredentialBasic {
		return "basic: " + readable(c.Identity)
	}
	return fmt.Sprintf("x509: %d certificates", len(c.Certificates))
}

// shownIdentity is how many characters of an identity are shown.
const shownIdentity = 120

// readable returns bytes as a text if they are one that can be printed, otherwise in hexadecimal digits. A text has no
// characters that change the direction of others.
func readable(data []byte) string {
	text := string(data)
	unprintable := func(r rune) bool { return !unicode.IsPrint(r) || unicode.Is(unicode.Bidi_Control, r) }
	if text == "" || !utf8.ValidString(text) || strings.IndexFunc(text, unprintable) >= 0 {
		text = "0x" + hex.EncodeToString(data)
	}
	return shortened(text, shownIdentity)
}

// shortened returns the text, or its first characters and a sign that more follow.
func shortened(text string, most int) string {
	if utf8.RuneCountInString(text) <= most {
		return text
	}
	return string([]rune(text)[:most-1]) + "…"
}
