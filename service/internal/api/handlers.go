package api

import (
	"encoding/hex"
	"encoding/json"
	"fmt"
	"io"
	"math"
	"net/http"
	"strconv"
	"strings"
	"time"

	"mlscheckd/internal/follow"
	"mlscheckd/internal/groups"
	"mlscheckd/internal/store"
	"mlscheckd/internal/wire"
)

// described is what an answer says of a group.
type described struct {
	Name      string   `json:"name"`
	Profile   string   `json:"profile"`
	Rules     []int    `json:"rules"`
	Lifetimes string   `json:"lifetimes"`
	Sequence  int64    `json:"sequence"`
	Epoch     uint64   `json:"epoch"`
	Members   uint32   `json:"members"`
	Ended     bool     `json:"ended"`
	Confirmed int64    `json:"confirmed"`
	Changed   jsonTime `json:"changed"`
}

// jsonTime is a time in UTC with milliseconds.
type jsonTime time.Time

func (t jsonTime) MarshalJSON() ([]byte, error) {
	return json.Marshal(time.Time(t).UTC().Format("2006-01-02T15:04:05.000Z07:00"))
}

func describe(g store.Group) described {
	d := described{Name: g.Name, Profile: "members", Rules: []int{}, Lifetimes: "ignored", Sequence: g.Seq, Epoch: g.Epoch,
		Members: g.Members, Ended: g.Ended, Confirmed: g.Confirmed, Changed: jsonTime(g.Changed)}
	if follow.Profile(g.Profile) == follow.Full {
		d.Profile = "full"
	}
	if g.Timed {
		d.Lifetimes = "checked"
	}
	for n := firstStrict; n <= lastStrict; n++ {
		if follow.Rules(g.Rules)&follow.Rule(n) != 0 {
			d.Rules = append(d.Rules, n)
		}
	}
	return d
}

// The numbers of the strict rules.
const (
	firstStrict = 40
	lastStrict  = 52
)

// groups lists groups.
func (a *API) groups(w http.ResponseWriter, r request) error {
	limit, err := r.query("limit", 100, 1000)
	if err != nil {
		return err
	}
	after := r.URL.Query().Get("after")
	if after != "" && !groups.IsName(after) {
		return badRequest("parameter", "after is no name of a group")
	}
	list, err := a.service.Groups(r.Context(), after, int(limit))
	if err != nil {
		return err
	}
	out := []described{}
	for _, g := range list {
		out = append(out, describe(g))
	}
	writeJSON(w, http.StatusOK, map[string]any{"groups": out})
	return nil
}

// group describes a group.
func (a *API) group(w http.ResponseWriter, r request) error {
	g, err := a.service.Group(r.Context(), r.name)
	if err != nil {
		return err
	}
	writeJSON(w, http.StatusOK, describe(g))
	return nil
}

// start starts a group. The body is a GroupInfo; with ?tree=N its last N bytes are the ratchet tree.
func (a *API) start(w http.ResponseWriter, r request) error {
	if err := nonEmpty(r.body); err != nil {
		return err
	}
	count, err := r.query("tree", 0, uint64(len(r.body)))
	if err != nil {
		return err
	}
	o, err := r.options()
	if err != nil {
		return err
	}
	at := len(r.body) - int(count)
	g, made, err := a.service.Start(r.Context(), r.name, o, r.body[:at], r.body[at:])
	if err != nil {
		return err
	}
	status := http.StatusOK
	if made {
		status = http.StatusCreated
		a.log.Info("started", "group", g.Name, "epoch", g.Epoch, "members", g.Members)
	}
	writeJSON(w, status, describe(g))
	return nil
}

// options returns what a group is to be followed by.
func (r request) options() (o groups.Options, err error) {
	profile, err := r.choice("profile", "members", "full")
	if err != nil {
		return o, err
	}
	rules, err := r.choice("rules", "strict", "plain")
	if err != nil {
		return o, err
	}
	lifetimes, err := r.choice("lifetimes", "checked", "ignored")
	if err != nil {
		return o, err
	}
	o = groups.Options{Profile: follow.Members, Rules: follow.Strict, Timed: lifetimes == "checked"}
	if profile == "full" {
		o.Profile = follow.Full
	}
	if rules == "plain" {
		o.Rules = follow.Plain
	}
	for _, text := range strings.Split(r.URL.Query().Get("allow"), ",") {
		if text == "" {
			continue
		}
		n, err := strconv.Atoi(text)
		if err != nil || n < firstStrict || n > lastStrict {
			return o, badRequest("parameter", fmt.Sprintf("allow has numbers of strict rules, from %d to %d", firstStrict, lastStrict))
		}
		o.Rules &^= follow.Rule(n)
	}
	return o, nil
}

// outside says whether the service in front allows senders outside the group. With more than one header it is not known which one
// the service in front has set.
func (r request) outside() bool {
	values := r.Header.Values(AllowHeader)
	return len(values) == 1 && values[0] == "outside"
}

// judge answers a message.
func (a *API) judge(w http.ResponseWriter, r request) error {
	if err := nonEmpty(r.body); err != nil {
		return err
	}
	answer, err := a.service.Judge(r.Context(), r.name, r.body, r.outside())
	if err != nil {
		return err
	}
	writeJSON(w, http.StatusOK, answer)
	return nil
}

// mostMessages is how many messages a batch has at most.
const mostMessages = 1000

// batch answers the messages of a log, one after the other. It ends at the first that has no verdict, and says why.
func (a *API) batch(w http.ResponseWriter, r request) error {
	if err := nonEmpty(r.body); err != nil {
		return err
	}
	messages, ok := wire.Vectors(r.body)
	if !ok {
		return badRequest("batch", "the body is no sequence of vectors (RFC 9420, 2.1.2)")
	}
	if len(messages) > mostMessages {
		return groups.LimitError{What: "messages of a batch", Limit: mostMessages}
	}
	answers, ended := []groups.Answer{}, map[string]any{"messages": len(messages)}
	for _, message := range messages {
		answer, err := a.service.Judge(r.Context(), r.name, message, r.outside())
		if err != nil && len(answers) == 0 {
			return err
		}
		if err != nil {
			f := a.failureOf(r.name, err)
			ended["error"], ended["words"] = f.code, f.words
			break
		}
		answers = append(answers, answer)
	}
	ended["answers"] = answers
	writeJSON(w, http.StatusOK, ended)
	return nil
}

// undo undoes an accepted commit.
func (a *API) undo(w http.ResponseWriter, r request) error {
	sequence, err := r.query("sequence", 0, math.MaxInt64)
	if err != nil {
		return err
	}
	if sequence == 0 {
		return badRequest("parameter", "sequence is missing")
	}
	g, err := a.service.Undo(r.Context(), r.name, int64(sequence))
	if err != nil {
		return err
	}
	writeJSON(w, http.StatusOK, describe(g))
	return nil
}

// confirm notes that a member has processed the commit that began an epoch.
func (a *API) confirm(w http.ResponseWriter, r request) error {
	if r.URL.Query().Get("epoch") == "" {
		return badRequest("parameter", "epoch is missing")
	}
	epoch, err := r.query("epoch", 0, math.MaxUint64)
	if err != nil {
		return err
	}
	if err := a.service.Confirm(r.Context(), r.name, epoch); err != nil {
		return err
	}
	g, err := a.service.Group(r.Context(), r.name)
	if err != nil {
		return err
	}
	writeJSON(w, http.StatusOK, describe(g))
	return nil
}

// A listed row is what an answer says of a row of a log.
type listedRow struct {
	Sequence int64           `json:"sequence"`
	Kind     string          `json:"kind"`
	At       jsonTime        `json:"at"`
	Answer   json.RawMessage `json:"answer"`
	Digest   string          `json:"digest,omitempty"`
	Message  []byte          `json:"message,omitempty"`
	Checker  string          `json:"checker,omitempty"`
	UndoneBy int64           `json:"undone_by,omitempty"`
}

var kinds = map[store.Kind]string{store.Proposal: "proposal", store.Commit: "commit", store.Undo: "undo"}

// rows lists rows of a log, those that were undone too.
func (a *API) rows(w http.ResponseWriter, r request) error {
	after, err := r.query("after", 0, math.MaxInt64)
	if err != nil {
		return err
	}
	limit, err := r.query("limit", 100, 1000)
	if err != nil {
		return err
	}
	g, err := a.service.Group(r.Context(), r.name)
	if err != nil {
		return err
	}
	rows, err := a.service.Rows(r.Context(), g.ID, int64(after), int(limit))
	if err != nil {
		return err
	}
	out := []listedRow{}
	for _, row := range rows {
		out = append(out, listedRow{row.Seq, kinds[row.Kind], jsonTime(row.At), json.RawMessage(row.Answer),
			hex.EncodeToString(row.Digest), row.Message, row.Checker, row.Undone})
	}
	writeJSON(w, http.StatusOK, map[string]any{"handshakes": out})
	return nil
}

// A listedRefusal is what an answer says of a refused message.
type listedRefusal struct {
	At         jsonTime `json:"at"`
	Rule       uint32   `json:"rule"`
	Name       string   `json:"name"`
	Words      string   `json:"words"`
	Section    string   `json:"section"`
	MemberRule uint32   `json:"member_rule,omitempty"`
	Leaf       uint32   `json:"leaf,omitempty"`
	Epoch      uint64   `json:"epoch"`
	Digest     string   `json:"digest"`
	Message    []byte   `json:"message"`
}

// refusals lists the last refused messages.
func (a *API) refusals(w http.ResponseWriter, r request) error {
	limit, err := r.query("limit", 20, store.KeptRefusals)
	if err != nil {
		return err
	}
	g, err := a.service.Group(r.Context(), r.name)
	if err != nil {
		return err
	}
	list, err := a.service.Refusals(r.Context(), g.ID, int(limit))
	if err != nil {
		return err
	}
	out := []listedRefusal{}
	for _, l := range list {
		rule := follow.RuleOf(l.Rule)
		out = append(out, listedRefusal{jsonTime(l.At), l.Rule, rule.Name, rule.Words, rule.Section, l.Inner, l.Leaf, l.Epoch,
			hex.EncodeToString(l.Digest), l.Message})
	}
	writeJSON(w, http.StatusOK, map[string]any{"refusals": out})
	return nil
}

// A listedMember is what an answer says of a member.
type listedMember struct {
	Leaf         uint32   `json:"leaf"`
	Credential   string   `json:"credential"`
	Identity     []byte   `json:"identity,omitempty"`
	Certificates [][]byte `json:"certificates,omitempty"`
	SignatureKey string   `json:"signature_key"`
}

// members lists the members.
func (a *API) members(w http.ResponseWriter, r request) error {
	nodes, err := a.service.Nodes(r.Context(), r.name)
	if err != nil {
		return err
	}
	out := []listedMember{}
	for _, n := range nodes {
		if n.Member == nil {
			continue
		}
		kind := "basic"
		if n.Member.Credential.Type == follow.CredentialX509 {
			kind = "x509"
		}
		out = append(out, listedMember{n.Member.Leaf, kind, n.Member.Credential.Identity, n.Member.Credential.Certificates,
			hex.EncodeToString(n.Member.SignatureKey)})
	}
	writeJSON(w, http.StatusOK, map[string]any{"members": out})
	return nil
}

// SequenceHeader has the sequence of the log that an answer is at.
const SequenceHeader = "Mls-Sequence"

const binary = "application/octet-stream"

func (a *API) state(w http.ResponseWriter, r request) error {
	state, seq, err := a.service.State(r.Context(), r.name)
	return file(w, state, seq, err)
}

func (a *API) tree(w http.ResponseWriter, r request) error {
	tree, seq, err := a.service.Tree(r.Context(), r.name)
	return file(w, tree, seq, err)
}

func file(w http.ResponseWriter, data []byte, seq int64, err error) error {
	if err != nil {
		return err
	}
	w.Header().Set(SequenceHeader, strconv.FormatInt(seq, 10))
	writeBytes(w, binary, data)
	return nil
}

func (a *API) startOf(r request) (store.Start, error) {
	g, err := a.service.Group(r.Context(), r.name)
	if err != nil {
		return store.Start{}, err
	}
	return a.service.StartOf(r.Context(), g.ID)
}

func (a *API) info(w http.ResponseWriter, r request) error {
	start, err := a.startOf(r)
	return file(w, start.Info, 0, err)
}

func (a *API) infoTree(w http.ResponseWriter, r request) error {
	start, err := a.startOf(r)
	if err == nil && len(start.Tree) == 0 {
		err = failure{http.StatusNotFound, "no_tree", "the group was started from the tree in its GroupInfo"}
	}
	return file(w, start.Tree, 0, err)
}

// until returns the group and the sequence up to which its log is asked for.
func (a *API) until(r request) (g store.Group, until int64, err error) {
	if g, err = a.service.Group(r.Context(), r.name); err != nil {
		return g, 0, err
	}
	n, err := r.query("until", uint64(g.Seq), math.MaxInt64)
	return g, int64(n), err
}

func (a *API) logFile(w http.ResponseWriter, r request) error {
	g, until, err := a.until(r)
	if err != nil {
		return err
	}
	w.Header().Set(SequenceHeader, strconv.FormatInt(g.Seq, 10))
	return stream(w, binary, func(to io.Writer) error { return a.service.WriteLog(r.Context(), g, until, to) })
}

func (a *API) receipts(w http.ResponseWriter, r request) error {
	g, until, err := a.until(r)
	if err != nil {
		return err
	}
	w.Header().Set(SequenceHeader, strconv.FormatInt(g.Seq, 10))
	return stream(w, "text/plain; charset=utf-8", func(to io.Writer) error { return a.service.WriteReceipts(r.Context(), g, until, to) })
}
