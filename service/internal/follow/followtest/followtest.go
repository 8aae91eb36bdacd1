// Package followtest has a library for tests, which follows groups by a few rules, in place of the proved one. Its messages are
// PublicMessages with true signatures of the cipher suite 1; their framing is simpler than that of RFC 9420.
package followtest

import (
	"bytes"
	"crypto/ed25519"
	"crypto/sha256"
	"encoding/json"
	"fmt"
	"sync/atomic"
	"time"

	"mlscheckd/internal/follow"
	"mlscheckd/internal/wire"
)

// A Library follows groups in memory.
type Library struct {
	// InPlace says whether groups can go back: Discard and Undo return no follow.ErrGone.
	InPlace bool

	// Fault, if it is not nil, is called before each call of a group with its name, and returns the error of the call.
	Fault func(call string) error

	// Open counts the groups that are not closed.
	Open atomic.Int64

	// Resumed counts the groups that were resumed.
	Resumed atomic.Int64
}

// kept is a group's state.
type kept struct {
	Profile  follow.Profile
	Rules    follow.Rules
	Group    string
	Epoch    uint64
	Names    []string // by leaf index; "" is a blank leaf
	Pending  []pending
	Ended    bool
	Commits  [32]byte // a hash of all of them
	Previous *kept    `json:"-"`
}

type pending struct {
	Reference []byte
	Proposal  []byte
}

func (k kept) clone() kept {
	k.Names = append([]string{}, k.Names...)
	k.Pending = append([]pending{}, k.Pending...)
	return k
}

func (k kept) members() (count uint32) {
	for _, name := range k.Names {
		if name != "" {
			count++
		}
	}
	return count
}

// leafSignature is what stands for the signature of a leaf node, so that a resumption needs receipts.
func leafSignature(name string) follow.Signature {
	content := []byte("leaf of " + name)
	return signature(public(name), content, ed25519.Sign(Key(name), content))
}

func signature(key, content, sig []byte) follow.Signature {
	hash := sha256.Sum256(bytes.Join([][]byte{key, content, sig}, []byte{0}))
	return follow.Signature{Receipt: hash, Suite: 1, Key: key, Content: content, Signature: sig}
}

func (k kept) signatures() (all []follow.Signature) {
	for _, name := range k.Names {
		if name != "" {
			all = append(all, leafSignature(name))
		}
	}
	return all
}

// StartQuery returns the signatures of a start: one for the GroupInfo, and one for each member.
func (l *Library) StartQuery(info, tree []byte) ([]follow.Signature, error) {
	k, err := started(info, tree)
	if err != nil {
		return nil, err
	}
	content := []byte("info of " + k.Group)
	return append([]follow.Signature{signature(public(k.Names[0]), content, ed25519.Sign(Key(k.Names[0]), content))}, k.signatures()...), nil
}

func started(info, tree []byte) (k kept, err error) {
	facts, ok := wire.Info(info)
	if !ok {
		return k, follow.Refused{Number: 106, Inner: 1}
	}
	nodes, err := wire.Nodes(tree)
	if err != nil || len(nodes) == 0 {
		return k, follow.Refused{Number: 3}
	}
	k.Group, k.Epoch = string(facts.GroupID), facts.Epoch
	for i := 0; i < len(nodes); i += 2 {
		k.Names = append(k.Names, string(nodes[i].Member.Credential.Identity))
	}
	return k, nil
}

// Start starts a group.
func (l *Library) Start(profile follow.Profile, rules follow.Rules, info, tree []byte, good []follow.Receipt) (follow.Group, error) {
	k, err := started(info, tree)
	if err != nil {
		return nil, err
	}
	k.Profile, k.Rules = profile, rules
	return l.group(k, good, 6)
}

func (l *Library) group(k kept, good []follow.Receipt, refused uint32) (follow.Group, error) {
	g := &group{library: l, kept: k, known: map[follow.Receipt]bool{}}
	for _, r := range good {
		g.known[r] = true
	}
	for i, s := range k.signatures() {
		if !g.known[s.Receipt] {
			return nil, follow.Refused{Number: refused, Inner: 5, Place: uint64(i)}
		}
	}
	l.Open.Add(1)
	return g, nil
}

// ResumeQuery returns the signatures of a state that have no receipt.
func (l *Library) ResumeQuery(state []byte, good []follow.Receipt) (all []follow.Signature, err error) {
	var k kept
	if err := json.Unmarshal(state, &k); err != nil {
		return nil, follow.Refused{Number: 1}
	}
	known := map[follow.Receipt]bool{}
	for _, r := range good {
		known[r] = true
	}
	for _, s := range k.signatures() {
		if !known[s.Receipt] {
			all = append(all, s)
		}
	}
	return all, nil
}

// Resume resumes a group from a state.
func (l *Library) Resume(profile follow.Profile, state []byte, good []follow.Receipt) (follow.Group, error) {
	var k kept
	if err := json.Unmarshal(state, &k); err != nil {
		return nil, follow.Refused{Number: 1}
	}
	if k.Profile != profile {
		return nil, follow.Refused{Number: 110}
	}
	l.Resumed.Add(1)
	return l.group(k, good, 7)
}

// Message returns what a PublicMessage says of itself.
func (l *Library) Message(message []byte) follow.Message {
	m, _ := wire.Message(message)
	return m
}

// Info returns what a GroupInfo says of itself.
func (l *Library) Info(info []byte) (follow.Info, bool) { return wire.Info(info) }

// Version names this library.
func (l *Library) Version() string { return "test" }

type group struct {
	library *Library
	kept    kept
	known   map[follow.Receipt]bool
	staged  *kept
	closed  bool
}

// ready returns the error of a call, and panics if it may not be made.
func (g *group) ready(call string) error {
	if g.closed {
		panic(call + " of a group that is closed")
	}
	if g.staged != nil && call != "Apply" && call != "Discard" {
		panic(call + " of a group with a staged message")
	}
	if g.library.Fault != nil {
		return g.library.Fault(call)
	}
	return nil
}

// parts returns what is signed of a message, and the signature.
func parts(message []byte) (signed, sig []byte) {
	const count = ed25519.SignatureSize + 2 // with the length of the vector
	if len(message) < count {
		return nil, nil
	}
	return message[:len(message)-count], message[len(message)-count+2:]
}

func (g *group) signature(message []byte, facts follow.Message) (follow.Signature, bool) {
	signed, sig := parts(message)
	key := []byte("key of nobody")
	if facts.Sender != follow.SenderMember {
		key = public(fmt.Sprint("outside ", facts.Sender))
	} else if int(facts.SenderIndex) < len(g.kept.Names) && g.kept.Names[facts.SenderIndex] != "" {
		key = public(g.kept.Names[facts.SenderIndex])
	} else {
		return follow.Signature{}, false
	}
	return signature(key, signed, sig), true
}

func (g *group) Query(message []byte) ([]follow.Signature, error) {
	if err := g.ready("Query"); err != nil {
		return nil, err
	}
	facts, ok := wire.Message(message)
	if !ok {
		return nil, nil
	}
	var all []follow.Signature
	if s, ok := g.signature(message, facts); ok && !g.known[s.Receipt] {
		all = append(all, s)
	}
	for _, name := range added(message) {
		if s := leafSignature(name); !g.known[s.Receipt] {
			all = append(all, s)
		}
	}
	return all, nil
}

func (g *group) Learn(good []follow.Receipt) error {
	if err := g.ready("Learn"); err != nil {
		return err
	}
	for _, r := range good {
		g.known[r] = true
	}
	return nil
}

// Late is a time from which on each Add has expired.
var Late = time.Date(2100, 1, 1, 0, 0, 0, 0, time.UTC)

func (g *group) Stage(message []byte, now time.Time) (follow.Staged, error) {
	if err := g.ready("Stage"); err != nil {
		return follow.Staged{}, err
	}
	facts, ok := wire.Message(message)
	refuse := func(number uint32) (follow.Staged, error) { return follow.Staged{}, follow.Refusal{Number: number} }
	switch s, is := g.signature(message, facts); {
	case !ok:
		return refuse(1)
	case string(facts.GroupID) != g.kept.Group:
		return refuse(3)
	case facts.Epoch != g.kept.Epoch:
		return refuse(4)
	case g.kept.Ended:
		return refuse(28)
	case !is || facts.Sender != follow.SenderMember && g.kept.Profile != follow.Full:
		return refuse(5)
	case !g.known[s.Receipt]:
		return refuse(7)
	}
	next := g.kept.clone()
	staged := follow.Staged{}
	if facts.Content == follow.ContentProposal {
		staged.Reference = Reference(message)
		for _, p := range g.kept.Pending {
			if bytes.Equal(p.Reference, staged.Reference) {
				return refuse(8)
			}
		}
		next.Pending = append(next.Pending, pending{staged.Reference, body(message)})
	} else if number := next.commit(message); number != 0 {
		return refuse(number)
	}
	for _, name := range added(message) {
		if !g.known[leafSignature(name).Receipt] {
			return refuse(9)
		}
	}
	if !now.IsZero() && !now.Before(Late) && len(added(message)) > 0 {
		return refuse(53)
	}
	g.staged = &next
	next.Previous = nil
	if facts.Content == follow.ContentCommit {
		before := g.kept
		next.Previous = &before
	}
	staged.Facts = next.facts()
	return staged, nil
}

func (g *group) Apply() error {
	if err := g.ready("Apply"); err != nil {
		return err
	}
	g.kept, g.staged = *g.staged, nil
	return nil
}

func (g *group) Discard() error {
	if err := g.ready("Discard"); err != nil {
		return err
	}
	if !g.library.InPlace {
		return follow.ErrGone
	}
	g.staged = nil
	return nil
}

func (g *group) Undo() error {
	if err := g.ready("Undo"); err != nil {
		return err
	}
	if !g.library.InPlace || g.kept.Previous == nil {
		return follow.ErrGone
	}
	g.kept = *g.kept.Previous
	return nil
}

func (g *group) Forget() error {
	if err := g.ready("Forget"); err != nil {
		return err
	}
	needed := map[follow.Receipt]bool{}
	for _, s := range g.kept.signatures() {
		needed[s.Receipt] = true
	}
	g.known = needed
	return nil
}

func (g *group) State() ([]byte, error) {
	if err := g.ready("State"); err != nil {
		return nil, err
	}
	return json.Marshal(g.kept)
}

func (k kept) facts() follow.Facts {
	state, _ := json.Marshal(k.Names)
	tree := sha256.Sum256(state)
	return follow.Facts{Epoch: k.Epoch, Members: k.members(), Ended: k.Ended, TreeHash: tree[:], Confirmed: append([]byte{}, k.Commits[:]...)}
}

func (g *group) Facts() (follow.Facts, error) { return g.kept.facts(), g.ready("Facts") }

func (g *group) Tree() ([]byte, error) { return Tree(g.kept.Names...), g.ready("Tree") }

func (g *group) Nodes() ([]follow.Node, error) {
	nodes, err := wire.Nodes(Tree(g.kept.Names...))
	for i, name := range g.kept.Names {
		if name == "" {
			nodes[2*i] = follow.Node{Blank: true}
		}
	}
	if err != nil {
		return nil, err
	}
	return nodes, g.ready("Nodes")
}

func (g *group) Size() int64 { return int64(1000 * len(g.kept.Names)) }

func (g *group) Close() {
	if !g.closed {
		g.library.Open.Add(-1)
	}
	g.closed = true
}

// commit makes the state that after a commit, and returns the number of the rule that it fails, or 0.
func (k *kept) commit(message []byte) uint32 {
	var list [][]byte
	for _, item := range items(message) {
		if item[0] == 1 {
			list = append(list, item[1:])
			continue
		}
		found := false
		for _, p := range k.Pending {
			if bytes.Equal(p.Reference, item[2:]) {
				list, found = append(list, p.Proposal), true
			}
		}
		if !found {
			return 13
		}
	}
	for _, proposal := range list {
		switch proposal[1] {
		case 1:
			k.add(name(proposal))
		case 3:
			leaf := int(proposal[5])
			if leaf >= len(k.Names) || k.Names[leaf] == "" {
				return 11
			}
			k.Names[leaf] = ""
		case 5:
			k.Ended = true
		}
	}
	k.Epoch++
	k.Pending = nil
	k.Commits = sha256.Sum256(append(k.Commits[:], message...))
	return 0
}

func (k *kept) add(name string) {
	for i := range k.Names {
		if k.Names[i] == "" {
			k.Names[i] = name
			return
		}
	}
	k.Names = append(k.Names, name)
}
