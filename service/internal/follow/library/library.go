// Package library follows groups by the proved library libmls_check, over bindings/go. What the library does not do yet is
// worked round here, each time in a function of its own that says which call will take its place.
package library

import (
	"errors"
	"time"

	"mlscheck"
	"mlscheckd/internal/follow"
	"mlscheckd/internal/wire"
)

// Library implements follow.Library.
type Library struct{}

// StartQuery returns the signatures of a start.
func (Library) StartQuery(info, tree []byte) ([]follow.Signature, error) {
	listed, err := mlscheck.StartQuery(info, tree, nil)
	return signatures(listed), refused(err)
}

// Start starts a group.
func (Library) Start(profile follow.Profile, rules follow.Rules, info, tree []byte, good []follow.Receipt) (follow.Group, error) {
	f, err := mlscheck.StartBy(mlscheck.Rules(rules), mlscheck.Profile(profile), info, tree, good)
	if err != nil {
		return nil, refused(err)
	}
	return &group{follower: f, profile: profile, state: int64(len(info) + len(tree)), receipts: int64(len(good))}, nil
}

// ResumeQuery returns the signatures of a state that have no receipt.
func (Library) ResumeQuery(state []byte, good []follow.Receipt) ([]follow.Signature, error) {
	listed, err := mlscheck.ResumeQuery(state, good)
	return signatures(listed), refused(err)
}

// Resume resumes a group from a state.
func (Library) Resume(profile follow.Profile, state []byte, good []follow.Receipt) (follow.Group, error) {
	f, err := mlscheck.ResumeIn(mlscheck.Profile(profile), state, good)
	if err != nil {
		return nil, refused(err)
	}
	return &group{follower: f, profile: profile, state: int64(len(state)), receipts: int64(len(good))}, nil
}

// Message returns what a PublicMessage says of itself. The library's facts of a message will take the place of the package wire.
func (Library) Message(message []byte) follow.Message {
	m, _ := wire.Message(message)
	return m
}

// Info returns what a GroupInfo says of itself. The library's facts will take the place of the package wire.
func (Library) Info(info []byte) (follow.Info, bool) { return wire.Info(info) }

// Version is set when the program is built, by service/build. mls_version will take its place.
func (Library) Version() string { return version }

var version = "unknown"

func signatures(listed []mlscheck.Signature) []follow.Signature {
	all := make([]follow.Signature, len(listed))
	for i, s := range listed {
		all[i] = follow.Signature(s)
	}
	return all
}

// refused returns the error of a call on a group's inputs as one of the package follow. From 100 on only the numbers of inputs
// that cannot be read speak of the inputs.
func refused(err error) error {
	var r mlscheck.Refused
	if errors.As(err, &r) && (r.Number < 100 || r.Number >= 106 && r.Number <= 110) {
		return follow.Refused(r)
	}
	return err
}

// A group implements follow.Group.
type group struct {
	follower *mlscheck.Follower
	profile  follow.Profile
	staged   bool
	state    int64 // bytes of the state when its length was last known
	receipts int64 // of those that were learnt since
}

func (g *group) Query(message []byte) ([]follow.Signature, error) {
	listed, err := g.follower.Query(message)
	return signatures(listed), err
}

func (g *group) Learn(good []follow.Receipt) error {
	g.receipts += int64(len(good))
	return g.follower.Learn(good)
}

// Stage has the follower judge the message, which applies it at once. The library's stage will take its place.
func (g *group) Stage(message []byte, now time.Time) (follow.Staged, error) {
	var accepted mlscheck.Accepted
	var err error
	if now.IsZero() {
		accepted, err = g.follower.Judge(message)
	} else {
		accepted, err = g.follower.JudgeAt(now, message)
	}
	var refusal mlscheck.Refusal
	if errors.As(err, &refusal) {
		return follow.Staged{}, follow.Refusal(refusal)
	}
	if err != nil {
		return follow.Staged{}, err
	}
	g.staged = true
	facts, err := g.Facts()
	return follow.Staged{Reference: accepted.Reference, Facts: facts}, err
}

// Apply has nothing left to do, since Stage has applied the message. The library's apply will take its place.
func (g *group) Apply() error {
	g.staged = false
	return nil
}

// Discard cannot take the message back, so the group is resumed from what was stored. The library's discard will take its place.
func (g *group) Discard() error {
	if !g.staged {
		return nil
	}
	return follow.ErrGone
}

// Undo cannot take the commit back, so the group is resumed from what was stored before it. The library's undo will take its
// place.
func (g *group) Undo() error { return follow.ErrGone }

// Forget goes on with a follower that resumes from the state, by the receipts that it needs: each of them was learnt, otherwise
// no member and no pending proposal would have been accepted. The library's forget will take its place.
func (g *group) Forget() error {
	state, err := g.follower.State()
	if err != nil {
		return err
	}
	needed, err := mlscheck.ResumeQuery(state, nil)
	if err != nil {
		return err
	}
	receipts := make([]follow.Receipt, len(needed))
	for i, s := range needed {
		receipts[i] = s.Receipt
	}
	fresh, err := mlscheck.ResumeIn(mlscheck.Profile(g.profile), state, receipts)
	if err != nil {
		return err
	}
	g.follower.Close()
	g.follower, g.state, g.receipts = fresh, int64(len(state)), int64(len(receipts))
	return nil
}

func (g *group) State() ([]byte, error) {
	state, err := g.follower.State()
	if err == nil {
		g.state = int64(len(state))
	}
	return state, err
}

func (g *group) Facts() (facts follow.Facts, err error) {
	facts.Epoch, facts.Members, facts.Ended = g.follower.Epoch(), g.follower.Members(), g.follower.Ended()
	if facts.TreeHash, err = g.follower.TreeHash(); err == nil {
		facts.Confirmed, err = g.follower.ConfirmedHash()
	}
	return facts, err
}

// Tree cuts the tree out of the state. The library's facts of a group will take its place.
func (g *group) Tree() ([]byte, error) {
	state, err := g.State()
	if err != nil {
		return nil, err
	}
	return wire.StateTree(state)
}

// Nodes reads the tree again. The library's facts of a group will take its place.
func (g *group) Nodes() ([]follow.Node, error) {
	tree, err := g.Tree()
	if err != nil {
		return nil, err
	}
	return wire.Nodes(tree)
}

// Size estimates: a follower has been measured to hold some five times the bytes of its state, and 64 bytes a receipt. The
// library's size of a handle will take its place.
func (g *group) Size() int64 { return 2048 + 5*g.state + 64*g.receipts }

func (g *group) Close() { g.follower.Close() }
