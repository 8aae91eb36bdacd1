package groups

import (
	"bytes"
	"context"
	"crypto/sha256"
	"encoding/json"
	"errors"
	"fmt"
	"io"
	"os"
	"path/filepath"
	"strings"
	"sync"
	"testing"
	"time"

	"mlscheckd/internal/events"
	"mlscheckd/internal/follow"
	"mlscheckd/internal/follow/followtest"
	"mlscheckd/internal/metrics"
	"mlscheckd/internal/store"
	"mlscheckd/internal/store/storetest"
	"mlscheckd/internal/verify"
	"mlscheckd/internal/wire"
)

var ctx = context.Background()

var strict = Options{Profile: follow.Members, Rules: follow.Strict, Timed: true}

// each runs a test over both stores, with a library whose groups can go back and one whose groups cannot.
func each(t *testing.T, test func(t *testing.T, name string, l *followtest.Library)) {
	storetest.Each(t, func(t *testing.T, name string) {
		for _, in := range []bool{false, true} {
			t.Run(fmt.Sprint("in place ", in), func(t *testing.T) {
				at := name
				if filepath.IsAbs(name) {
					at = filepath.Join(t.TempDir(), "groups.db")
				} else {
					at += fmt.Sprint("&application_name=", in)
				}
				test(t, at, &followtest.Library{InPlace: in})
			})
		}
	})
}

// a tester is a service for tests. Groups have the name of the test's function, so that two tests may share a store.
type tester struct {
	*testing.T
	*Service
	lines *bytes.Buffer
}

func open(t *testing.T, s Store, l *followtest.Library, limits Limits) tester {
	var lines bytes.Buffer
	limits.Store = 5 * time.Minute // the machine may be busy
	service := New(s, l, limits, metrics.New(), events.New(&lines))
	t.Cleanup(service.Close)
	return tester{t, service, &lines}
}

func (t tester) start(name string, members ...string) store.Group {
	t.Helper()
	g, made, err := t.Start(ctx, name, strict, followtest.Info(name, 1), followtest.Tree(members...))
	if err != nil || !made {
		t.Fatal(made, err)
	}
	return g
}

func (t tester) judge(name string, message []byte) Answer {
	t.Helper()
	a, err := t.Judge(ctx, name, message, false)
	if err != nil {
		t.Fatal(err)
	}
	return a
}

// accepts expects that a message is accepted with this sequence.
func (t tester) accepts(name string, message []byte, sequence int64) Answer {
	t.Helper()
	a := t.judge(name, message)
	if a.Verdict != Accepted || a.Repeated || a.Sequence != sequence {
		t.Fatalf("%+v", a)
	}
	return a
}

// repeats expects that a message is answered as before.
func (t tester) repeats(name string, message []byte, before Answer) {
	t.Helper()
	before.Repeated = true
	if a := t.judge(name, message); a != before {
		t.Fatalf("%+v, and not %+v", a, before)
	}
}

func (t tester) refuses(name string, message []byte, rule uint32, sequence int64) {
	t.Helper()
	a := t.judge(name, message)
	text := follow.RuleOf(rule)
	if a.Verdict != Refused || a.Rule != rule || a.Sequence != sequence || a.Name != text.Name || a.Words != text.Words || a.Section != text.Section {
		t.Fatalf("%+v", a)
	}
}

func (t tester) state(name string) (state []byte) {
	t.Helper()
	state, _, err := t.State(ctx, name)
	if err != nil {
		t.Fatal(err)
	}
	return state
}

func (t tester) group(name string) store.Group {
	t.Helper()
	g, err := t.Group(ctx, name)
	if err != nil {
		t.Fatal(err)
	}
	return g
}

var alice, bob = followtest.Member(0, "alice"), followtest.Member(1, "bob")

func commit(group string, epoch uint64, list ...[]byte) []byte {
	return followtest.Commit(group, epoch, alice, "", list...)
}

func rename(t *testing.T) string { return fmt.Sprintf("%x", sha256.Sum256([]byte(t.Name())))[:16] }

// Each message is answered, sent again, and sent to a service that has started anew.
func TestHandshakes(t *testing.T) {
	each(t, func(t *testing.T, name string, l *followtest.Library) {
		n := rename(t)
		s := storetest.Open(t, name)
		one := open(t, s, l, DefaultLimits)
		g := one.start(n, "alice", "bob")
		if g.Epoch != 1 || g.Members != 2 || g.Seq != 0 {
			t.Fatal(g)
		}
		add := followtest.Proposal(n, 1, bob, "", followtest.Add("carol"))
		messages := [][]byte{
			add,
			followtest.Proposal(n, 1, bob, "", followtest.Remove(1)),
			commit(n, 1, followtest.ByReference(followtest.Reference(add))),
			followtest.Proposal(n, 2, followtest.Member(2, "carol"), "", followtest.Remove(1)),
			commit(n, 2, followtest.ByValue(followtest.Add("dave"))),
			commit(n, 3, followtest.ByValue(followtest.ReInit())),
		}
		var answers []Answer
		for i, m := range messages {
			one.refuses(n, followtest.Forged(m), 7, int64(i))
			if i > 2 {
				one.refuses(n, followtest.Forged(messages[0]), 4, int64(i))
			}
			a := one.accepts(n, m, int64(i+1))
			answers = append(answers, a)
			two := open(t, s, &followtest.Library{InPlace: l.InPlace}, DefaultLimits)
			for j := 0; j <= i; j++ {
				one.repeats(n, messages[j], answers[j])
				two.repeats(n, messages[j], answers[j])
			}
			if !bytes.Equal(one.state(n), two.state(n)) {
				t.Fatal(i)
			}
		}
		if a := answers[0]; a.Kind != "proposal" || a.Reference != fmt.Sprintf("%x", followtest.Reference(add)) || a.Epoch != 1 || a.TreeHash != "" {
			t.Fatalf("%+v", a)
		}
		if a := answers[2]; a.Kind != "commit" || a.Epoch != 2 || a.Members != 3 || len(a.TreeHash) != 64 || len(a.Confirmed) != 64 || a.Ended {
			t.Fatalf("%+v", a)
		}
		if a := answers[5]; !a.Ended || a.Epoch != 4 {
			t.Fatalf("%+v", a)
		}
		one.refuses(n, commit(n, 4), 28, 6)
		one.refuses(n, []byte("no message"), 1, 6)
		one.refuses(n, commit("another", 4), 3, 6)
		if g := one.group(n); g.Seq != 6 || g.Epoch != 4 || g.Members != 4 || !g.Ended {
			t.Fatal(g)
		}
		if _, err := one.Judge(ctx, n+"none", messages[0], false); !errors.Is(err, store.ErrNoGroup) {
			t.Fatal(err)
		}
	})
}

// The same start is answered again, and another one is not.
func TestStart(t *testing.T) {
	each(t, func(t *testing.T, name string, l *followtest.Library) {
		n := rename(t)
		s := open(t, storetest.Open(t, name), l, DefaultLimits)
		info, tree := followtest.Info(n, 1), followtest.Tree("alice", "bob")
		s.start(n, "alice", "bob")
		g, made, err := s.Start(ctx, n, strict, info, tree)
		if made || err != nil || g.Name != n {
			t.Fatal(g, made, err)
		}
		plain := strict
		plain.Rules = follow.Plain
		full := strict
		full.Profile = follow.Full
		untimed := strict
		untimed.Timed = false
		for _, other := range []struct {
			o          Options
			info, tree []byte
		}{{strict, followtest.Info(n, 2), tree}, {strict, info, followtest.Tree("alice")}, {plain, info, tree}, {full, info, tree}, {untimed, info, tree}} {
			if _, _, err := s.Start(ctx, n, other.o, other.info, other.tree); err != ErrOtherStart {
				t.Fatal(err)
			}
		}
		var refused follow.Refused
		if _, _, err := s.Start(ctx, n+"2", strict, []byte("no info"), tree); !errors.As(err, &refused) || refused.Number != 106 {
			t.Fatal(err)
		}
		s.verify = func([]follow.Signature) ([]follow.Receipt, error) { return nil, nil }
		if _, _, err := s.Start(ctx, n+"2", strict, info, tree); !errors.As(err, &refused) || refused != (follow.Refused{Number: 6, Inner: 5}) {
			t.Fatal(err)
		}
		if _, err := s.Group(ctx, n+"2"); err != store.ErrNoGroup {
			t.Fatal(err)
		}
	})
}

// Many that start one group at once all get it, and one has made it.
func TestStartsAtOnce(t *testing.T) {
	each(t, func(t *testing.T, name string, l *followtest.Library) {
		n := rename(t)
		s := open(t, storetest.Open(t, name), l, DefaultLimits)
		var all sync.WaitGroup
		var mu sync.Mutex
		count := 0
		for i := 0; i < 10; i++ {
			all.Add(1)
			go func() {
				defer all.Done()
				g, made, err := s.Start(ctx, n, strict, followtest.Info(n, 1), followtest.Tree("alice"))
				if err != nil || g.Name != n {
					t.Error(err)
				}
				mu.Lock()
				defer mu.Unlock()
				if made {
					count++
				}
			}()
		}
		all.Wait()
		if count != 1 {
			t.Fatal(count)
		}
	})
}

// faulty is a store in which rows are not stored, or are stored although there is an error.
type faulty struct {
	*store.Store
	before, after error
}

func (f *faulty) Append(ctx context.Context, g store.Group, r store.Row) error {
	if f.before != nil {
		return f.before
	}
	if err := f.Store.Append(ctx, g, r); err != nil {
		return err
	}
	return f.after
}

// After a fault of the store the message may be sent again, whether it was stored or not, and it is stored once.
func TestStoreFaults(t *testing.T) {
	each(t, func(t *testing.T, name string, l *followtest.Library) {
		n := rename(t)
		f := &faulty{Store: storetest.Open(t, name)}
		s := open(t, f, l, DefaultLimits)
		s.start(n, "alice")
		fault := errors.New("a fault of the store")
		for i := int64(1); i <= 6; i += 2 {
			m := commit(n, uint64(i))
			f.before, f.after = fault, nil
			if _, err := s.Judge(ctx, n, m, false); err != fault {
				t.Fatal(err)
			}
			if g := s.group(n); g.Seq != i-1 {
				t.Fatal(g)
			}
			f.before = nil
			s.accepts(n, m, i)
			m = commit(n, uint64(i+1))
			f.after = fault
			if _, err := s.Judge(ctx, n, m, false); err != fault {
				t.Fatal(err)
			}
			f.after = nil
			if a := s.judge(n, m); a.Verdict != Accepted || !a.Repeated || a.Sequence != i+1 {
				t.Fatalf("%+v", a)
			}
		}
	})
}

// A store that is slow leaves it unknown whether a message is stored. It may be sent again, and is stored once.
func TestSlowStore(t *testing.T) {
	each(t, func(t *testing.T, name string, l *followtest.Library) {
		n := rename(t)
		s := open(t, storetest.Open(t, name), l, DefaultLimits)
		s.start(n, "alice")
		for epoch := int64(1); epoch <= 3; epoch++ {
			m := commit(n, uint64(epoch))
			release := storetest.Hold(t, name)
			s.limits.Store = 100 * time.Millisecond
			if a, err := s.Judge(ctx, n, m, false); err == nil {
				t.Fatalf("%+v", a)
			}
			release()
			s.limits.Store = 5 * time.Minute
			if a := s.judge(n, m); a.Verdict != Accepted || a.Sequence != epoch {
				t.Fatalf("%+v", a)
			}
			if g := s.group(n); g.Seq != epoch {
				t.Fatal(g)
			}
		}
	})
}

// A fault of the library at any call leaves the group as it is in the store.
func TestLibraryFaults(t *testing.T) {
	each(t, func(t *testing.T, name string, l *followtest.Library) {
		n := rename(t)
		s := open(t, storetest.Open(t, name), l, DefaultLimits)
		s.start(n, "alice")
		fault := errors.New("no memory")
		epoch := uint64(1)
		for _, call := range []string{"Query", "Learn", "Stage"} {
			m := commit(n, epoch)
			l.Fault = func(called string) error {
				if called == call {
					return fault
				}
				return nil
			}
			if _, err := s.Judge(ctx, n, m, false); !errors.Is(err, fault) {
				t.Fatal(call, err)
			}
			l.Fault = nil
			s.accepts(n, m, int64(epoch))
			epoch++
		}
		// Once the row is stored the answer is safe, whatever the library says of it.
		l.Fault = func(called string) error {
			if called == "Apply" {
				return fault
			}
			return nil
		}
		m := commit(n, epoch)
		a := s.accepts(n, m, int64(epoch))
		l.Fault = nil
		s.repeats(n, m, a)
		// The same of a panic: the group is loaded again.
		l.Fault = func(called string) error { panic(called) }
		func() {
			defer func() { recover() }()
			s.Judge(ctx, n, commit(n, epoch+1), false)
		}()
		l.Fault = nil
		s.accepts(n, commit(n, epoch+1), int64(epoch+1))
		s.Close()
		if open := l.Open.Load(); open != 0 {
			t.Fatal(open, "groups are not closed")
		}
	})
}

// Of two services over one store each accepts and refuses by what the other has stored.
func TestTwoServices(t *testing.T) {
	each(t, func(t *testing.T, name string, l *followtest.Library) {
		n := rename(t)
		s := storetest.Open(t, name)
		one, two := open(t, s, l, DefaultLimits), open(t, s, &followtest.Library{InPlace: l.InPlace}, DefaultLimits)
		one.start(n, "alice", "bob")
		first := commit(n, 1)
		a := one.accepts(n, first, 1)
		two.repeats(n, first, a)
		// The second service is behind: a message of an epoch that it has not seen is accepted.
		one.accepts(n, commit(n, 2), 2)
		two.accepts(n, commit(n, 3), 3)
		// And its rival for the same place is refused.
		one.accepts(n, followtest.Commit(n, 4, bob, "one"), 4)
		two.refuses(n, followtest.Commit(n, 4, bob, "two"), 4, 4)
		if _, err := two.Undo(ctx, n, 4); err != nil {
			t.Fatal(err)
		}
		undone := one.judge(n, followtest.Commit(n, 4, bob, "one"))
		if undone.Verdict != Undone || undone.Sequence != 5 || undone.Epoch != 4 {
			t.Fatalf("%+v", undone)
		}
		one.accepts(n, followtest.Commit(n, 4, bob, "two"), 6)
		if !bytes.Equal(one.state(n), two.state(n)) {
			t.Fatal("two states")
		}
	})
}

// Two services that get two commits of each epoch at once accept one of each.
func TestRace(t *testing.T) {
	each(t, func(t *testing.T, name string, l *followtest.Library) {
		n := rename(t)
		s := storetest.Open(t, name)
		services := []tester{open(t, s, l, DefaultLimits), open(t, s, &followtest.Library{InPlace: l.InPlace}, DefaultLimits)}
		services[0].start(n, "alice", "bob")
		for epoch := uint64(1); epoch <= 20; epoch++ {
			var answers [4]Answer
			var all sync.WaitGroup
			for i := range answers {
				all.Add(1)
				go func(i int) {
					defer all.Done()
					a, err := services[i%2].Judge(ctx, n, followtest.Commit(n, epoch, bob, fmt.Sprint(i/2)), false)
					if err != nil {
						t.Error(err)
					}
					answers[i] = a
				}(i)
			}
			all.Wait()
			accepted := 0
			for i, a := range answers {
				other := answers[i^1]
				if a.Verdict == Accepted {
					accepted++
					if a.Sequence != int64(epoch) || other.Verdict != Accepted || a.Repeated == other.Repeated {
						t.Fatalf("%+v", answers)
					}
				} else if a.Rule != 4 || other.Verdict != Refused {
					t.Fatalf("%+v", answers)
				}
			}
			if accepted != 2 {
				t.Fatalf("%+v", answers)
			}
		}
		if !bytes.Equal(services[0].state(n), services[1].state(n)) {
			t.Fatal("two states")
		}
	})
}

func TestUndo(t *testing.T) {
	each(t, func(t *testing.T, name string, l *followtest.Library) {
		n := rename(t)
		db := storetest.Open(t, name)
		s := open(t, db, l, DefaultLimits)
		s.start(n, "alice", "bob")
		proposal := followtest.Proposal(n, 1, bob, "", followtest.Add("carol"))
		a := s.accepts(n, proposal, 1)
		before := s.state(n)
		bad := commit(n, 1, followtest.ByReference(followtest.Reference(proposal)))
		s.accepts(n, bad, 2)
		for again := 0; again < 2; again++ {
			g, err := s.Undo(ctx, n, 2)
			if err != nil || g.Seq != 3 || g.Epoch != 1 || g.Members != 2 {
				t.Fatal(g, err)
			}
		}
		if !bytes.Equal(s.state(n), before) {
			t.Fatal("another state")
		}
		if u := s.judge(n, bad); u.Verdict != Undone || u.Sequence != 3 || u.Epoch != 1 {
			t.Fatalf("%+v", u)
		}
		s.repeats(n, proposal, a)
		s.accepts(n, commit(n, 1, followtest.ByReference(followtest.Reference(proposal)), followtest.ByValue(followtest.Remove(1))), 4)
		s.accepts(n, commit(n, 2), 5)
		s.accepts(n, followtest.Proposal(n, 3, alice, "", followtest.Remove(0)), 6)
		// A commit that is not the last row, and all after it.
		g, err := s.Undo(ctx, n, 4)
		if err != nil || g.Seq != 7 || g.Epoch != 1 {
			t.Fatal(g, err)
		}
		if !bytes.Equal(s.state(n), before) {
			t.Fatal("another state")
		}
		if u := s.judge(n, commit(n, 2)); u.Verdict != Undone || u.Sequence != 7 {
			t.Fatalf("%+v", u)
		}
		for _, seq := range []int64{0, 1, 3, 8} {
			if _, err := s.Undo(ctx, n, seq); err != store.ErrNoCommit {
				t.Fatal(seq, err)
			}
		}
		if err := s.Confirm(ctx, n, 2); err != store.ErrNoCommit {
			t.Fatal(err)
		}
		last := followtest.Commit(n, 1, bob, "another")
		s.accepts(n, last, 8)
		if err := s.Confirm(ctx, n, 2); err != nil {
			t.Fatal(err)
		}
		if _, err := s.Undo(ctx, n, 8); err != store.ErrConfirmed {
			t.Fatal(err)
		}
		two := open(t, db, l, DefaultLimits)
		if !bytes.Equal(s.state(n), two.state(n)) {
			t.Fatal("two states")
		}
		// The files have what was not undone.
		var log bytes.Buffer
		if err := s.WriteLog(ctx, s.group(n), 8, &log); err != nil {
			t.Fatal(err)
		}
		messages, ok := wire.Vectors(log.Bytes())
		if !ok || len(messages) != 2 || !bytes.Equal(messages[0], proposal) || !bytes.Equal(messages[1], last) {
			t.Fatal(len(messages), ok)
		}
	})
}

// Rows have the receipts that a load needs, also if a refused message has brought some of them, and a load verifies nothing. If
// receipts are lost, the signatures are verified again.
func TestReceipts(t *testing.T) {
	each(t, func(t *testing.T, name string, l *followtest.Library) {
		n := rename(t)
		db := storetest.Open(t, name)
		s := open(t, db, l, DefaultLimits)
		s.start(n, "alice")
		m := commit(n, 1, followtest.ByValue(followtest.Add("carol")))
		s.refuses(n, followtest.Forged(m), 7, 0) // the leaf's signature is good, and is learnt
		s.accepts(n, m, 1)
		state := s.state(n)
		two := open(t, db, l, DefaultLimits)
		two.verify = func(listed []follow.Signature) ([]follow.Receipt, error) {
			t.Error(len(listed), "signatures are verified again")
			return verify.Good(listed)
		}
		if !bytes.Equal(two.state(n), state) {
			t.Fatal("two states")
		}
		var lines bytes.Buffer
		if err := s.WriteReceipts(ctx, s.group(n), 1, &lines); err != nil {
			t.Fatal(err)
		}
		if count := bytes.Count(lines.Bytes(), []byte("\n")); count != 4 { // the info, alice, carol, the commit
			t.Fatal(count)
		}
		three := open(t, lossy{db}, l, DefaultLimits)
		count := 0
		three.verify = func(listed []follow.Signature) ([]follow.Receipt, error) {
			count += len(listed)
			return verify.Good(listed)
		}
		if !bytes.Equal(three.state(n), state) || count != 3 {
			t.Fatal("two states", count)
		}
		three.accepts(n, commit(n, 2), 2)
	})
}

// A group with a stored message that the library refuses now, as one of another version may, is not loaded. The other groups go on.
func TestStoredRefused(t *testing.T) {
	each(t, func(t *testing.T, name string, l *followtest.Library) {
		n := rename(t)
		db := storetest.Open(t, name)
		one := open(t, db, l, DefaultLimits)
		one.start(n, "alice")
		one.start(n+"2", "alice")
		a := one.accepts(n, commit(n, 1), 1)
		newer := &followtest.Library{InPlace: l.InPlace}
		two := open(t, db, newer, DefaultLimits)
		newer.Fault = func(call string) error {
			if call == "Stage" {
				return follow.Refusal{Number: 44}
			}
			return nil
		}
		for i := uint64(1); i <= 2; i++ {
			if a, err := two.Judge(ctx, n, commit(n, i), false); err == nil || !strings.Contains(err.Error(), fmt.Sprintf("the stored message 1 of %q", n)) {
				t.Fatal(a, err)
			}
		}
		two.refuses(n+"2", commit(n+"2", 1), 44, 0)
		newer.Fault = nil
		two.repeats(n, commit(n, 1), a)
		two.accepts(n, commit(n, 2), 2)
	})
}

// An instance that lacks many rows loads the group from its last stored state.
func TestFarBehind(t *testing.T) {
	each(t, func(t *testing.T, name string, l *followtest.Library) {
		n := rename(t)
		db := storetest.Open(t, name)
		behind := &followtest.Library{InPlace: l.InPlace}
		one, two := open(t, db, l, DefaultLimits), open(t, db, behind, DefaultLimits)
		one.start(n, "alice")
		first := commit(n, 1)
		two.repeats(n, first, one.accepts(n, first, 1))
		last := uint64(mostMessages + 2)
		for epoch := uint64(2); epoch <= last; epoch++ {
			one.accepts(n, commit(n, epoch), int64(epoch))
		}
		loads := behind.Resumed.Load()
		two.refuses(n, followtest.Commit(n, 1, alice, "late"), 4, int64(last))
		if behind.Resumed.Load() != loads+1 {
			t.Fatal(behind.Resumed.Load(), loads)
		}
		two.accepts(n, commit(n, last+1), int64(last+1))
	})
}

// lossy is a store that has lost all receipts.
type lossy struct{ *store.Store }

func (l lossy) Load(ctx context.Context, name string) (store.Loaded, error) {
	loaded, err := l.Store.Load(ctx, name)
	loaded.State.Receipts = nil
	for i := range loaded.Rows {
		loaded.Rows[i].Receipts = nil
	}
	return loaded, err
}

func (t tester) limited(name string, message []byte, what string) {
	t.Helper()
	var limit LimitError
	if a, err := t.Judge(ctx, name, message, false); !errors.As(err, &limit) || limit.What != what {
		t.Fatal(a, err)
	}
}

func TestLimits(t *testing.T) {
	each(t, func(t *testing.T, name string, l *followtest.Library) {
		n := rename(t)
		limits := DefaultLimits
		limits.Message, limits.Proposal, limits.Context, limits.Pending, limits.Adds, limits.Members = 1000, 400, 300, 2, 2, 3
		s := open(t, storetest.Open(t, name), l, limits)
		s.start(n, "alice")
		s.limited(n, make([]byte, 1001), "bytes of a message")
		s.refuses(n, make([]byte, 1000), 1, 0)
		s.limited(n, followtest.Proposal(n, 1, alice, string(make([]byte, 300)), followtest.Remove(0)), "bytes of a proposal")
		s.limited(n, commit(n, 1, followtest.ByValue(followtest.ContextExtensions(310))), "bytes of a GroupContext")
		s.accepts(n, commit(n, 1, followtest.ByValue(followtest.ContextExtensions(200))), 1)
		adds := [][]byte{}
		var references [][]byte
		for _, who := range []string{"bob", "carol"} {
			m := followtest.Proposal(n, 2, alice, "", followtest.Add(who))
			s.accepts(n, m, int64(len(adds)+2))
			adds, references = append(adds, m), append(references, followtest.ByReference(followtest.Reference(m)))
		}
		s.limited(n, followtest.Proposal(n, 2, alice, "", followtest.Add("dave")), "proposals of an epoch")
		if a := s.judge(n, adds[0]); !a.Repeated {
			t.Fatalf("%+v", a)
		}
		dave := followtest.ByValue(followtest.Add("dave"))
		s.limited(n, commit(n, 2, append(references, dave)...), "Adds of a commit")
		s.limited(n, commit(n, 2, dave, dave, dave), "Adds of a commit")
		s.accepts(n, commit(n, 2, references...), 4)
		s.limited(n, commit(n, 3, dave), "members")
		if g := s.group(n); g.Seq != 4 || g.Members != 3 {
			t.Fatal(g)
		}
		s.accepts(n, commit(n, 3, followtest.ByValue(followtest.Remove(1)), dave), 5)
		var limit LimitError
		_, _, err := s.Start(ctx, n+"2", strict, followtest.Info(n, 1), followtest.Tree("a", "b", "c", "d"))
		if !errors.As(err, &limit) || limit.What != "members" {
			t.Fatal(err)
		}
		_, _, err = s.Start(ctx, n+"3", strict, followtest.Info(string(make([]byte, 300)), 1), followtest.Tree("a"))
		if !errors.As(err, &limit) || limit.What != "bytes of a GroupContext" {
			t.Fatal(err)
		}
	})
}

// An instance that is behind does not take the proposals of a past epoch for those of the current one.
func TestLimitsBehind(t *testing.T) {
	each(t, func(t *testing.T, name string, l *followtest.Library) {
		n := rename(t)
		db := storetest.Open(t, name)
		limits := DefaultLimits
		limits.Pending = 1
		one, two := open(t, db, l, limits), open(t, db, &followtest.Library{InPlace: l.InPlace}, limits)
		one.start(n, "alice")
		first := followtest.Proposal(n, 1, alice, "", followtest.Remove(0))
		a := one.accepts(n, first, 1)
		two.accepts(n, commit(n, 1), 2)
		one.limits.Pending = 0
		one.limited(n, followtest.Proposal(n, 2, alice, "", followtest.Remove(0)), "proposals of an epoch")
		one.limits.Pending = 1
		one.repeats(n, first, a)
		one.refuses(n, followtest.Proposal(n, 1, alice, "late", followtest.Remove(0)), 4, 2)
		two.accepts(n, followtest.Proposal(n, 2, alice, "", followtest.Remove(0)), 3)
		two.accepts(n, commit(n, 2), 4)
		one.accepts(n, followtest.Proposal(n, 3, alice, "", followtest.Remove(0)), 5)
		two.limited(n, followtest.Proposal(n, 3, alice, "another", followtest.Remove(0)), "proposals of an epoch")
	})
}

// Senders outside the group need to be allowed.
func TestOutside(t *testing.T) {
	each(t, func(t *testing.T, name string, l *followtest.Library) {
		n := rename(t)
		s := open(t, storetest.Open(t, name), l, DefaultLimits)
		if _, _, err := s.Start(ctx, n, Options{Profile: follow.Full, Rules: follow.Strict}, followtest.Info(n, 1), followtest.Tree("alice")); err != nil {
			t.Fatal(err)
		}
		for i, kind := range []byte{follow.SenderExternal, follow.SenderNewMemberProposal} {
			m := followtest.Proposal(n, 1, followtest.Sender{Kind: kind, Name: fmt.Sprint("outside ", kind)}, "", followtest.Add("bob"))
			if _, err := s.Judge(ctx, n, m, false); err != ErrOutside {
				t.Fatal(err)
			}
			if a, err := s.Judge(ctx, n, m, true); err != nil || a.Sequence != int64(i+1) {
				t.Fatal(a, err)
			}
			// Also one whose sender is read and whose content is not.
			if _, err := s.Judge(ctx, n, m[:len(m)-100], false); err != ErrOutside {
				t.Fatal(err)
			}
		}
	})
}

func TestLifetimes(t *testing.T) {
	each(t, func(t *testing.T, name string, l *followtest.Library) {
		n := rename(t)
		db := storetest.Open(t, name)
		s := open(t, db, l, DefaultLimits)
		s.start(n, "alice")
		m := commit(n, 1, followtest.ByValue(followtest.Add("bob")))
		now := followtest.Late
		s.now = func() time.Time { return now }
		s.refuses(n, m, 53, 0)
		now = followtest.Late.Add(-time.Second)
		s.accepts(n, m, 1)
		// What was accepted then is loaded later.
		two := open(t, db, l, DefaultLimits)
		two.now = func() time.Time { return followtest.Late }
		two.accepts(n, commit(n, 2), 2)
		untimed := strict
		untimed.Timed = false
		if _, _, err := two.Start(ctx, n+"2", untimed, followtest.Info(n, 1), followtest.Tree("alice")); err != nil {
			t.Fatal(err)
		}
		two.accepts(n+"2", m, 1)
	})
}

// Groups beyond the limit are let go, and loaded when a message comes.
func TestEviction(t *testing.T) {
	each(t, func(t *testing.T, name string, l *followtest.Library) {
		limits := DefaultLimits
		limits.Bytes = 5000 // a group of one member has 1000
		s := open(t, storetest.Open(t, name), l, limits)
		const count = 20
		names := make([]string, count)
		for i := range names {
			names[i] = fmt.Sprint(rename(t), i)
			s.start(names[i], "alice")
		}
		for epoch := uint64(1); epoch <= 3; epoch++ {
			for _, n := range names {
				s.accepts(n, commit(n, epoch), int64(epoch))
				if open := l.Open.Load(); open > 6 {
					t.Fatal(open, "groups in memory")
				}
			}
		}
		if s.size > limits.Bytes || len(s.groups) != 5 || s.used.Len() != 5 {
			t.Fatal(s.size, len(s.groups), s.used.Len())
		}
		resumed := l.Resumed.Load()
		s.accepts(names[count-1], commit(names[count-1], 4), 4)
		if l.Resumed.Load() != resumed {
			t.Fatal("the group that was used last was not in memory")
		}
		for i := 0; i < 100; i++ {
			s.Judge(ctx, fmt.Sprint("none", i), commit("none", 1), false)
		}
		if len(s.groups) > 5 {
			t.Fatal(len(s.groups))
		}
	})
}

// States are stored, so that a load processes few messages.
func TestStates(t *testing.T) {
	each(t, func(t *testing.T, name string, l *followtest.Library) {
		n := rename(t)
		db := storetest.Open(t, name)
		s := open(t, db, l, DefaultLimits)
		s.start(n, "alice")
		big := make([]byte, leastBytes/4)
		for epoch := uint64(1); epoch <= 11; epoch++ {
			s.accepts(n, followtest.Commit(n, epoch, alice, string(big)), int64(epoch))
			s.after.Wait()
		}
		deadline := time.Now().Add(time.Minute)
		var loaded store.Loaded
		for {
			var err error
			if loaded, err = db.Load(ctx, n); err != nil {
				t.Fatal(err)
			}
			if loaded.State.Seq == 8 || time.Now().After(deadline) {
				break
			}
			time.Sleep(time.Millisecond)
		}
		if loaded.State.Seq != 8 || len(loaded.Rows) != 3 {
			t.Fatal(loaded.State.Seq, len(loaded.Rows))
		}
		two := open(t, db, &followtest.Library{InPlace: l.InPlace}, DefaultLimits)
		if !bytes.Equal(two.state(n), s.state(n)) {
			t.Fatal("two states")
		}
		if _, err := s.Undo(ctx, n, 7); err != nil {
			t.Fatal(err)
		}
		s.accepts(n, commit(n, 7), 13)
	})
}

// A fault while a state is taken loses nothing, and the next message is answered.
func TestStateFaults(t *testing.T) {
	each(t, func(t *testing.T, name string, l *followtest.Library) {
		n := rename(t)
		s := open(t, storetest.Open(t, name), l, DefaultLimits)
		s.start(n, "alice")
		epoch := uint64(1)
		for _, call := range []string{"State", "Forget", "panic"} {
			l.Fault = func(called string) error {
				if called == "State" && call == "panic" {
					panic("a panic")
				}
				if called == call {
					return errors.New("no memory")
				}
				return nil
			}
			s.accepts(n, followtest.Commit(n, epoch, alice, string(make([]byte, leastBytes))), int64(epoch))
			s.after.Wait()
			l.Fault = nil
			s.accepts(n, commit(n, epoch+1), int64(epoch+1))
			s.after.Wait()
			epoch += 2
		}
		if count := bytes.Count(s.lines.Bytes(), []byte("state_not_stored")); count != 3 {
			t.Fatal(count, s.lines)
		}
	})
}

// Many clients of one group, each message sent twice: each is stored once, in the order of the sequences.
func TestManyClients(t *testing.T) {
	each(t, func(t *testing.T, name string, l *followtest.Library) {
		n := rename(t)
		s := open(t, storetest.Open(t, name), l, DefaultLimits)
		s.start(n, "alice", "bob")
		const clients = 10
		var all sync.WaitGroup
		for c := 0; c < 2*clients; c++ {
			all.Add(1)
			go func(c int) {
				defer all.Done()
				for i := 0; i < 10; i++ {
					m := followtest.Proposal(n, 1, bob, fmt.Sprint(c%clients, i), followtest.Remove(0))
					if a, err := s.Judge(ctx, n, m, false); err != nil || a.Verdict != Accepted {
						t.Error(a, err)
					}
				}
			}(c)
		}
		all.Wait()
		rows, err := s.Rows(ctx, s.group(n).ID, 0, 1000)
		if err != nil || len(rows) != 10*clients {
			t.Fatal(len(rows), err)
		}
		for i, r := range rows {
			var a Answer
			if err := json.Unmarshal([]byte(r.Answer), &a); err != nil || r.Seq != int64(i+1) || a.Sequence != r.Seq {
				t.Fatal(i, r.Seq, a, err)
			}
		}
	})
}

// Who would wait behind too many others for a group is told at once that the service is busy.
func TestWaiting(t *testing.T) {
	each(t, func(t *testing.T, name string, l *followtest.Library) {
		n := rename(t)
		limits := DefaultLimits
		limits.Waiting = 3
		s := open(t, storetest.Open(t, name), l, limits)
		s.start(n, "alice")
		s.start(n+"2", "alice")
		g, err := s.hold(ctx, n)
		if err != nil {
			t.Fatal(err)
		}
		errs := make(chan error, limits.Waiting)
		for i := 0; i < limits.Waiting; i++ {
			go func() {
				_, err := s.Judge(ctx, n, commit(n, 1), false)
				errs <- err
			}()
		}
		waiting := func() int {
			s.mu.Lock()
			defer s.mu.Unlock()
			return g.users - 1
		}
		for waiting() < limits.Waiting {
			time.Sleep(time.Millisecond)
		}
		if _, err := s.Judge(ctx, n, commit(n, 1), false); err != ErrBusy {
			t.Fatal(err)
		}
		s.accepts(n+"2", commit(n+"2", 1), 1)
		s.release(g)
		for i := 0; i < limits.Waiting; i++ {
			if err := <-errs; err != nil {
				t.Fatal(err)
			}
		}
		s.repeats(n, commit(n, 1), s.judge(n, commit(n, 1)))
	})
}

// Who waits too long for a group is told so, and the group is as it was.
func TestBusy(t *testing.T) {
	each(t, func(t *testing.T, name string, l *followtest.Library) {
		n := rename(t)
		s := open(t, storetest.Open(t, name), l, DefaultLimits)
		s.start(n, "alice")
		g, err := s.hold(ctx, n)
		if err != nil {
			t.Fatal(err)
		}
		soon, cancel := context.WithTimeout(ctx, 10*time.Millisecond)
		defer cancel()
		if _, err := s.Judge(soon, n, commit(n, 1), false); err != ErrBusy {
			t.Fatal(err)
		}
		s.release(g)
		s.accepts(n, commit(n, 1), 1)
	})
}

// A client that goes away does not leave its message half stored.
func TestGoneClient(t *testing.T) {
	each(t, func(t *testing.T, name string, l *followtest.Library) {
		n := rename(t)
		s := open(t, storetest.Open(t, name), l, DefaultLimits)
		s.start(n, "alice")
		s.state(n) // it is in memory
		gone, cancel := context.WithCancel(ctx)
		l.Fault = func(call string) error {
			if call == "Stage" {
				cancel()
			}
			return nil
		}
		a, err := s.Judge(gone, n, commit(n, 1), false)
		l.Fault = nil
		if err != nil || a.Verdict != Accepted {
			t.Fatal(a, err)
		}
		s.repeats(n, commit(n, 1), a)
	})
}

// A log that is written while a commit is undone is not taken for whole.
func TestLogDuringUndo(t *testing.T) {
	each(t, func(t *testing.T, name string, l *followtest.Library) {
		n := rename(t)
		s := open(t, storetest.Open(t, name), l, DefaultLimits)
		s.start(n, "alice")
		s.accepts(n, commit(n, 1), 1)
		g := s.group(n)
		if _, err := s.Undo(ctx, n, 1); err != nil {
			t.Fatal(err)
		}
		if err := s.WriteLog(ctx, g, g.Seq, io.Discard); err != errUndo {
			t.Fatal(err)
		}
		if err := s.WriteLog(ctx, s.group(n), 2, io.Discard); err != nil {
			t.Fatal(err)
		}
	})
}

// After a restore from an older backup members are ahead, and their messages are refused. Those that were lost may be sent again.
func TestRestore(t *testing.T) {
	name := filepath.Join(t.TempDir(), "groups.db")
	l := &followtest.Library{}
	var backup []byte
	var answers []Answer
	for round := 0; round < 2; round++ {
		db := storetest.Open(t, name)
		s := open(t, db, l, DefaultLimits)
		if round == 0 {
			s.start("g", "alice")
		}
		for i := 2 * round; i < 2*round+2; i++ {
			answers = append(answers, s.accepts("g", commit("g", uint64(i+1)), int64(i+1)))
		}
		db.Close()
		if data, err := os.ReadFile(name); err != nil {
			t.Fatal(err)
		} else if round == 0 {
			backup = data
		}
	}
	if err := os.WriteFile(name, backup, 0o600); err != nil {
		t.Fatal(err)
	}
	s := open(t, storetest.Open(t, name), l, DefaultLimits)
	s.refuses("g", commit("g", 5), 4, 2)
	s.repeats("g", commit("g", 2), answers[1])
	for i := 2; i < 4; i++ {
		if a := s.accepts("g", commit("g", uint64(i+1)), int64(i+1)); a != answers[i] {
			t.Fatal(a, answers[i])
		}
	}
	s.accepts("g", commit("g", 5), 5)
}

// moved is a store in whose place another one comes, as after a database has failed over.
type moved struct{ *store.Store }

// A service whose store has lost rows, and has others in their place, goes on with what the store has: it neither adds to a log
// that is not its own, nor refuses by one.
func TestLostRows(t *testing.T) {
	for _, in := range []bool{false, true} {
		l := &followtest.Library{InPlace: in}
		for _, others := range [][]string{{"one"}, {"one", "another"}, {"another", "two"}, {"another", "two", "three"}} {
			folder := t.TempDir()
			db := &moved{storetest.Open(t, filepath.Join(folder, "db"))}
			s := open(t, db, l, DefaultLimits)
			s.start("g", "alice", "bob")
			send := func(to tester, epoch int, data string) Answer {
				return to.judge("g", followtest.Commit("g", uint64(epoch), bob, data))
			}
			send(s, 1, "one")
			send(s, 2, "two")
			two := open(t, storetest.Open(t, filepath.Join(folder, "other")), &followtest.Library{}, DefaultLimits)
			two.start("g", "alice", "bob")
			for i, data := range others {
				send(two, i+1, data)
			}
			db.Store = two.Service.store.(*store.Store)
			count := len(others)
			if count == 1 {
				// It is lost, and accepted again.
				if a := send(s, 2, "two"); a.Verdict != Accepted || a.Repeated || a.Sequence != 2 {
					t.Fatalf("%+v", a)
				}
				count = 2
			}
			a := send(s, count+1, "next")
			if a.Verdict != Accepted || a.Sequence != int64(count+1) {
				t.Fatalf("%v: %+v", others, a)
			}
			a.Repeated = true
			if b := send(two, count+1, "next"); a != b {
				t.Fatalf("%v: %+v, and not %+v", others, a, b)
			}
			if !bytes.Equal(s.state("g"), two.state("g")) {
				t.Fatal(others, "two states")
			}
		}
	}
}

// late is a store that makes undos later than it says.
type late struct {
	*store.Store
	now   bool
	make  func() error
	after func()
}

func (l *late) Undo(ctx context.Context, g store.Group, commit int64, at time.Time) error {
	l.make = func() error { return l.Store.Undo(context.Background(), g, commit, at) }
	if !l.now {
		return context.DeadlineExceeded
	}
	defer l.after()
	return l.make()
}

// An undo of which the store did not say what came of it counts once it is made. One after which another service adds rows
// leaves a group in memory no place that it does not have.
func TestLateUndo(t *testing.T) {
	each(t, func(t *testing.T, name string, l *followtest.Library) {
		n := rename(t)
		db := &late{Store: storetest.Open(t, name)}
		s := open(t, db, l, DefaultLimits)
		s.start(n, "alice", "bob")
		bad := commit(n, 1)
		s.accepts(n, bad, 1)
		if _, err := s.Undo(ctx, n, 1); err != context.DeadlineExceeded {
			t.Fatal(err)
		}
		s.state(n) // it is in memory again, with the commit
		if err := db.make(); err != nil {
			t.Fatal(err)
		}
		if u := s.judge(n, bad); u.Verdict != Undone || u.Sequence != 2 {
			t.Fatalf("%+v", u)
		}
		s.accepts(n, followtest.Commit(n, 1, bob, "good"), 3)

		two := open(t, db.Store, &followtest.Library{}, DefaultLimits)
		db.now = true
		db.after = func() { two.accepts(n, followtest.Commit(n, 1, bob, "better"), 5) }
		if g, err := s.Undo(ctx, n, 3); err != nil || g.Seq != 5 {
			t.Fatal(g, err)
		}
		s.accepts(n, commit(n, 2), 6)
		if !bytes.Equal(s.state(n), two.state(n)) {
			t.Fatal("two states")
		}
	})
}

// Of a refused message the first bytes are kept for a person to read.
func TestRefusals(t *testing.T) {
	each(t, func(t *testing.T, name string, l *followtest.Library) {
		n := rename(t)
		s := open(t, storetest.Open(t, name), l, DefaultLimits)
		g := s.start(n, "alice")
		message := bytes.Repeat([]byte("no message "), 1000)
		s.refuses(n, message, 1, 0)
		for end := time.Now().Add(time.Minute); ; time.Sleep(time.Millisecond) {
			list, err := s.Refusals(ctx, g.ID, 10)
			if err != nil || time.Now().After(end) {
				t.Fatal(list, err)
			}
			if len(list) == 0 {
				continue
			}
			digest := sha256.Sum256(message)
			if len(list) != 1 || list[0].Rule != 1 || !bytes.Equal(list[0].Message, message[:4096]) || !bytes.Equal(list[0].Digest, digest[:]) {
				t.Fatal(list)
			}
			return
		}
	})
}

// Refused messages are logged as one line of JSON each, whatever their bytes and names are.
func TestEvents(t *testing.T) {
	each(t, func(t *testing.T, name string, l *followtest.Library) {
		n := rename(t) + "\"}\u2028<b>&"
		s := open(t, storetest.Open(t, name), l, DefaultLimits)
		s.start(n, "alice")
		s.refuses(n, []byte("\n{\"level\":\"ERROR\"}\n"), 1, 0)
		var line map[string]any
		if err := json.Unmarshal(s.lines.Bytes(), &line); err != nil || bytes.Count(s.lines.Bytes(), []byte("\n")) != 1 {
			t.Fatal(s.lines, err)
		}
		if line["msg"] != "refused" || line["group"] != n || line["rule"] != 1.0 || line["name"] != "Malformed" {
			t.Fatal(line)
		}
	})
}
