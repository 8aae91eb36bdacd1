package library

import (
	"bytes"
	"encoding/hex"
	"errors"
	"fmt"
	"os"
	"strings"
	"testing"
	"time"

	"mlscheck"
	"mlscheckd/internal/follow"
	"mlscheckd/internal/verify"
	"mlscheckd/internal/wire"
)

func file(t *testing.T, name string) []byte {
	t.Helper()
	data, err := os.ReadFile("../../../../examples/" + name)
	if err != nil {
		t.Fatal(err)
	}
	return data
}

func good(t *testing.T, listed []follow.Signature, err error) []follow.Receipt {
	t.Helper()
	if err != nil {
		t.Fatal(err)
	}
	receipts, err := verify.Good(listed)
	if err != nil || len(receipts) != len(listed) {
		t.Fatal(len(receipts), len(listed), err)
	}
	return receipts
}

func started(t *testing.T) follow.Group {
	t.Helper()
	info := file(t, "real/epoch-1.info")
	listed, err := Library{}.StartQuery(info, nil)
	g, err := Library{}.Start(follow.Members, follow.Strict, info, nil, good(t, listed, err))
	if err != nil {
		t.Fatal(err)
	}
	t.Cleanup(g.Close)
	return g
}

func stage(t *testing.T, g follow.Group, message []byte) (follow.Staged, error) {
	t.Helper()
	listed, err := g.Query(message)
	if err := g.Learn(good(t, listed, err)); err != nil {
		t.Fatal(err)
	}
	return g.Stage(message, time.Time{})
}

// Follows the group of examples/real with true signatures, and forgets and resumes after each message. The lines are those that
// examples/c/expected.txt has, and the trees those that the members had.
func TestRealGroup(t *testing.T) {
	g := started(t)
	messages, _ := wire.Vectors(file(t, "real/handshakes.log"))
	lines := strings.Split(strings.TrimSpace(string(file(t, "c/expected.txt"))), "\n")[1:]
	for i, message := range messages {
		staged, err := stage(t, g, message)
		if err != nil {
			t.Fatal(i, err)
		}
		if err := g.Apply(); err != nil {
			t.Fatal(err)
		}
		line := "accepted proposal " + hex.EncodeToString(staged.Reference)
		if staged.Reference == nil {
			line = fmt.Sprintf("accepted commit %d %x %x", staged.Epoch, staged.TreeHash, staged.Confirmed)
		}
		if line != lines[i] {
			t.Fatal(line)
		}
		facts, err := g.Facts()
		if err != nil || fmt.Sprint(facts) != fmt.Sprint(staged.Facts) {
			t.Fatal(facts, staged, err)
		}
		state, err := g.State()
		if err != nil {
			t.Fatal(err)
		}
		if err := g.Forget(); err != nil {
			t.Fatal(err)
		}
		again, err := g.State()
		if err != nil || !bytes.Equal(state, again) {
			t.Fatal("another state", err)
		}
		listed, err := Library{}.ResumeQuery(state, nil)
		other, err := Library{}.Resume(follow.Members, state, good(t, listed, err))
		if err != nil {
			t.Fatal(err)
		}
		again, err = other.State()
		other.Close()
		other.Close()
		if err != nil || !bytes.Equal(state, again) {
			t.Fatal("another state", err)
		}
		if g.Size() < int64(len(state)) {
			t.Fatal(g.Size())
		}
		if staged.Epoch == 4 || staged.Epoch == 8 {
			tree, err := g.Tree()
			nodes, err2 := g.Nodes()
			if err != nil || err2 != nil || !bytes.Equal(tree, file(t, fmt.Sprintf("real/epoch-%d.tree", staged.Epoch))) || len(nodes) == 0 {
				t.Fatal(staged.Epoch, err, err2)
			}
		}
	}
}

// A message that is refused changes nothing, and one that is staged cannot be taken back yet.
func TestRefused(t *testing.T) {
	g := started(t)
	messages, _ := wire.Vectors(file(t, "real/handshakes.log"))
	before, _ := g.State()
	for _, test := range []struct {
		message []byte
		number  uint32
	}{{nil, 1}, {[]byte("no message"), 1}, {messages[9], 4}, {messages[0], 7}} {
		if _, err := g.Stage(test.message, time.Time{}); err != (follow.Refusal{Number: test.number}) {
			t.Fatal(test.number, err)
		}
		if after, _ := g.State(); !bytes.Equal(before, after) {
			t.Fatal("another state")
		}
	}
	if err := g.Discard(); err != nil {
		t.Fatal(err)
	}
	if _, err := stage(t, g, messages[0]); err != nil {
		t.Fatal(err)
	}
	if err := g.Discard(); err != follow.ErrGone {
		t.Fatal(err)
	}
}

// An Add whose lifetime does not include the time is refused as 53.
func TestLifetimes(t *testing.T) {
	g := started(t)
	messages, _ := wire.Vectors(file(t, "real/handshakes.log"))
	listed, err := g.Query(messages[0])
	g.Learn(good(t, listed, err))
	if _, err := g.Stage(messages[0], time.Unix(1, 0)); err != (follow.Refusal{Number: 53}) {
		t.Fatal(err)
	}
	if _, err := g.Stage(messages[0], time.Date(2027, 1, 1, 0, 0, 0, 0, time.UTC)); err != nil {
		t.Fatal(err)
	}
}

// The sets of rules are the library's.
func TestRuleSets(t *testing.T) {
	if follow.Rules(mlscheck.Strict) != follow.Strict || follow.Rules(mlscheck.Plain) != follow.Plain ||
		follow.Rules(mlscheck.Rule(47)) != follow.Rule(47) {
		t.Fatal(follow.Strict)
	}
}

func TestRefusedStarts(t *testing.T) {
	info, context := file(t, "real/epoch-1.info"), file(t, "real/epoch-1.context")
	for _, test := range []struct {
		info []byte
		want follow.Refused
	}{
		{nil, follow.Refused{Number: 106, Inner: 1}},
		{file(t, "real/commit.message"), follow.Refused{Number: 107}},
		{append(append([]byte{0, 1, 0, 4}, context...), 0, 0, 0, 0, 0, 0, 0), follow.Refused{Number: 3}},
	} {
		if _, err := (Library{}).StartQuery(test.info, nil); err != test.want {
			t.Error(err, test.want)
		}
	}
	if _, err := (Library{}).Start(follow.Members, follow.Strict, info, nil, nil); err != (follow.Refused{Number: 6, Inner: 5}) {
		t.Error(err)
	}
	var refused follow.Refused
	if _, err := (Library{}).Start(9, follow.Strict, info, nil, nil); err == nil || errors.As(err, &refused) {
		t.Error(err)
	}
	if _, err := (Library{}).Resume(follow.Members, []byte("no state"), nil); !errors.As(err, &refused) || refused.Number != 1 {
		t.Error(err)
	}
}
