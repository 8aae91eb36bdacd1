package wire

import (
	"bytes"
	"encoding/hex"
	"os"
	"testing"

	"mlscheckd/internal/follow"
)

func file(t *testing.T, name string) []byte {
	t.Helper()
	data, err := os.ReadFile("../../../examples/" + name)
	if err != nil {
		t.Fatal(err)
	}
	return data
}

// The log of the real group: examples/real/README.md says that it has ten messages, three proposals and seven commits, from
// epoch 1 to epoch 8, and that commit.message is the fifth, which removes a member by a reference and adds another.
func TestRealMessages(t *testing.T) {
	messages, ok := Vectors(file(t, "real/handshakes.log"))
	if !ok || len(messages) != 10 {
		t.Fatal(len(messages), ok)
	}
	count, epoch := map[byte]int{}, uint64(1)
	for i, message := range messages {
		m, ok := Message(message)
		if !ok || m.Sender != follow.SenderMember || m.Epoch != epoch {
			t.Fatal(i, m, ok)
		}
		count[m.Content]++
		if m.Content == follow.ContentCommit {
			epoch++
		}
	}
	if count[follow.ContentProposal] != 3 || count[follow.ContentCommit] != 7 || epoch != 8 {
		t.Fatal(count, epoch)
	}
	if !bytes.Equal(messages[4], file(t, "real/commit.message")) {
		t.Fatal("another message")
	}
	m, _ := Message(messages[4])
	if len(m.Proposals) != 1 || m.Proposals[0].Type != follow.ProposalAdd || len(m.References) != 1 || len(m.References[0]) != 32 {
		t.Fatal(m)
	}
}

func TestInfo(t *testing.T) {
	context := file(t, "real/epoch-1.context")
	facts, ok := Info(file(t, "real/epoch-1.info"))
	group, _ := (&reader{data: context[4:]}).vector(), 0
	if !ok || facts.Epoch != 1 || facts.ContextSize != len(context) || !bytes.Equal(facts.GroupID, group) {
		t.Fatal(facts, ok)
	}
	for _, other := range [][]byte{nil, {0, 1}, {0, 1, 0, 1}, file(t, "real/epoch-1.info")[:100], file(t, "real/commit.message")} {
		if facts, ok := Info(other); ok {
			t.Fatal(facts)
		}
	}
}

// The trees of the real group have at most three members; in epoch 4 a parent has an unmerged leaf.
func TestNodes(t *testing.T) {
	for _, test := range []struct {
		name              string
		members, unmerged int
	}{{"real/epoch-1.tree", 2, 0}, {"real/epoch-4.tree", 3, 1}, {"real/epoch-8.tree", 3, 0}, {"six-members.tree", 6, 0}} {
		nodes, err := Nodes(file(t, test.name))
		if err != nil {
			t.Fatal(test.name, err)
		}
		members, unmerged := 0, 0
		for i, n := range nodes {
			if n.Member != nil {
				members++
				if int(n.Member.Leaf) != i/2 || i%2 != 0 {
					t.Fatal(test.name, i, n.Member.Leaf)
				}
			}
			unmerged += len(n.Unmerged)
		}
		if members != test.members || unmerged < test.unmerged || test.unmerged == 0 && unmerged > 0 && test.name[0] == 'r' {
			t.Fatal(test.name, members, unmerged)
		}
	}
	tree := file(t, "real/epoch-4.tree")
	for i := range tree {
		if _, err := Nodes(tree[:i]); err == nil {
			t.Fatal(i)
		}
	}
}

// Lengths by RFC 9420, 2.1.2 and its examples in RFC 9000, A.1.
func TestVectors(t *testing.T) {
	for _, test := range []struct {
		length int
		front  string
	}{{0, "00"}, {37, "25"}, {63, "3f"}, {64, "4040"}, {15293, "7bbd"}, {16383, "7fff"}, {16384, "80004000"}} {
		body := bytes.Repeat([]byte{0xaa}, test.length)
		encoded := AppendVector(nil, body)
		front := encoded[:len(encoded)-test.length]
		if hex.EncodeToString(front) != test.front {
			t.Fatalf("%d: %x", test.length, front)
		}
		got, ok := Vectors(append(encoded, encoded...))
		if !ok || len(got) != 2 || !bytes.Equal(got[1], body) {
			t.Fatal(test.length, ok)
		}
		if _, ok := Vectors(encoded[:len(encoded)-1]); ok && len(encoded) > 1 {
			t.Fatal(test.length)
		}
	}
	if _, ok := Vectors([]byte{0xc0}); ok {
		t.Fatal("a length with the prefix 3")
	}
}

// Each front of a message is unreadable, and none makes the reader panic.
func TestFronts(t *testing.T) {
	message := file(t, "real/commit.message")
	for i := range message[:len(message)-1] {
		m, ok := Message(message[:i])
		if ok && m.Content == 0 || m.Content != 0 && m.Sender != follow.SenderMember {
			t.Fatal(i, m)
		}
	}
	for i := range message {
		for bit := 0; bit < 8; bit++ {
			changed := append([]byte{}, message...)
			changed[i] ^= 1 << bit
			Message(changed)
		}
	}
}

func FuzzMessage(f *testing.F) {
	f.Add([]byte{0, 1, 0, 1})
	f.Fuzz(func(t *testing.T, data []byte) {
		Message(data)
		Info(data)
		Nodes(data)
		Vectors(data)
		StateTree(data)
	})
}
