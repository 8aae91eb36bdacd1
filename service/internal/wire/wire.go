// Package wire reads the few bytes of messages and states that limits, the policy for senders outside a group and the pages need.
// Nothing of it decides on a message.
package wire

import (
	"encoding/binary"
	"errors"

	"mlscheckd/internal/follow"
)

// ErrUnreadable says that bytes do not encode what they should.
var ErrUnreadable = errors.New("the bytes cannot be read")

// A reader takes fields from the front of bytes. After a failure it takes nothing more.
type reader struct {
	data []byte
	bad  bool
}

func (r *reader) take(n int) []byte {
	if r.bad || n < 0 || len(r.data) < n {
		r.bad = true
		return nil
	}
	part := r.data[:n:n]
	r.data = r.data[n:]
	return part
}

func (r *reader) uint8() uint8 {
	if b := r.take(1); b != nil {
		return b[0]
	}
	return 0
}

func (r *reader) uint16() uint16 {
	if b := r.take(2); b != nil {
		return binary.BigEndian.Uint16(b)
	}
	return 0
}

func (r *reader) uint32() uint32 {
	if b := r.take(4); b != nil {
		return binary.BigEndian.Uint32(b)
	}
	return 0
}

func (r *reader) uint64() uint64 {
	if b := r.take(8); b != nil {
		return binary.BigEndian.Uint64(b)
	}
	return 0
}

// vector takes a variable-size vector (RFC 9420, 2.1.2), and returns its body.
func (r *reader) vector() []byte {
	if r.bad || len(r.data) == 0 || r.data[0]>>6 == 3 {
		r.bad = true
		return nil
	}
	length := r.take(1 << (r.data[0] >> 6))
	if r.bad {
		return nil
	}
	count := int(length[0] & 0x3f)
	for _, b := range length[1:] {
		count = count<<8 | int(b)
	}
	return r.take(count)
}

// optional says whether an optional value follows (2.1.1).
func (r *reader) optional() bool {
	present := r.uint8()
	if present > 1 {
		r.bad = true
	}
	return present == 1
}

// since returns the bytes that were taken since the front was there.
func (r *reader) since(front []byte) []byte {
	return front[:len(front)-len(r.data)]
}

// AppendVector appends a vector with this body.
func AppendVector(to, body []byte) []byte {
	switch n := len(body); {
	case n < 1<<6:
		to = append(to, byte(n))
	case n < 1<<14:
		to = append(to, 0x40|byte(n>>8), byte(n))
	default:
		to = append(to, 0x80|byte(n>>24), byte(n>>16), byte(n>>8), byte(n))
	}
	return append(to, body...)
}

// Vectors returns the bodies of the vectors that bytes consist of, as a replay log has them, and false if they consist of none.
func Vectors(data []byte) (bodies [][]byte, ok bool) {
	r := reader{data: data}
	for len(r.data) > 0 && !r.bad {
		bodies = append(bodies, r.vector())
	}
	return bodies, !r.bad
}

// Message returns what a PublicMessage says of itself (6.2). If the bytes are none, it returns what could be read at their front,
// and false.
func Message(message []byte) (m follow.Message, ok bool) {
	r := &reader{data: message}
	if r.uint16() != 1 || r.uint16() != 1 {
		return m, false
	}
	m.GroupID, m.Epoch, m.Sender = r.vector(), r.uint64(), r.uint8()
	if m.Sender == follow.SenderMember || m.Sender == follow.SenderExternal {
		m.SenderIndex = r.uint32()
	}
	r.vector()
	m.Content = r.uint8()
	switch m.Content {
	case follow.ContentApplication:
		r.vector()
	case follow.ContentProposal:
		m.Proposals = append(m.Proposals, r.proposal())
	case follow.ContentCommit:
		list := reader{data: r.vector()}
		for len(list.data) > 0 && !list.bad {
			if list.uint8() == 2 {
				m.References = append(m.References, list.vector())
			} else {
				m.Proposals = append(m.Proposals, list.proposal())
			}
		}
		r.bad = r.bad || list.bad
	default:
		r.bad = true
	}
	return m, !r.bad
}

// proposal takes a proposal (12.1).
func (r *reader) proposal() follow.Proposal {
	front := r.data
	kind := r.uint16()
	switch kind {
	case follow.ProposalAdd:
		r.uint16()
		r.uint16()
		r.vector()
		r.leaf()
		r.vector()
		r.vector()
	case 2:
		r.leaf()
	case 3:
		r.uint32()
	case 4:
		r.preSharedKey()
	case 5:
		r.vector()
		r.uint16()
		r.uint16()
		r.vector()
	case 6, follow.ProposalContextExtensions:
		r.vector()
	default:
		r.bad = true
	}
	return follow.Proposal{Type: kind, Size: len(r.since(front))}
}

// preSharedKey takes a PreSharedKeyID (8.4).
func (r *reader) preSharedKey() {
	switch r.uint8() {
	case 1:
		r.vector()
	case 2:
		r.uint8()
		r.vector()
		r.uint64()
	default:
		r.bad = true
	}
	r.vector()
}

// leaf takes a LeafNode (7.2).
func (r *reader) leaf() (key []byte, member *follow.Member) {
	key, member = r.vector(), new(follow.Member)
	member.SignatureKey = r.vector()
	member.Credential = r.credential()
	for i := 0; i < 5; i++ {
		r.vector()
	}
	switch r.uint8() {
	case 1:
		r.take(16)
	case 2:
	case 3:
		r.vector()
	default:
		r.bad = true
	}
	r.vector()
	r.vector()
	return key, member
}

// credential takes a Credential (5.3).
func (r *reader) credential() (c follow.Credential) {
	c.Type = r.uint16()
	switch c.Type {
	case follow.CredentialBasic:
		c.Identity = r.vector()
	case follow.CredentialX509:
		list := reader{data: r.vector()}
		for len(list.data) > 0 && !list.bad {
			c.Certificates = append(c.Certificates, list.vector())
		}
		r.bad = r.bad || list.bad
	default:
		r.bad = true
	}
	return c
}

// context takes a GroupContext (8.1).
func (r *reader) context() (group []byte, epoch uint64) {
	r.uint32()
	group, epoch = r.vector(), r.uint64()
	r.vector()
	r.vector()
	r.vector()
	return group, epoch
}

// Info returns what a GroupInfo in an MLSMessage says of itself (12.4.3), and false if the bytes are none.
func Info(info []byte) (facts follow.Info, ok bool) {
	r := &reader{data: info}
	if r.uint16() != 1 || r.uint16() != 4 {
		return facts, false
	}
	front := r.data
	facts.GroupID, facts.Epoch = r.context()
	facts.ContextSize = len(r.since(front))
	return facts, !r.bad
}

// StateTree returns the ratchet tree of a state file (docs/FORMATS.md).
func StateTree(state []byte) ([]byte, error) {
	r := &reader{data: state}
	r.uint16()
	r.vector()
	r.uint32()
	r.context()
	r.vector()
	front := r.data
	r.vector()
	if r.bad {
		return nil, ErrUnreadable
	}
	return r.since(front), nil
}

// Nodes returns the nodes of a ratchet tree (12.4.3.3), with the blank ones at its end left out.
func Nodes(tree []byte) (nodes []follow.Node, err error) {
	outer := &reader{data: tree}
	r := &reader{data: outer.vector()}
	for len(r.data) > 0 && !r.bad {
		var node follow.Node
		switch {
		case !r.optional():
			node.Blank = true
		case r.uint8() == 1:
			node.Key, node.Member = r.leaf()
			node.Member.Leaf = uint32(len(nodes) / 2)
		default:
			node.Key = r.vector()
			r.vector()
			unmerged := reader{data: r.vector()}
			for len(unmerged.data) > 0 && !unmerged.bad {
				node.Unmerged = append(node.Unmerged, unmerged.uint32())
			}
			r.bad = r.bad || unmerged.bad
		}
		nodes = append(nodes, node)
	}
	if outer.bad || r.bad {
		return nil, ErrUnreadable
	}
	return nodes, nil
}
