package followtest

import (
	"crypto/ed25519"
	"crypto/sha256"
	"encoding/binary"

	"mlscheckd/internal/follow"
	"mlscheckd/internal/wire"
)

// Key returns the signature key of a member with this name.
func Key(name string) ed25519.PrivateKey {
	seed := sha256.Sum256([]byte(name))
	return ed25519.NewKeyFromSeed(seed[:])
}

func public(name string) []byte { return Key(name).Public().(ed25519.PublicKey) }

func vector(body ...byte) []byte { return wire.AppendVector(nil, body) }

func joined(parts ...[]byte) (all []byte) {
	for _, p := range parts {
		all = append(all, p...)
	}
	return all
}

func uint16s(n int) []byte { return binary.BigEndian.AppendUint16(nil, uint16(n)) }
func uint32s(n int) []byte { return binary.BigEndian.AppendUint32(nil, uint32(n)) }

// Leaf returns a LeafNode (RFC 9420, 7.2) of the source key_package, with the identity name.
func Leaf(name string) []byte {
	return joined(vector([]byte("encryption key of "+name)...), vector(public(name)...), uint16s(1), vector([]byte(name)...),
		vector(0, 1), vector(0, 1), vector(), vector(), vector(0, 1), []byte{1}, make([]byte, 16), vector(), vector([]byte("leaf signature")...))
}

// Add returns an Add proposal (12.1.1) of a client with this name.
func Add(name string) []byte {
	return joined(uint16s(1), uint16s(1), uint16s(1), vector([]byte("init key of "+name)...), Leaf(name), vector(),
		vector([]byte("signature")...))
}

// Remove returns a Remove proposal (12.1.3).
func Remove(leaf int) []byte { return joined(uint16s(3), uint32s(leaf)) }

// ReInit returns a ReInit proposal (12.1.5).
func ReInit() []byte {
	return joined(uint16s(5), vector([]byte("next")...), uint16s(1), uint16s(1), vector())
}

// ContextExtensions returns a GroupContextExtensions proposal (12.1.7) with about this many bytes.
func ContextExtensions(size int) []byte { return joined(uint16s(7), vector(make([]byte, size)...)) }

// ByValue returns a proposal of a commit's list by value (12.4).
func ByValue(proposal []byte) []byte { return joined([]byte{1}, proposal) }

// ByReference returns a proposal of a commit's list by reference.
func ByReference(reference []byte) []byte { return joined([]byte{2}, vector(reference...)) }

// Context returns a GroupContext (8.1).
func Context(group string, epoch uint64) []byte {
	return joined(uint16s(1), uint16s(1), vector([]byte(group)...), binary.BigEndian.AppendUint64(nil, epoch), vector(), vector(), vector())
}

// Info returns a GroupInfo as an MLSMessage (12.4.3).
func Info(group string, epoch uint64) []byte {
	return joined(uint16s(1), uint16s(4), Context(group, epoch), vector(), vector(), uint32s(0), vector())
}

// Tree returns a ratchet_tree (12.4.3.3) with a leaf for each name, and with parents that have no key of their own.
func Tree(names ...string) []byte {
	var nodes []byte
	for i, name := range names {
		if i > 0 {
			nodes = append(nodes, joined([]byte{1, 2}, vector([]byte("parent")...), vector(), vector(uint32s(i)...))...)
		}
		nodes = append(nodes, joined([]byte{1, 1}, Leaf(name))...)
	}
	return vector(nodes...)
}

// A Sender is who sends a message: a member by leaf index and name, or one outside the group by kind.
type Sender struct {
	Kind byte
	Leaf int
	Name string
}

// Member returns the sender of a member's messages.
func Member(leaf int, name string) Sender { return Sender{follow.SenderMember, leaf, name} }

func message(group string, epoch uint64, from Sender, data string, content []byte) []byte {
	sender := []byte{from.Kind}
	if from.Kind <= follow.SenderExternal {
		sender = append(sender, uint32s(from.Leaf)...)
	}
	signed := joined(uint16s(1), uint16s(1), vector([]byte(group)...), binary.BigEndian.AppendUint64(nil, epoch), sender,
		vector([]byte(data)...), content)
	return joined(signed, vector(ed25519.Sign(Key(from.Name), signed)...))
}

// Proposal returns a PublicMessage with a proposal. Data makes it another message.
func Proposal(group string, epoch uint64, from Sender, data string, proposal []byte) []byte {
	return message(group, epoch, from, data, joined([]byte{follow.ContentProposal}, proposal))
}

// Commit returns a PublicMessage with a commit of these proposals, each by value or by reference.
func Commit(group string, epoch uint64, from Sender, data string, list ...[]byte) []byte {
	return message(group, epoch, from, data, joined([]byte{follow.ContentCommit}, vector(joined(list...)...), []byte{0}))
}

// Forged returns the message with another signature.
func Forged(message []byte) []byte {
	forged := append([]byte{}, message...)
	forged[len(forged)-1] ^= 1
	return forged
}

// Reference returns the reference that the Library gives to a proposal.
func Reference(message []byte) []byte {
	sum := sha256.Sum256(message)
	return sum[:]
}
