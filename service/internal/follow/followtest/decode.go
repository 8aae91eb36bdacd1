package followtest

import (
	"encoding/binary"

	"mlscheckd/internal/follow"
)

// taken returns the body of the vector at the front, and what follows it.
func taken(data []byte) (body, rest []byte) {
	size := 1 << (data[0] >> 6)
	count := int(data[0] & 0x3f)
	for _, b := range data[1:size] {
		count = count<<8 | int(b)
	}
	return data[size : size+count], data[size+count:]
}

// content returns the type of a message's content, and what follows it. The message has one.
func content(message []byte) (byte, []byte) {
	signed, _ := parts(message)
	_, rest := taken(signed[4:])
	kind := rest[8]
	rest = rest[9:]
	if kind <= follow.SenderExternal {
		rest = rest[4:]
	}
	_, rest = taken(rest)
	return rest[0], rest[1:]
}

// body returns the proposal of a message.
func body(message []byte) []byte {
	_, proposal := content(message)
	return proposal
}

// items returns the list of a commit, each with its first byte: 1 before a proposal, 2 before a reference.
func items(message []byte) (list [][]byte) {
	_, rest := content(message)
	rest, _ = taken(rest)
	for len(rest) > 0 {
		end := itemEnd(rest)
		list = append(list, rest[:end])
		rest = rest[end:]
	}
	return list
}

func itemEnd(item []byte) int {
	if item[0] == 2 {
		_, rest := taken(item[1:])
		return len(item) - len(rest)
	}
	rest := item[3:]
	switch binary.BigEndian.Uint16(item[1:]) {
	case 1: // as Add makes it
		_, rest = taken(rest[4:])
		for i := 0; i < 2; i++ {
			_, rest = taken(rest)
		}
		_, rest = taken(rest[2:])
		for i := 0; i < 5; i++ {
			_, rest = taken(rest)
		}
		rest = rest[17:]
		for i := 0; i < 4; i++ {
			_, rest = taken(rest)
		}
	case 3:
		rest = rest[4:]
	case 5:
		_, rest = taken(rest)
		_, rest = taken(rest[4:])
	case 7:
		_, rest = taken(rest)
	}
	return len(item) - len(rest)
}

// name returns the identity that an Add adds.
func name(add []byte) string {
	_, rest := taken(add[6:])
	for i := 0; i < 2; i++ {
		_, rest = taken(rest)
	}
	identity, _ := taken(rest[2:])
	return string(identity)
}

// added returns the names of those that a message adds by value.
func added(message []byte) (names []string) {
	kind, rest := content(message)
	if kind == follow.ContentProposal && rest[1] == follow.ProposalAdd {
		return []string{name(rest)}
	}
	if kind != follow.ContentCommit {
		return nil
	}
	for _, item := range items(message) {
		if item[0] == 1 && item[2] == follow.ProposalAdd {
			names = append(names, name(item[1:]))
		}
	}
	return names
}
