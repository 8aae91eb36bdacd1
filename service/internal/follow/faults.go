package follow

// Name returns the name of the number, as mlscheck prints it or as include/mls_check.h has it.
func (r Refused) Name() string { return startFaults[r.Number] }

// Words returns the number in words.
func (r Refused) Words() string {
	switch r.Number {
	case startTree:
		return "the tree is not valid: " + treeFaults[r.Inner]
	case startMember:
		return "a leaf node is not valid: " + MemberWords(r.Inner)
	case startStrict:
		return "a strict rule is not met: " + RuleOf(r.Inner).Words
	}
	return startWords[r.Number]
}

// MemberWords returns why a leaf node is not valid (7.3), by the Inner of a Refusal 25 or of a Refused. It is empty of 0.
func MemberWords(inner uint32) string { return memberFaults[inner] }

// The numbers of a start whose Inner says more (include/mls_check.h).
const (
	startTree   = 5
	startMember = 6
	startStrict = 9
)

var startFaults = map[uint32]string{
	1: "UnsupportedVersion", 2: "UnsupportedSuite", 3: "NoTree", 4: "RequirementsUnreadable", startTree: "Tree",
	startMember: "Member", 7: "SignerNotMember", 8: "InfoSignature", startStrict: "Strict", 106: "InfoUnreadable",
	107: "NotGroupInfo", 108: "TreeUnreadable", 109: "ContextUnreadable", 110: "OtherProfile",
}

var startWords = map[uint32]string{
	1:   "the version of the GroupContext is not 1",
	2:   "the cipher suite is not one from 1 to 7",
	3:   "there is neither a tree nor an extension with one",
	4:   "the required capabilities cannot be read",
	7:   "the leaf of the signer is blank",
	8:   "the signature of the GroupInfo is not good",
	106: "the GroupInfo cannot be read",
	107: "the message is no GroupInfo",
	108: "the tree cannot be read",
	109: "the GroupContext cannot be read",
	110: "the state is of another profile",
}

var treeFaults = map[uint32]string{
	1: "its hash is not that of the GroupContext",
	2: "an unmerged list is not sorted",
	3: "an unmerged list does not fit the tree",
	4: "an encryption key is in two nodes",
	5: "a parent hash is not valid",
}

var memberFaults = map[uint32]string{
	1: "its capabilities do not list one of its extensions",
	2: "it does not support what the group requires",
	3: "it does not support the credential of a member",
	4: "its signature key is in another leaf",
	5: "its signature is not good",
}
