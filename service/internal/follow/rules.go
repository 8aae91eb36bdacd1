package follow

// A RuleText is a rule in words, and the sections of RFC 9420 that it is from.
type RuleText struct{ Name, Words, Section string }

// RuleOf returns the text of the rule with this number, or an empty one.
func RuleOf(number uint32) RuleText {
	if number < uint32(len(rules)) {
		return rules[number]
	}
	return RuleText{}
}

// rules has the words of the table "Why a message is refused" in docs/FORMATS.md, which a test compares.
var rules = [...]RuleText{
	1:  {"Malformed", "the bytes encode no message, or one of a type that is not read", "6"},
	2:  {"NotPublic", "its wire format is not 1", "6"},
	3:  {"WrongGroup", "its group id is not the group's", "6.1"},
	4:  {"WrongEpoch", "its epoch is not the current one", "6.1"},
	5:  {"SenderNotMember", "the leaf of the member that sends is blank. In the members' profile also: the sender is not a member", "6.1"},
	6:  {"NotHandshake", "it is an application message", "6.2"},
	7:  {"BadSignature", "its signature is not good. A member's is under the key of its leaf; an external sender's under its key in the GroupContext. A client that proposes to join signs under the key of the leaf in its Add, one that joins with a commit under that of the path's leaf. A member and a client that joins with a commit sign the current GroupContext too", "6.1, 12.1.8, 12.4.3.2"},
	8:  {"KnownProposal", "it is a proposal that is pending already, by its ProposalRef", "5.2, own rule"},
	9:  {"AddInvalid", "the KeyPackage of an Add is not valid", "10.1, 12.1.1"},
	10: {"UpdateInvalid", "the leaf node of an Update is not valid", "7.3, 12.1.2"},
	11: {"RemoveInvalid", "the leaf of a Remove is blank", "12.1.3"},
	12: {"LastEpoch", "it is a commit in epoch 18,446,744,073,709,551,615, the largest that a GroupContext can hold", "8.1, own rule"},
	13: {"UnknownReference", "the commit names a proposal that is not pending", "12.4"},
	14: {"UpdateByCommitter", "the proposal list has an Update of the committer's", "12.2"},
	15: {"RemovesCommitter", "the list has a Remove of the committer", "12.2"},
	16: {"SameLeafTwice", "two Updates or Removes of the list apply to one leaf", "12.2"},
	17: {"PathMissing", "there is no path, and the list is empty or has an Update, a Remove or a GroupContextExtensions; or it is an external commit without a path", "12.4, 12.4.3.2, 17.4"},
	18: {"TooManyLeaves", "the group would have more than 1,048,576 members, or an unmerged list more than 1,048,576 entries", "own limit"},
	19: {"PathLength", "the number of nodes of the path is not that of the filtered direct path", "7.6"},
	20: {"PathSource", "the source of the path's leaf node is not commit", "7.3, 12.4.2"},
	21: {"PathKeyUsed", "a key of the path is in the tree, or twice in the path", "12.4.2"},
	22: {"CiphertextCount", "the number of ciphertexts of a path node is not that of the nodes of its resolution, without the leaves that the commit adds", "7.6"},
	23: {"PathParentHash", "the parent hash of the path's leaf node is not the expected one", "7.9.2"},
	24: {"KeyRepeated", "two nodes of the tree after the commit have one encryption key", "7.3, 12.4.3.1"},
	25: {"Member", "a leaf node after the commit is not valid under the required capabilities after it; 1 to 5 as in members refused", "7.3, 12.1.7"},
	26: {"TwoContextExtensions", "the list has two GroupContextExtensions proposals", "12.2"},
	27: {"ContextExtensionsInvalid", "the required capabilities of a GroupContextExtensions proposal cannot be read", "11.1, 12.1.7"},
	28: {"GroupOver", "a commit with a ReInit was accepted before", "11.2, 12.1.5"},
	29: {"UnknownExternal", "the sender is an external one that the GroupContext does not have, or its external senders cannot be read", "12.1.8"},
	30: {"SenderContent", "a sender outside the group may not send it. An external sender may send no Update, no ExternalInit and no commit. A client that proposes to join may send only an Add, one that joins with a commit no proposal", "6.1, 12.1.8, 12.4.3.2"},
	31: {"PskInvalid", "the nonce of a PreSharedKey is not as long as a hash; or its usage is reinit or branch, and the epoch is not 0 or the sender no member", "8.4, 12.1.4"},
	32: {"ReInitInvalid", "the version of a ReInit is less than the group's", "12.1.5"},
	33: {"ExternalInitMisplaced", "an ExternalInit is sent as a proposal, or is in the list of a member's commit", "12.1.6, 12.2"},
	34: {"PskTwice", "two PreSharedKeys of the list have one PreSharedKeyID, the nonce included", "12.2"},
	35: {"ReInitNotAlone", "the list has a ReInit and another proposal", "12.2"},
	36: {"JoinList", "the list of an external commit has no ExternalInit or more than one, more than one Remove, a proposal of another type than these and PreSharedKey, or a reference", "12.2, 12.4.3.2"},
	37: {"ResyncInvalid", "the Remove of an external commit is of a leaf with the encryption key of the path's leaf, or with neither its credential nor its signature key", "12.4.3.2; the second part is an own rule"},
	40: {"TagLength", "the confirmation tag or the membership tag has another number of bytes than a hash of the cipher suite", "6.1, 6.2, 17.1"},
	41: {"ExtensionRepeated", "a list of extensions has one type twice: that of a leaf node, a KeyPackage, a GroupContextExtensions or a ReInit", "13.4"},
	42: {"ExtensionMisplaced", "a leaf node has an extension of a type from 2 to 5", "7.2, 7.3, 17.3"},
	43: {"ExtensionUnreadable", "the application_id of a leaf node or the external_senders of a GroupContextExtensions cannot be read. After an external sender whose credential is neither basic nor x509 nothing is read", "5.3.3, 12.1.8.1"},
	44: {"KeyForm", "a key does not have the form of the cipher suite: the encryption key or signature key of a leaf node, the init key of a KeyPackage, or the encryption key of a path node", "5.1.1; RFC 9180, 7.1"},
	45: {"CiphertextForm", "a kem_output of a path or of an ExternalInit, or a ciphertext of a path, does not have the form of the cipher suite", "5.1.3, 7.6, 8.3; RFC 9180, 7.1"},
	46: {"GroupUnlisted", "the capabilities of a leaf node do not list the group's version, or not its cipher suite", "7.2, 11.1"},
	47: {"DefaultListed", "the capabilities of a leaf node list an extension type from 1 to 5, or a proposal type from 1 to 7", "7.2"},
	48: {"LifetimeEmpty", "the lifetime of a leaf node ends before it begins", "7.2, own rule"},
	49: {"CertificateKey", "a leaf node has an x509 credential without a certificate, or whose first one is not for its signature key: it cannot be read, or has another key", "5.3; RFC 5280, 4.1"},
	50: {"PskAhead", "a PreSharedKey is a resumption PSK of usage application, of this group and of a later epoch than the current one", "8.6, 12.4.2"},
	51: {"GroupExtensionUnsupported", "a leaf node after the commit does not support the type of an extension of the GroupContext after it", "12.1.7, 13.4"},
	52: {"PointOffCurve", "in the cipher suites 2, 5 and 7: the encryption key of a leaf node or a path node, the init key of a KeyPackage, or a kem_output of a path or of an ExternalInit is no uncompressed point of the curve of the suite's KEM", "5.1.1; RFC 9180, 7.1.4"},
	53: {"LifetimeOutside", "a time is passed, and the lifetime of the leaf node of an Add does not include it: it is before not_before or after not_after", "7.2, 7.3, 10.1"},
}
