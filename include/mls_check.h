/*
 * mls_check.h: a checker for the public state of MLS groups (RFC 9420), for C.
 *
 * A service that delivers the handshakes of a group follows the group: it starts from a GroupInfo, and for each message it
 * calls mls_follower_query, verifies the signatures that are listed with a library of its own, calls mls_follower_learn
 * with the receipts of those that are good, and then mls_follower_judge or, with a time, mls_follower_judge_at. docs/LIBRARY.md
 * shows such a service.
 *
 * CONDITIONS
 *
 * The library relies on each of these, and tests none of them:
 *
 *  1. A pointer is never NULL, also if the length after it is 0. MLS_EMPTY passes no bytes.
 *  2. A buffer has as many bytes as the length after its pointer says, at most 2^63 - 1. Input bytes are not changed by
 *     anyone during the call. An output buffer is initialized memory that may be written.
 *  3. Pointers to numbers, structs and handles are aligned for their type.
 *  4. What a call may write (a handle, an output buffer, the number `needed`) overlaps no other argument of the call.
 *  5. A handle holds MLS_NO_FOLLOWER_YET or what a call of this library left in it. It may be moved, but there is one of it:
 *     a copy must not be used. Its pointer is not read or written outside of the library.
 *  6. A handle is used by one call at a time. It may go to another thread, if a lock, or the start or end of a thread, orders
 *     the calls. Different handles may be used at the same time.
 *  7. malloc, realloc and free are those of one allocator that aligns blocks as C requires. No call is made from a signal
 *     handler, nor in the child of a fork of a process with several threads.
 *
 * What a call returns is proved of every call that meets these conditions (docs/LIBRARY.md, docs/PROVED.md).
 *
 * NUMBERS
 *
 * Each call returns a number, alone or in a struct. 0 is success. Numbers below 100 are those of docs/FORMATS.md, and
 * each call says which. Numbers from 100 on are those of enum mls_number. Unless a call says otherwise, a call that returns
 * another number than 0 has changed nothing: neither the handle nor the output buffer.
 *
 * A call with an output buffer writes the value to the front of the buffer and its length to `*needed`. If the buffer is
 * shorter than the value, the call returns MLS_BUFFER_TOO_SMALL, `*needed` is the length of the value, and the buffer is
 * unchanged. With any other number `*needed` is 0. A call with two output buffers writes to both or to neither.
 *
 * RECEIPTS
 *
 * A receipt names a signature that is good. It is 32 bytes: the SHA-256 digest of the cipher suite (uint16), and of the
 * public key, the SignContent (RFC 9420, 5.1.2) and the signature, each as a variable-size vector (2.1.2). Several receipts
 * are passed one after the other. Order and repeats do not matter.
 */
#ifndef MLS_CHECK_H
#define MLS_CHECK_H

#include <stddef.h>
#include <stdint.h>

#ifdef __cplusplus
extern "C" {
#endif

/* Numbers of the library's own. */
enum mls_number {
    MLS_OK = 0,
    MLS_OUT_OF_MEMORY = 100,        /* an allocation failed; the call may be made again */
    MLS_BUFFER_TOO_SMALL = 101,     /* `*needed` says how many bytes the value has */
    MLS_NO_FOLLOWER = 102,          /* the handle has no follower */
    MLS_UNSUPPORTED_PROFILE = 103,  /* the profile is no mls_profile */
    MLS_BAD_RECEIPTS = 104,         /* the length of the receipts is no multiple of 32 */
    MLS_TOO_LONG = 105,             /* the state has no file: it would have more than 268,435,456 bytes */
    MLS_INFO_UNREADABLE = 106,      /* the GroupInfo is no message: inner is an mls_decode_fault, place the offset */
    MLS_NOT_GROUP_INFO = 107,       /* the message is no GroupInfo */
    MLS_TREE_UNREADABLE = 108,      /* the tree is no ratchet_tree: inner is an mls_decode_fault, place the offset or index */
    MLS_CONTEXT_UNREADABLE = 109,   /* the context is no GroupContext: inner is an mls_decode_fault, place the offset */
    MLS_OTHER_PROFILE = 110,        /* the state is of another profile */
    MLS_UNSUPPORTED_RULES = 114,    /* the strict rules have a bit above bit 12 */
    MLS_NO_MEMBER = 115,            /* no member is at the leaf index: the leaf is blank, or the tree has no such leaf */
    MLS_NO_PROPOSAL = 116           /* no more proposals are pending than the number */
};

/* Profiles: in which handshakes a group is followed. */
enum mls_profile {
    MLS_PROFILE_MEMBERS = 1,        /* handshakes of members: Add, Update, Remove, GroupContextExtensions, Commit */
    MLS_PROFILE_FULL = 2            /* also PreSharedKey and ReInit, proposals from outside and external commits (RFC 9420,
                                       12.1.8, 12.4.3.2) */
};

/*
 * Sets of strict rules: the refusals 40 to 52, which a follower checks after the rules of its profile. A set is a uint16_t:
 * rule n is bit n - 40, and the bits above bit 12 are 0. A service should follow its groups by MLS_RULES_STRICT. If its own
 * clients break a rule, it leaves out this one: MLS_RULES_STRICT & ~MLS_RULE(47) is all but 47.
 */
#define MLS_RULES_PLAIN 0               /* no strict rule */
#define MLS_RULES_STRICT 0x1fff         /* all of them, 40 to 52 */
#define MLS_RULE(n) (1u << ((n) - 40))  /* the rule n alone, which is from 40 to 52 */

/* Why bytes cannot be decoded (RFC 9420, 2.1; from 9 on 12.4.3.3). */
enum mls_decode_fault {
    MLS_DECODE_TRUNCATED = 1,
    MLS_DECODE_NOT_SHORTEST = 2,    /* a length is not in its shortest form (2.1.2) */
    MLS_DECODE_BAD_PREFIX = 3,      /* the two highest bits of a length are 3 (2.1.2) */
    MLS_DECODE_BAD_OPTIONAL = 4,    /* the byte before an optional value is neither 0 nor 1 (2.1.1) */
    MLS_DECODE_BAD_TAG = 5,
    MLS_DECODE_ODD_LENGTH = 6,
    MLS_DECODE_TRAILING = 7,        /* bytes follow the value */
    MLS_DECODE_TOO_LONG = 8,        /* more than 268,435,456 bytes */
    MLS_DECODE_WRONG_NODE_KIND = 9, /* a leaf at an odd node index, or a parent at an even one */
    MLS_DECODE_LAST_BLANK = 10,     /* the last node is blank */
    MLS_DECODE_EMPTY_TREE = 11,
    MLS_DECODE_TOO_MANY_LEAVES = 12 /* more than 1,048,576 leaves */
};

/* Why a tree is not valid for its context, and why no follower starts (RFC 9420, 12.4.3): the first that applies. */
enum mls_start_fault {
    MLS_START_UNSUPPORTED_VERSION = 1,
    MLS_START_UNSUPPORTED_SUITE = 2,        /* the cipher suite is not one from 1 to 7 (17.1) */
    MLS_START_NO_TREE = 3,                  /* neither a tree nor an extension with one (12.4.3.3) */
    MLS_START_REQUIREMENTS_UNREADABLE = 4,  /* the required capabilities cannot be read (11.1) */
    MLS_START_TREE = 5,                     /* inner is an mls_tree_fault, place the node index */
    MLS_START_MEMBER = 6,                   /* inner is an mls_member_fault, place the leaf index */
    MLS_START_SIGNER_NOT_MEMBER = 7,        /* the signer's leaf is blank */
    MLS_START_INFO_SIGNATURE = 8,           /* the GroupInfo's signature has no receipt */
    MLS_START_STRICT = 9                    /* a strict rule of the set is not met, the first by number: inner is an
                                               mls_refusal from 40 on, place the node index, or 2^64 - 1 if it is no
                                               node that does not meet it */
};

/*
 * Why no follower resumes from a state: the first that applies, where 12 comes before 10 and 11. 10 and 11 are also why
 * strict rules cannot be added to those of a follower (mls_follower_make_strict).
 */
enum mls_resume_fault {
    MLS_RESUME_UNREADABLE = 1,              /* inner is an mls_decode_fault, place the offset or index */
    MLS_RESUME_CHECKSUM_DIFFERS = 2,
    MLS_RESUME_UNSUPPORTED_VERSION = 3,
    MLS_RESUME_UNSUPPORTED_SUITE = 4,
    MLS_RESUME_REQUIREMENTS_UNREADABLE = 5,
    MLS_RESUME_TREE = 6,                    /* inner is an mls_tree_fault, place the node index */
    MLS_RESUME_MEMBER = 7,                  /* inner is an mls_member_fault, place the leaf index */
    MLS_RESUME_INTERIM_LENGTH = 8,          /* the interim transcript hash has not the length of the suite's hashes (8.2) */
    MLS_RESUME_KNOWN_INVALID = 9,           /* a pending proposal is none that a follower in this state, with those before
                                               it, accepts, its signature included: place is its number, from 0 on */
    MLS_RESUME_STRICT = 10,                 /* the GroupContext or the tree does not meet a strict rule: inner is the first
                                               of them, an mls_refusal from 40 on, place the node index, or 2^64 - 1 if it
                                               is no node that does not meet it */
    MLS_RESUME_KNOWN_STRICT = 11,           /* a pending proposal does not meet a strict rule: place is the number of the
                                               first such proposal, from 0 on */
    MLS_RESUME_ADDED_INVALID = 12           /* a KeyPackageRef of those that the last commit added has not the length of
                                               the suite's hashes (5.2), or there are no more members than its number:
                                               place is this number, from 0 on */
};

/* Why a tree is not valid (RFC 9420, 7.8, 7.9.2 and 12.4.3.1). */
enum mls_tree_fault {
    MLS_TREE_HASH_DIFFERS = 1,
    MLS_TREE_UNMERGED_UNSORTED = 2,
    MLS_TREE_UNMERGED_UNSOUND = 3,
    MLS_TREE_KEY_REPEATED = 4,
    MLS_TREE_PARENT_HASH_INVALID = 5
};

/* Why a leaf node is not valid (RFC 9420, 7.3). */
enum mls_member_fault {
    MLS_MEMBER_EXTENSION_UNLISTED = 1,
    MLS_MEMBER_REQUIREMENT_UNMET = 2,
    MLS_MEMBER_CREDENTIAL_UNSUPPORTED = 3,
    MLS_MEMBER_SIGNATURE_KEY_REPEATED = 4,
    MLS_MEMBER_LEAF_SIGNATURE = 5           /* the leaf's signature has no receipt */
};

/*
 * Why a message is refused: the first rule that it fails (RFC 9420, 6, 12.1 to 12.4; docs/FORMATS.md). The strict rules,
 * 40 to 52, come after those of the profile, and 53 comes last, in both profiles.
 */
enum mls_refusal {
    MLS_REFUSED_MALFORMED = 1,
    MLS_REFUSED_NOT_PUBLIC = 2,
    MLS_REFUSED_WRONG_GROUP = 3,
    MLS_REFUSED_WRONG_EPOCH = 4,
    MLS_REFUSED_SENDER_NOT_MEMBER = 5,
    MLS_REFUSED_NOT_HANDSHAKE = 6,
    MLS_REFUSED_BAD_SIGNATURE = 7,
    MLS_REFUSED_KNOWN_PROPOSAL = 8,
    MLS_REFUSED_ADD_INVALID = 9,
    MLS_REFUSED_UPDATE_INVALID = 10,
    MLS_REFUSED_REMOVE_INVALID = 11,
    MLS_REFUSED_LAST_EPOCH = 12,
    MLS_REFUSED_UNKNOWN_REFERENCE = 13,
    MLS_REFUSED_UPDATE_BY_COMMITTER = 14,
    MLS_REFUSED_REMOVES_COMMITTER = 15,
    MLS_REFUSED_SAME_LEAF_TWICE = 16,
    MLS_REFUSED_PATH_MISSING = 17,
    MLS_REFUSED_TOO_MANY_LEAVES = 18,
    MLS_REFUSED_PATH_LENGTH = 19,
    MLS_REFUSED_PATH_SOURCE = 20,
    MLS_REFUSED_PATH_KEY_USED = 21,
    MLS_REFUSED_CIPHERTEXT_COUNT = 22,
    MLS_REFUSED_PATH_PARENT_HASH = 23,
    MLS_REFUSED_KEY_REPEATED = 24,
    MLS_REFUSED_MEMBER = 25,                /* inner is an mls_member_fault, leaf the leaf index */
    MLS_REFUSED_TWO_CONTEXT_EXTENSIONS = 26,
    MLS_REFUSED_CONTEXT_EXTENSIONS_INVALID = 27,
    MLS_REFUSED_GROUP_OVER = 28,            /* 28 to 37: in the full profile alone */
    MLS_REFUSED_UNKNOWN_EXTERNAL = 29,
    MLS_REFUSED_SENDER_CONTENT = 30,
    MLS_REFUSED_PSK_INVALID = 31,
    MLS_REFUSED_REINIT_INVALID = 32,
    MLS_REFUSED_EXTERNAL_INIT_MISPLACED = 33,
    MLS_REFUSED_PSK_TWICE = 34,
    MLS_REFUSED_REINIT_NOT_ALONE = 35,
    MLS_REFUSED_JOIN_LIST = 36,
    MLS_REFUSED_RESYNC_INVALID = 37,
    MLS_REFUSED_TAG_LENGTH = 40,            /* 40 to 52: strict rules, which are checked if the follower's set has them */
    MLS_REFUSED_EXTENSION_REPEATED = 41,
    MLS_REFUSED_EXTENSION_MISPLACED = 42,
    MLS_REFUSED_EXTENSION_UNREADABLE = 43,
    MLS_REFUSED_KEY_FORM = 44,
    MLS_REFUSED_CIPHERTEXT_FORM = 45,
    MLS_REFUSED_GROUP_UNLISTED = 46,
    MLS_REFUSED_DEFAULT_LISTED = 47,
    MLS_REFUSED_LIFETIME_EMPTY = 48,
    MLS_REFUSED_CERTIFICATE_KEY = 49,
    MLS_REFUSED_PSK_AHEAD = 50,
    MLS_REFUSED_GROUP_EXTENSION_UNSUPPORTED = 51,
    MLS_REFUSED_POINT_OFF_CURVE = 52,
    MLS_REFUSED_LIFETIME_OUTSIDE = 53       /* in mls_follower_judge_at alone, which is passed a time */
};

/* What an accepted message is. */
enum mls_kind {
    MLS_PROPOSAL = 1,
    MLS_COMMIT = 2
};

/* Wire formats of messages (RFC 9420, 6). */
enum mls_wire_format {
    MLS_PUBLIC_MESSAGE = 1,
    MLS_PRIVATE_MESSAGE = 2,
    MLS_WELCOME = 3,
    MLS_GROUP_INFO = 4,
    MLS_KEY_PACKAGE = 5
};

/* Content types of messages (RFC 9420, 6). */
enum mls_content_type {
    MLS_CONTENT_APPLICATION = 1,
    MLS_CONTENT_PROPOSAL = 2,
    MLS_CONTENT_COMMIT = 3
};

/* Types of senders (RFC 9420, 6). */
enum mls_sender_type {
    MLS_SENDER_MEMBER = 1,
    MLS_SENDER_EXTERNAL = 2,
    MLS_SENDER_NEW_MEMBER_PROPOSAL = 3,
    MLS_SENDER_NEW_MEMBER_COMMIT = 4
};

/* A handle: a follower of a group, or none. */
typedef struct {
    void *at;
} mls_follower;

/* A handle without a follower. */
#define MLS_NO_FOLLOWER_YET {0}

/* What came of a call on a group's inputs. inner and place are 0 unless the number says otherwise. */
typedef struct {
    uint32_t number;
    uint32_t inner;
    uint64_t place;
} mls_verdict;

/* What came of a message. */
typedef struct {
    uint32_t number; /* 0: accepted. 1 to 53, an mls_refusal: refused. From 100 on: not processed. */
    uint32_t kind;   /* if accepted, an mls_kind, otherwise 0 */
    uint32_t inner;  /* if number is 25, an mls_member_fault, otherwise 0 */
    uint32_t leaf;   /* if number is 25, the leaf index, otherwise 0 */
    uint64_t epoch;  /* if a commit is accepted, the epoch that it begins, otherwise 0 */
} mls_judgement;

/* What a message says of itself, without a group. A fact that the message does not have is 0. */
typedef struct {
    uint32_t wire_format;       /* an mls_wire_format */
    uint32_t content_type;      /* an mls_content_type: of a PublicMessage and a PrivateMessage */
    uint32_t sender_type;       /* an mls_sender_type: of a PublicMessage */
    uint32_t sender_index;      /* of a member the leaf index, of an external sender its index (12.1.8.1), otherwise 0 */
    uint32_t has_group;         /* 1 if there are a group ID and an epoch: of a PublicMessage, a PrivateMessage, a GroupInfo */
    uint32_t has_signature_key; /* 1 if there is a signature key: of a KeyPackage, and of a sender that joins (6.1) */
    uint64_t epoch;
    uint64_t adds;              /* how many proposals of each type a PublicMessage has (12.1): as a proposal, or by value in */
    uint64_t updates;           /* the list of a commit (12.4) */
    uint64_t removes;
    uint64_t psks;
    uint64_t reinits;
    uint64_t external_inits;
    uint64_t group_context_extensions;
    uint64_t references;        /* how many references to proposals the list of a commit has */
} mls_facts;

/* The two arguments for no bytes: no tree, no receipts, no buffer. */
static const unsigned char mls_no_bytes[1] = {0};
#define MLS_EMPTY mls_no_bytes, 0

/* The size of a buffer for each reference of a proposal: the longest hash of a cipher suite (RFC 9420, 17.1). */
#define MLS_REFERENCE_SIZE 64

/* The number of bytes of a receipt. */
#define MLS_RECEIPT_SIZE 32

/*
 * Checks that a ratchet tree (RFC 9420, 12.4.3.3) belongs to a GroupContext (8.1) and is valid (7.9.2, 12.4.3.1), and that
 * its leaf nodes are valid (7.3), by these receipts. The buffer `tree_hash` takes the tree hash (7.8) of a valid tree.
 *
 * Returns 0, or an mls_start_fault of 1, 2, 4, 5 or 6, or MLS_CONTEXT_UNREADABLE, MLS_TREE_UNREADABLE, MLS_BAD_RECEIPTS,
 * MLS_BUFFER_TOO_SMALL, MLS_OUT_OF_MEMORY.
 */
mls_verdict mls_validate_tree(const uint8_t *context, size_t context_len, const uint8_t *tree, size_t tree_len,
                              const uint8_t *receipts, size_t receipts_len, uint8_t *tree_hash, size_t tree_hash_len,
                              size_t *needed);

/*
 * Checks a ratchet tree as mls_validate_tree does, which is the case of MLS_RULES_PLAIN, and then that the GroupContext and
 * the tree meet the strict rules of the set `rules`.
 *
 * Returns 0, or an mls_start_fault of 1, 2, 4, 5, 6 or 9, or MLS_UNSUPPORTED_RULES, MLS_BAD_RECEIPTS,
 * MLS_CONTEXT_UNREADABLE, MLS_TREE_UNREADABLE, MLS_BUFFER_TOO_SMALL, MLS_OUT_OF_MEMORY. The rules are checked before the
 * receipts.
 */
mls_verdict mls_validate_tree_strict(const uint8_t *context, size_t context_len, const uint8_t *tree, size_t tree_len,
                                     const uint8_t *receipts, size_t receipts_len, uint16_t rules, uint8_t *tree_hash,
                                     size_t tree_hash_len, size_t *needed);

/*
 * Writes the facts of a message (RFC 9420, 6, 6.1, 12.1, 12.4) that do not depend on a group. The buffer `group_id` takes its
 * group ID. The buffer `signature_key` takes the signature key of a KeyPackage, of the Add of a new_member_proposal, or of the
 * path of a new_member_commit. A value that the message does not have has length 0. The message is decoded in the full
 * profile.
 *
 * Nothing is checked: each fact is what the message says of itself. The body of a Welcome is not read, and that of a
 * PrivateMessage that cannot be read has neither a group ID, an epoch nor a content type.
 *
 * Returns 0, or 1 if the bytes are no message, or MLS_BUFFER_TOO_SMALL, MLS_OUT_OF_MEMORY. If a buffer is too small, the facts
 * and both lengths are written, and neither buffer is. So a caller that needs the facts alone passes two buffers of length 0.
 */
uint32_t mls_message_facts(const uint8_t *message, size_t message_len, mls_facts *facts, uint8_t *group_id,
                           size_t group_id_len, size_t *group_id_needed, uint8_t *signature_key, size_t signature_key_len,
                           size_t *signature_key_needed);

/*
 * Lists the signatures of a start (RFC 9420, 12.4.3.1) that have no receipt: that of the GroupInfo and of each leaf node.
 * They are listed if a follower starts once each of them is good. Otherwise the verdict is that of such a start in the
 * members' profile: an MLSMessage without a GroupInfo that the full profile alone can read is MLS_INFO_UNREADABLE here and
 * MLS_NOT_GROUP_INFO for a start in the full profile. All else of a start is the same in each profile. Strict rules are not
 * checked here, and no signature is listed for them.
 *
 * `tree` of length 0 is none: the tree is then the one in the GroupInfo. Before the first query there are no receipts:
 * MLS_EMPTY.
 *
 * The buffer `records` takes a record for each signature, a variable-size vector (2.1.2): the receipt (32 bytes), the cipher
 * suite (uint16), and as vectors the public key, the SignContent (5.1.2) and the signature. The caller verifies the
 * signature over the SignContent under the public key.
 *
 * Returns 0, or an mls_start_fault below 9, or MLS_INFO_UNREADABLE, MLS_NOT_GROUP_INFO, MLS_TREE_UNREADABLE,
 * MLS_BAD_RECEIPTS, MLS_BUFFER_TOO_SMALL, MLS_OUT_OF_MEMORY.
 */
mls_verdict mls_start_query(const uint8_t *info, size_t info_len, const uint8_t *tree, size_t tree_len,
                            const uint8_t *receipts, size_t receipts_len, uint8_t *records, size_t records_len,
                            size_t *needed);

/*
 * Lists the signatures of a resumption from a state (mls_follower_state) that have no receipt: that of each leaf node, then
 * of each pending proposal that of its message, of an Add those of the leaf node and the KeyPackage, and of an Update that of
 * the leaf node. They are listed, as records (mls_start_query), if a follower resumes once each of them is good. Otherwise
 * the verdict is that of such a resumption. The state names the profile and the strict rules.
 *
 * Without receipts (MLS_EMPTY) all of them are listed. So a caller that has lost its receipts, or does not trust who kept
 * them, verifies each signature again.
 *
 * Returns 0, or an mls_resume_fault, or MLS_BAD_RECEIPTS, MLS_BUFFER_TOO_SMALL, MLS_OUT_OF_MEMORY.
 */
mls_verdict mls_resume_query(const uint8_t *state, size_t state_len, const uint8_t *receipts, size_t receipts_len,
                             uint8_t *records, size_t records_len, size_t *needed);

/*
 * Starts a follower with this mls_profile from a GroupInfo (RFC 9420, 12.4.3) and a tree, by these receipts, and puts it
 * into the handle. The follower accepts exactly the signatures that have a receipt. `tree` of length 0 is none: the tree is
 * then the one in the GroupInfo.
 *
 * If the handle has a follower, the new one takes its place, and the old one is freed. If none starts, the handle is
 * unchanged.
 *
 * The follower has no strict rules: this is mls_follower_start_by with MLS_RULES_PLAIN.
 *
 * Returns 0, or an mls_start_fault below 9, or MLS_UNSUPPORTED_PROFILE, MLS_BAD_RECEIPTS, MLS_INFO_UNREADABLE,
 * MLS_NOT_GROUP_INFO, MLS_TREE_UNREADABLE, MLS_OUT_OF_MEMORY.
 */
mls_verdict mls_follower_start(const uint8_t *info, size_t info_len, const uint8_t *tree, size_t tree_len,
                               const uint8_t *receipts, size_t receipts_len, uint32_t profile, mls_follower *follower);

/*
 * Starts a follower as mls_follower_start does, with the strict rules of the set `rules`. A service should follow its groups
 * by MLS_RULES_STRICT. The GroupInfo and the tree have to meet the strict rules too: this is the last condition of a start,
 * and MLS_START_STRICT its fault. If none starts, the handle is unchanged.
 *
 * Returns 0, or an mls_start_fault, or MLS_UNSUPPORTED_PROFILE, MLS_UNSUPPORTED_RULES, MLS_BAD_RECEIPTS,
 * MLS_INFO_UNREADABLE, MLS_NOT_GROUP_INFO, MLS_TREE_UNREADABLE, MLS_OUT_OF_MEMORY. The profile is checked before the rules,
 * and the rules before the receipts.
 */
mls_verdict mls_follower_start_by(const uint8_t *info, size_t info_len, const uint8_t *tree, size_t tree_len,
                                  const uint8_t *receipts, size_t receipts_len, uint32_t profile, uint16_t rules,
                                  mls_follower *follower);

/*
 * Resumes a follower from a state (mls_follower_state), by these receipts, and puts it into the handle, as
 * mls_follower_start does. A state names the profile of its follower: `profile` has to be this one. The follower has the
 * strict rules of the state, whatever they are; mls_follower_make_strict adds others.
 *
 * Whoever wrote the state, the follower's tree is valid, and its pending proposals satisfy their rules and are signed by
 * their senders. That the GroupContext, the tree and the transcript hash are those of the group, and that the pending
 * proposals are those that were accepted, in this order, rests on who stored the state.
 *
 * Returns 0, or an mls_resume_fault, or MLS_UNSUPPORTED_PROFILE, MLS_OTHER_PROFILE, MLS_BAD_RECEIPTS, MLS_OUT_OF_MEMORY.
 */
mls_verdict mls_follower_resume(const uint8_t *state, size_t state_len, const uint8_t *receipts, size_t receipts_len,
                                uint32_t profile, mls_follower *follower);

/* Frees the follower of a handle, and all that it allocated. The handle has none afterwards. Without a follower, nothing. */
void mls_follower_free(mls_follower *follower);

/* Writes the epoch (RFC 9420, 8.1). Returns 0 or MLS_NO_FOLLOWER. */
uint32_t mls_follower_epoch(mls_follower *follower, uint64_t *epoch);

/* Writes the number of members: of non-blank leaves (RFC 9420, 4.1). Returns 0 or MLS_NO_FOLLOWER. */
uint32_t mls_follower_members(mls_follower *follower, uint32_t *members);

/*
 * Writes 1 if the group is over, otherwise 0. It is over once a commit with a ReInit is accepted (RFC 9420, 11.2): every
 * later message of its last epoch is refused with MLS_REFUSED_GROUP_OVER. Returns 0 or MLS_NO_FOLLOWER.
 */
uint32_t mls_follower_ended(mls_follower *follower, uint32_t *ended);

/* Writes the follower's set of strict rules, which no message changes. Returns 0 or MLS_NO_FOLLOWER. */
uint32_t mls_follower_rules(mls_follower *follower, uint16_t *rules);

/*
 * Adds the strict rules of the set `rules` to those of the follower. Only those that it lacks are checked, and none is taken
 * away. The GroupContext and the tree have to meet them, and then each pending proposal. Otherwise the follower is
 * unchanged.
 *
 * Returns 0, or MLS_RESUME_STRICT or MLS_RESUME_KNOWN_STRICT, or MLS_UNSUPPORTED_RULES, MLS_NO_FOLLOWER,
 * MLS_OUT_OF_MEMORY. The rules are checked before the handle.
 */
mls_verdict mls_follower_make_strict(mls_follower *follower, uint16_t rules);

/* Writes the tree hash (RFC 9420, 7.8, 8.1). Returns 0, MLS_NO_FOLLOWER or MLS_BUFFER_TOO_SMALL. */
uint32_t mls_follower_tree_hash(mls_follower *follower, uint8_t *tree_hash, size_t tree_hash_len, size_t *needed);

/* Writes the confirmed transcript hash (RFC 9420, 8.2). Returns 0, MLS_NO_FOLLOWER or MLS_BUFFER_TOO_SMALL. */
uint32_t mls_follower_confirmed_hash(mls_follower *follower, uint8_t *confirmed_hash, size_t confirmed_hash_len,
                                     size_t *needed);

/* Writes the group ID (RFC 9420, 8.1). Returns 0, MLS_NO_FOLLOWER or MLS_BUFFER_TOO_SMALL. */
uint32_t mls_follower_group_id(mls_follower *follower, uint8_t *group_id, size_t group_id_len, size_t *needed);

/*
 * Writes the encoded GroupContext (RFC 9420, 8.1). Returns 0, or MLS_NO_FOLLOWER, MLS_TOO_LONG, MLS_BUFFER_TOO_SMALL,
 * MLS_OUT_OF_MEMORY.
 */
uint32_t mls_follower_context(mls_follower *follower, uint8_t *context, size_t context_len, size_t *needed);

/*
 * Writes the encoded ratchet tree: the body of a ratchet_tree extension (RFC 9420, 12.4.3.3). Returns 0, or MLS_NO_FOLLOWER,
 * MLS_TOO_LONG, MLS_BUFFER_TOO_SMALL, MLS_OUT_OF_MEMORY.
 */
uint32_t mls_follower_tree(mls_follower *follower, uint8_t *tree, size_t tree_len, size_t *needed);

/*
 * Writes the encoded credential (RFC 9420, 5.3) and the signature key (7.2) of the member at the leaf index `leaf`. The members
 * are at leaf indices from 0 on, some of which may be blank. Once as many were found as mls_follower_members says, there are no
 * more.
 *
 * Returns 0, or MLS_NO_FOLLOWER, MLS_NO_MEMBER, MLS_BUFFER_TOO_SMALL. If a buffer is too small, both lengths are written, and
 * neither buffer is.
 */
uint32_t mls_follower_member(mls_follower *follower, uint32_t leaf, uint8_t *credential, size_t credential_len,
                             size_t *credential_needed, uint8_t *signature_key, size_t signature_key_len,
                             size_t *signature_key_needed);

/* Writes how many proposals are pending (RFC 9420, 12.4): were accepted in this epoch. Returns 0 or MLS_NO_FOLLOWER. */
uint32_t mls_follower_pending(mls_follower *follower, size_t *count);

/*
 * Writes the reference (RFC 9420, 5.2) of the pending proposal with the number `k`, from 0 on, in the order in which they were
 * accepted. Returns 0, or MLS_NO_FOLLOWER, MLS_NO_PROPOSAL, MLS_BUFFER_TOO_SMALL. A buffer of MLS_REFERENCE_SIZE bytes is
 * large enough.
 */
uint32_t mls_follower_pending_at(mls_follower *follower, size_t k, uint8_t *reference, size_t reference_len,
                                 size_t *needed);

/*
 * Lists the signatures of a message (RFC 9420, 6, 7.2, 10.1) that have no receipt yet, as records (mls_start_query). If each
 * of them is good and learnt, the message is checked as if every signature were good. Some may be listed that no rule
 * checks. The follower is unchanged.
 *
 * Returns 0, or 1 if the bytes are no message (mls_follower_judge refuses them with this number), or MLS_NO_FOLLOWER,
 * MLS_BUFFER_TOO_SMALL, MLS_OUT_OF_MEMORY.
 */
uint32_t mls_follower_query(mls_follower *follower, const uint8_t *message, size_t message_len, uint8_t *records,
                            size_t records_len, size_t *needed);

/*
 * Learns that the signatures with these receipts are good. The state of the group is unchanged.
 *
 * Returns 0, or MLS_NO_FOLLOWER, MLS_BAD_RECEIPTS, MLS_OUT_OF_MEMORY. If it returns MLS_OUT_OF_MEMORY, the first receipts may
 * have been learnt: call it again with the same ones.
 */
uint32_t mls_follower_learn(mls_follower *follower, const uint8_t *receipts, size_t receipts_len);

/*
 * Processes a message (RFC 9420, 6), and accepts it if and only if it satisfies every rule of the profile, and every strict
 * rule of the follower's set. No lifetime is checked. A refused message changes nothing. After a commit the calls above
 * return the values of the new epoch.
 *
 * The reference (5.2) of an accepted proposal is written to the front of the buffer `reference`, and has as many bytes as a
 * hash of the cipher suite (32, 48 or 64). The buffer must have MLS_REFERENCE_SIZE bytes, otherwise the number is
 * MLS_BUFFER_TOO_SMALL and the message is not processed.
 *
 * The number is 0, or an mls_refusal, or MLS_NO_FOLLOWER, MLS_BUFFER_TOO_SMALL, MLS_OUT_OF_MEMORY.
 */
mls_judgement mls_follower_judge(mls_follower *follower, const uint8_t *message, size_t message_len, uint8_t *reference,
                                 size_t reference_len);

/*
 * Processes a message as mls_follower_judge does, and checks one rule more, the last one: the lifetime of the leaf node of
 * each Add that the message has by value, as a proposal or in a commit, includes the time `now` (RFC 9420, 7.2, 7.3, 10.1).
 * Otherwise the number is MLS_REFUSED_LIFETIME_OUTSIDE. `now` is in seconds since 1970, as a Lifetime. The library reads no
 * clock.
 *
 * No other lifetime is checked: a leaf node of the tree may have expired, and an Add that a commit names by reference was
 * checked when it was received. The state has no time, and each call may be passed another one. Messages that were accepted
 * before are processed again by mls_follower_judge: at a later time one of them might be refused.
 *
 * The number is 0, or an mls_refusal, or MLS_NO_FOLLOWER, MLS_BUFFER_TOO_SMALL, MLS_OUT_OF_MEMORY.
 */
mls_judgement mls_follower_judge_at(mls_follower *follower, uint64_t now, const uint8_t *message, size_t message_len,
                                    uint8_t *reference, size_t reference_len);

/*
 * Writes the state as a file (docs/FORMATS.md), from which mls_follower_resume resumes. It has the profile, the strict rules,
 * and what was signed of each pending proposal. The receipts are no part of it: mls_resume_query lists those that it needs.
 *
 * Returns 0, or MLS_NO_FOLLOWER, MLS_TOO_LONG, MLS_BUFFER_TOO_SMALL, MLS_OUT_OF_MEMORY.
 */
uint32_t mls_follower_state(mls_follower *follower, uint8_t *state, size_t state_len, size_t *needed);

/* Returns the name of an mls_refusal, as mlscheck prints it; "" for another number. */
static inline const char *mls_refusal_name(uint32_t number) {
    static const char *const names[] = {
        "", "Malformed", "NotPublic", "WrongGroup", "WrongEpoch", "SenderNotMember", "NotHandshake", "BadSignature",
        "KnownProposal", "AddInvalid", "UpdateInvalid", "RemoveInvalid", "LastEpoch", "UnknownReference",
        "UpdateByCommitter", "RemovesCommitter", "SameLeafTwice", "PathMissing", "TooManyLeaves", "PathLength",
        "PathSource", "PathKeyUsed", "CiphertextCount", "PathParentHash", "KeyRepeated", "Member",
        "TwoContextExtensions", "ContextExtensionsInvalid", "GroupOver", "UnknownExternal", "SenderContent",
        "PskInvalid", "ReInitInvalid", "ExternalInitMisplaced", "PskTwice", "ReInitNotAlone", "JoinList",
        "ResyncInvalid", "", "", "TagLength", "ExtensionRepeated", "ExtensionMisplaced", "ExtensionUnreadable",
        "KeyForm", "CiphertextForm", "GroupUnlisted", "DefaultListed", "LifetimeEmpty", "CertificateKey", "PskAhead",
        "GroupExtensionUnsupported", "PointOffCurve", "LifetimeOutside"};
    return number < sizeof names / sizeof names[0] ? names[number] : "";
}

/* Returns the name of an mls_start_fault, as mlscheck prints it; "" for another number. */
static inline const char *mls_start_fault_name(uint32_t number) {
    static const char *const names[] = {"", "UnsupportedVersion", "UnsupportedSuite", "NoTree",
                                        "RequirementsUnreadable", "Tree", "Member", "SignerNotMember",
                                        "InfoSignature", "Strict"};
    return number < sizeof names / sizeof names[0] ? names[number] : "";
}

/* Returns the name of an mls_member_fault, as mlscheck prints it; "" for another number. */
static inline const char *mls_member_fault_name(uint32_t number) {
    static const char *const names[] = {"", "ExtensionUnlisted", "RequirementUnmet", "CredentialUnsupported",
                                        "SignatureKeyRepeated", "LeafSignature"};
    return number < sizeof names / sizeof names[0] ? names[number] : "";
}

#ifdef __cplusplus
}
#endif

#endif
