//! Follows MLS groups (RFC 9420) from outside, by the proved library `libmls_check`.
//!
//! A service starts a [`Follower`] from a GroupInfo. For each message it calls [`Follower::query`], verifies the signatures
//! that are listed, calls [`Follower::learn`] with the receipts of the good ones, and then [`Follower::judge`] or, with a
//! time, [`Follower::judge_at`]. A service should start by [`Follower::start_by`] with [`Rules::STRICT`].
//!
//! The library is proved; this crate is not. It meets the conditions of `include/mls_check.h` by Rust's types:
//! a slice is never null, a `&mut` overlaps nothing else, and a `Follower` owns its handle and is neither copied nor shared.

/// The receipt of a signature: a digest of the suite, the key, the content and the signature.
pub type Receipt = [u8; 32];

/// A signature that has to be verified: whether it is good for `content` under the public key `key` in the cipher suite
/// `suite` (RFC 9420, 5.1.2).
#[derive(Clone, Debug, PartialEq, Eq)]
pub struct Signature {
    pub receipt: Receipt,
    pub suite: u16,
    pub key: Vec<u8>,
    pub content: Vec<u8>,
    pub signature: Vec<u8>,
}

/// Why a call on a group's inputs has no result: the numbers of `mls_verdict`.
#[derive(Clone, Copy, Debug, PartialEq, Eq)]
pub struct Refused {
    pub number: u32,
    pub inner: u32,
    pub place: u64,
}

/// What an accepted message is.
#[derive(Clone, Debug, PartialEq, Eq)]
pub enum Accepted {
    /// A proposal, with its reference (RFC 9420, 5.2).
    Proposal(Vec<u8>),
    /// A commit, with the epoch that it begins.
    Commit(u64),
}

/// How many proposals of each type a message has, and how many references to proposals (RFC 9420, 12.1 and 12.4).
#[derive(Clone, Copy, Debug, Default, PartialEq, Eq)]
pub struct Counts {
    pub adds: u64,
    pub updates: u64,
    pub removes: u64,
    pub psks: u64,
    pub reinits: u64,
    pub external_inits: u64,
    pub group_context_extensions: u64,
    pub references: u64,
}

/// The sender of a PublicMessage (RFC 9420, 6).
#[derive(Clone, Copy, Debug, PartialEq, Eq)]
pub enum Sender {
    /// The member with this leaf index.
    Member(u32),
    /// The external sender with this index in the `external_senders` extension.
    External(u32),
    /// A client that proposes its own Add.
    NewMemberProposal,
    /// A client that joins by an external commit.
    NewMemberCommit,
}

/// What a message says of itself, without a group. A fact that it does not have is `None`.
#[derive(Clone, Debug, PartialEq, Eq)]
pub struct Facts {
    /// 1 of a PublicMessage, 2 of a PrivateMessage, 3 of a Welcome, 4 of a GroupInfo, 5 of a KeyPackage (RFC 9420, 6).
    pub wire_format: u32,
    /// The group ID of a PublicMessage, a PrivateMessage or a GroupInfo.
    pub group_id: Option<Vec<u8>>,
    /// The epoch of a PublicMessage, a PrivateMessage or a GroupInfo.
    pub epoch: Option<u64>,
    /// 1 of application data, 2 of a proposal, 3 of a commit, in a PublicMessage or a PrivateMessage.
    pub content_type: Option<u32>,
    /// The sender of a PublicMessage.
    pub sender: Option<Sender>,
    /// The proposals of a PublicMessage.
    pub proposals: Counts,
    /// The signature key of a KeyPackage, or of a sender that joins (RFC 9420, 6.1).
    pub signature_key: Option<Vec<u8>>,
}

/// A member of a group.
#[derive(Clone, Debug, PartialEq, Eq)]
pub struct Member {
    /// The leaf index.
    pub leaf: u32,
    /// The encoded credential (RFC 9420, 5.3).
    pub credential: Vec<u8>,
    /// The signature key (RFC 9420, 7.2).
    pub signature_key: Vec<u8>,
}

/// A set of strict rules: forms, lengths and lists that anyone can see, which a follower checks after the rules of its
/// profile. The set has a rule by its number, from 40 to 52 (docs/FORMATS.md).
#[derive(Clone, Copy, Debug, PartialEq, Eq)]
pub struct Rules {
    bits: u16,
}

impl Rules {
    /// The empty set.
    pub const PLAIN: Rules = Rules { bits: 0 };

    /// The set of all strict rules, 40 to 52.
    pub const STRICT: Rules = Rules { bits: 0x1fff };

    /// Returns the bit of the strict rule of this number, or 0 if the number is none of 40 to 52.
    const fn bit(number: u8) -> u16 {
        if number < 40 || number > 52 {
            return 0;
        }
        1 << (number - 40)
    }

    /// Returns whether the set has the strict rule of this number.
    pub const fn has(self, number: u8) -> bool {
        self.bits & Rules::bit(number) != 0
    }

    /// Returns the union of two sets.
    pub const fn with(self, rules: Rules) -> Rules {
        Rules { bits: self.bits | rules.bits }
    }

    /// Returns the set without the strict rule of this number, or `None` if the number is none of 40 to 52.
    pub const fn without(self, number: u8) -> Option<Rules> {
        match Rules::bit(number) {
            0 => None,
            bit => Some(Rules { bits: self.bits & !bit }),
        }
    }

    /// Returns the number that encodes the set: rule `n` is bit `n - 40`.
    pub const fn bits(self) -> u16 {
        self.bits
    }

    /// Returns the set that the number encodes, or `None` if one of the bits 13 to 15 is 1.
    pub const fn from_bits(bits: u16) -> Option<Rules> {
        if bits > Rules::STRICT.bits {
            return None;
        }
        Some(Rules { bits })
    }
}

/// Why a message is refused: the rule, and for 25 the number and the leaf index of the fault of the leaf node. The rules 40
/// to 52 are the strict ones, and 53 is that of [`Follower::judge_at`].
#[derive(Clone, Copy, Debug, PartialEq, Eq)]
pub struct Refusal {
    pub number: u32,
    pub inner: u32,
    pub leaf: u32,
}

impl Refusal {
    /// Returns the name of the rule, as `mlscheck` prints it.
    pub fn name(&self) -> &'static str {
        const NAMES: [&str; 54] = [
            "", "Malformed", "NotPublic", "WrongGroup", "WrongEpoch", "SenderNotMember", "NotHandshake",
            "BadSignature", "KnownProposal", "AddInvalid", "UpdateInvalid", "RemoveInvalid", "LastEpoch",
            "UnknownReference", "UpdateByCommitter", "RemovesCommitter", "SameLeafTwice", "PathMissing",
            "TooManyLeaves", "PathLength", "PathSource", "PathKeyUsed", "CiphertextCount", "PathParentHash",
            "KeyRepeated", "Member", "TwoContextExtensions", "ContextExtensionsInvalid", "GroupOver",
            "UnknownExternal", "SenderContent", "PskInvalid", "ReInitInvalid", "ExternalInitMisplaced", "PskTwice",
            "ReInitNotAlone", "JoinList", "ResyncInvalid", "", "", "TagLength", "ExtensionRepeated",
            "ExtensionMisplaced", "ExtensionUnreadable", "KeyForm", "CiphertextForm", "GroupUnlisted", "DefaultListed",
            "LifetimeEmpty", "CertificateKey", "PskAhead", "GroupExtensionUnsupported", "PointOffCurve",
            "LifetimeOutside",
        ];
        NAMES.get(self.number as usize).unwrap_or(&"")
    }
}

/// Memory ran out, or the state is too long for a file. The follower is unchanged, but may have learnt some of the receipts.
#[derive(Clone, Copy, Debug, PartialEq, Eq)]
pub struct Fault {
    pub number: u32,
}

impl std::fmt::Display for Refused {
    fn fmt(&self, f: &mut std::fmt::Formatter<'_>) -> std::fmt::Result {
        write!(f, "refused {} {} {}", self.number, self.inner, self.place)
    }
}

impl std::fmt::Display for Fault {
    fn fmt(&self, f: &mut std::fmt::Formatter<'_>) -> std::fmt::Result {
        write!(f, "fault {}", self.number)
    }
}

impl std::error::Error for Refused {}

impl std::error::Error for Fault {}

mod sys {
    #[repr(C)]
    pub struct Handle {
        pub at: *mut u8,
    }

    #[repr(C)]
    pub struct Verdict {
        pub number: u32,
        pub inner: u32,
        pub place: u64,
    }

    #[repr(C)]
    pub struct Judgement {
        pub number: u32,
        pub kind: u32,
        pub inner: u32,
        pub leaf: u32,
        pub epoch: u64,
    }

    #[repr(C)]
    #[derive(Default)]
    pub struct Facts {
        pub wire_format: u32,
        pub content_type: u32,
        pub sender_type: u32,
        pub sender_index: u32,
        pub has_group: u32,
        pub has_signature_key: u32,
        pub epoch: u64,
        pub adds: u64,
        pub updates: u64,
        pub removes: u64,
        pub psks: u64,
        pub reinits: u64,
        pub external_inits: u64,
        pub group_context_extensions: u64,
        pub references: u64,
    }

    extern "C" {
        pub fn mls_message_facts(
            message: *const u8, message_len: usize, facts: *mut Facts, group_id: *mut u8, group_id_len: usize,
            group_id_needed: *mut usize, signature_key: *mut u8, signature_key_len: usize,
            signature_key_needed: *mut usize,
        ) -> u32;
        pub fn mls_validate_tree(
            context: *const u8, context_len: usize, tree: *const u8, tree_len: usize, receipts: *const u8,
            receipts_len: usize, hash: *mut u8, hash_len: usize, needed: *mut usize,
        ) -> Verdict;
        pub fn mls_validate_tree_strict(
            context: *const u8, context_len: usize, tree: *const u8, tree_len: usize, receipts: *const u8,
            receipts_len: usize, rules: u16, hash: *mut u8, hash_len: usize, needed: *mut usize,
        ) -> Verdict;
        pub fn mls_start_query(
            info: *const u8, info_len: usize, tree: *const u8, tree_len: usize, receipts: *const u8,
            receipts_len: usize, records: *mut u8, records_len: usize, needed: *mut usize,
        ) -> Verdict;
        pub fn mls_resume_query(
            state: *const u8, state_len: usize, receipts: *const u8, receipts_len: usize, records: *mut u8,
            records_len: usize, needed: *mut usize,
        ) -> Verdict;
        pub fn mls_follower_start(
            info: *const u8, info_len: usize, tree: *const u8, tree_len: usize, receipts: *const u8,
            receipts_len: usize, profile: u32, follower: *mut Handle,
        ) -> Verdict;
        pub fn mls_follower_start_by(
            info: *const u8, info_len: usize, tree: *const u8, tree_len: usize, receipts: *const u8,
            receipts_len: usize, profile: u32, rules: u16, follower: *mut Handle,
        ) -> Verdict;
        pub fn mls_follower_resume(
            state: *const u8, state_len: usize, receipts: *const u8, receipts_len: usize, profile: u32,
            follower: *mut Handle,
        ) -> Verdict;
        pub fn mls_follower_free(follower: *mut Handle);
        pub fn mls_follower_epoch(follower: *mut Handle, epoch: *mut u64) -> u32;
        pub fn mls_follower_members(follower: *mut Handle, members: *mut u32) -> u32;
        pub fn mls_follower_ended(follower: *mut Handle, ended: *mut u32) -> u32;
        pub fn mls_follower_rules(follower: *mut Handle, rules: *mut u16) -> u32;
        pub fn mls_follower_make_strict(follower: *mut Handle, rules: u16) -> Verdict;
        pub fn mls_follower_tree_hash(follower: *mut Handle, hash: *mut u8, len: usize, needed: *mut usize) -> u32;
        pub fn mls_follower_confirmed_hash(follower: *mut Handle, hash: *mut u8, len: usize, needed: *mut usize) -> u32;
        pub fn mls_follower_group_id(follower: *mut Handle, group_id: *mut u8, len: usize, needed: *mut usize) -> u32;
        pub fn mls_follower_context(follower: *mut Handle, context: *mut u8, len: usize, needed: *mut usize) -> u32;
        pub fn mls_follower_tree(follower: *mut Handle, tree: *mut u8, len: usize, needed: *mut usize) -> u32;
        pub fn mls_follower_member(
            follower: *mut Handle, leaf: u32, credential: *mut u8, credential_len: usize, credential_needed: *mut usize,
            signature_key: *mut u8, signature_key_len: usize, signature_key_needed: *mut usize,
        ) -> u32;
        pub fn mls_follower_pending(follower: *mut Handle, count: *mut usize) -> u32;
        pub fn mls_follower_pending_at(
            follower: *mut Handle, k: usize, reference: *mut u8, reference_len: usize, needed: *mut usize,
        ) -> u32;
        pub fn mls_follower_query(
            follower: *mut Handle, message: *const u8, message_len: usize, records: *mut u8, records_len: usize,
            needed: *mut usize,
        ) -> u32;
        pub fn mls_follower_learn(follower: *mut Handle, receipts: *const u8, receipts_len: usize) -> u32;
        pub fn mls_follower_judge(
            follower: *mut Handle, message: *const u8, message_len: usize, reference: *mut u8, reference_len: usize,
        ) -> Judgement;
        pub fn mls_follower_judge_at(
            follower: *mut Handle, now: u64, message: *const u8, message_len: usize, reference: *mut u8,
            reference_len: usize,
        ) -> Judgement;
        pub fn mls_follower_state(follower: *mut Handle, state: *mut u8, state_len: usize, needed: *mut usize) -> u32;
    }
}

const BUFFER_TOO_SMALL: u32 = 101;
const NO_MEMBER: u32 = 115;

/// In which handshakes a group is followed.
#[derive(Clone, Copy, Debug, PartialEq, Eq)]
pub enum Profile {
    /// Those of members: Add, Update, Remove, GroupContextExtensions and Commit.
    Members = 1,
    /// Also PreSharedKey and ReInit, and proposals from outside (RFC 9420, 12.1.8).
    Full = 2,
}

/// Calls `call` with a buffer, and again with a longer one if it is too small.
fn filled(mut call: impl FnMut(&mut [u8], &mut usize) -> u32) -> Result<Vec<u8>, u32> {
    let mut buffer = vec![0; 256];
    loop {
        let mut needed = 0;
        match call(&mut buffer, &mut needed) {
            0 => {
                buffer.truncate(needed);
                return Ok(buffer);
            }
            BUFFER_TOO_SMALL => buffer.resize(needed, 0),
            number => return Err(number),
        }
    }
}

/// Calls `call` with two buffers, and again with longer ones if one is too small.
fn filled_pair(
    mut call: impl FnMut(&mut [u8], &mut usize, &mut [u8], &mut usize) -> u32,
) -> Result<(Vec<u8>, Vec<u8>), u32> {
    let (mut one, mut two) = (vec![0; 256], vec![0; 256]);
    loop {
        let (mut one_needed, mut two_needed) = (0, 0);
        match call(&mut one, &mut one_needed, &mut two, &mut two_needed) {
            0 => {
                one.truncate(one_needed);
                two.truncate(two_needed);
                return Ok((one, two));
            }
            BUFFER_TOO_SMALL => {
                one.resize(one_needed.max(one.len()), 0);
                two.resize(two_needed.max(two.len()), 0);
            }
            number => return Err(number),
        }
    }
}

fn checked(verdict: sys::Verdict) -> Result<(), Refused> {
    match verdict {
        sys::Verdict { number: 0, .. } => Ok(()),
        sys::Verdict { number, inner, place } => Err(Refused { number, inner, place }),
    }
}

fn filled_or_refused(mut call: impl FnMut(&mut [u8], &mut usize) -> sys::Verdict) -> Result<Vec<u8>, Refused> {
    let mut refused = Refused { number: 0, inner: 0, place: 0 };
    let result = filled(|buffer, needed| {
        let verdict = call(buffer, needed);
        refused = Refused { number: verdict.number, inner: verdict.inner, place: verdict.place };
        verdict.number
    });
    result.map_err(|_| refused)
}

/// Takes a vector (RFC 9420, 2.1.2) from the front of `rest`.
fn take_vector<'a>(rest: &mut &'a [u8]) -> &'a [u8] {
    let size = 1 << (rest[0] >> 6);
    let len = rest[1..size].iter().fold(usize::from(rest[0] & 0x3f), |len, byte| len << 8 | usize::from(*byte));
    let body = &rest[size..size + len];
    *rest = &rest[size + len..];
    body
}

fn signatures_in(records: &[u8]) -> Vec<Signature> {
    let mut rest = records;
    let mut list = Vec::new();
    while !rest.is_empty() {
        let mut body = take_vector(&mut rest);
        let (receipt, after) = body.split_at(32);
        let suite = u16::from_be_bytes([after[0], after[1]]);
        body = &after[2..];
        list.push(Signature {
            receipt: receipt.try_into().unwrap(),
            suite,
            key: take_vector(&mut body).to_vec(),
            content: take_vector(&mut body).to_vec(),
            signature: take_vector(&mut body).to_vec(),
        });
    }
    list
}

/// Checks that a ratchet tree belongs to a GroupContext and is valid, and that its leaf nodes are valid (RFC 9420, 7.3,
/// 7.9.2 and 12.4.3.1), by these receipts. Returns its tree hash.
pub fn validate_tree(context: &[u8], tree: &[u8], receipts: &[Receipt]) -> Result<Vec<u8>, Refused> {
    let receipts = receipts.concat();
    filled_or_refused(|hash, needed| unsafe {
        sys::mls_validate_tree(
            context.as_ptr(), context.len(), tree.as_ptr(), tree.len(), receipts.as_ptr(), receipts.len(),
            hash.as_mut_ptr(), hash.len(), needed,
        )
    })
}

/// Checks a ratchet tree as [`validate_tree`] does, and that the GroupContext and the tree meet these strict rules. The
/// number 9 of [`Refused`] is that one is not met: `inner` is its number, and `place` the node index, or `u64::MAX` if it is
/// no node that does not meet it.
pub fn validate_tree_strict(
    context: &[u8], tree: &[u8], receipts: &[Receipt], rules: Rules,
) -> Result<Vec<u8>, Refused> {
    let receipts = receipts.concat();
    filled_or_refused(|hash, needed| unsafe {
        sys::mls_validate_tree_strict(
            context.as_ptr(), context.len(), tree.as_ptr(), tree.len(), receipts.as_ptr(), receipts.len(),
            rules.bits, hash.as_mut_ptr(), hash.len(), needed,
        )
    })
}

/// Returns the sender of these numbers, if there is one.
fn sender_in(found: &sys::Facts) -> Option<Sender> {
    match found.sender_type {
        1 => Some(Sender::Member(found.sender_index)),
        2 => Some(Sender::External(found.sender_index)),
        3 => Some(Sender::NewMemberProposal),
        4 => Some(Sender::NewMemberCommit),
        _ => None,
    }
}

/// Returns the facts of a message that do not depend on a group (RFC 9420, 6, 6.1, 12.1 and 12.4), or `None` if the bytes are
/// no message. Nothing is checked: each fact is what the message says of itself.
pub fn message_facts(message: &[u8]) -> Result<Option<Facts>, Fault> {
    let mut found = sys::Facts::default();
    let filled = filled_pair(|id, id_needed, key, key_needed| unsafe {
        sys::mls_message_facts(
            message.as_ptr(), message.len(), &mut found, id.as_mut_ptr(), id.len(), id_needed, key.as_mut_ptr(),
            key.len(), key_needed,
        )
    });
    let (group_id, signature_key) = match filled {
        Ok(both) => both,
        Err(1) => return Ok(None),
        Err(number) => return Err(Fault { number }),
    };
    let has_group = found.has_group == 1;
    Ok(Some(Facts {
        wire_format: found.wire_format,
        group_id: has_group.then_some(group_id),
        epoch: has_group.then_some(found.epoch),
        content_type: (found.content_type != 0).then_some(found.content_type),
        sender: sender_in(&found),
        proposals: Counts {
            adds: found.adds,
            updates: found.updates,
            removes: found.removes,
            psks: found.psks,
            reinits: found.reinits,
            external_inits: found.external_inits,
            group_context_extensions: found.group_context_extensions,
            references: found.references,
        },
        signature_key: (found.has_signature_key == 1).then_some(signature_key),
    }))
}

/// Returns the signatures of a start that have no receipt. With no tree, the tree is the one in the GroupInfo. Strict rules
/// are not checked here.
pub fn start_query(info: &[u8], tree: Option<&[u8]>, receipts: &[Receipt]) -> Result<Vec<Signature>, Refused> {
    let tree = tree.unwrap_or(&[]);
    let receipts = receipts.concat();
    let records = filled_or_refused(|records, needed| unsafe {
        sys::mls_start_query(
            info.as_ptr(), info.len(), tree.as_ptr(), tree.len(), receipts.as_ptr(), receipts.len(),
            records.as_mut_ptr(), records.len(), needed,
        )
    })?;
    Ok(signatures_in(&records))
}

/// Returns the signatures of a resumption from a state ([`Follower::state`]) that have no receipt: those of the leaf nodes
/// and of the pending proposals. The state names the profile and the strict rules.
pub fn resume_query(state: &[u8], receipts: &[Receipt]) -> Result<Vec<Signature>, Refused> {
    let receipts = receipts.concat();
    let records = filled_or_refused(|records, needed| unsafe {
        sys::mls_resume_query(
            state.as_ptr(), state.len(), receipts.as_ptr(), receipts.len(), records.as_mut_ptr(), records.len(), needed,
        )
    })?;
    Ok(signatures_in(&records))
}

/// A follower of a group, in a profile and with a set of strict rules.
pub struct Follower {
    handle: sys::Handle,
}

// Proved of the handle: `FollowerHandle` of the crate `mls_c` is `Send`.
unsafe impl Send for Follower {}

impl Follower {
    fn new() -> Follower {
        Follower { handle: sys::Handle { at: std::ptr::null_mut() } }
    }

    /// Starts a follower of the handshakes of members: [`Follower::start_in`] with [`Profile::Members`].
    pub fn start(info: &[u8], tree: Option<&[u8]>, receipts: &[Receipt]) -> Result<Follower, Refused> {
        Follower::start_in(Profile::Members, info, tree, receipts)
    }

    /// Starts a follower with this profile from a GroupInfo (RFC 9420, 12.4.3) and a tree, by these receipts. With no tree,
    /// the tree is the one in the GroupInfo. The follower has no strict rules.
    pub fn start_in(
        profile: Profile, info: &[u8], tree: Option<&[u8]>, receipts: &[Receipt],
    ) -> Result<Follower, Refused> {
        let mut follower = Follower::new();
        let tree = tree.unwrap_or(&[]);
        let receipts = receipts.concat();
        checked(unsafe {
            sys::mls_follower_start(
                info.as_ptr(), info.len(), tree.as_ptr(), tree.len(), receipts.as_ptr(), receipts.len(),
                profile as u32, &mut follower.handle,
            )
        })?;
        Ok(follower)
    }

    /// Starts a follower as [`Follower::start_in`] does, with these strict rules, which a service should have:
    /// [`Rules::STRICT`]. The GroupInfo and the tree have to meet them. The number 9 of [`Refused`] is that one is not met:
    /// `inner` is its number, and `place` the node index, or `u64::MAX` if it is no node that does not meet it.
    pub fn start_by(
        rules: Rules, profile: Profile, info: &[u8], tree: Option<&[u8]>, receipts: &[Receipt],
    ) -> Result<Follower, Refused> {
        let mut follower = Follower::new();
        let tree = tree.unwrap_or(&[]);
        let receipts = receipts.concat();
        checked(unsafe {
            sys::mls_follower_start_by(
                info.as_ptr(), info.len(), tree.as_ptr(), tree.len(), receipts.as_ptr(), receipts.len(),
                profile as u32, rules.bits, &mut follower.handle,
            )
        })?;
        Ok(follower)
    }

    /// Resumes a follower of the handshakes of members: [`Follower::resume_in`] with [`Profile::Members`].
    pub fn resume(state: &[u8], receipts: &[Receipt]) -> Result<Follower, Refused> {
        Follower::resume_in(Profile::Members, state, receipts)
    }

    /// Resumes a follower from a state of this profile ([`Follower::state`]), by these receipts, with the strict rules of the
    /// state. [`resume_query`] returns the signatures that need a receipt. The number of [`Refused`] is 9 if a pending
    /// proposal is not valid or has no receipt, 10 or 11 if a strict rule is not met ([`Follower::make_strict`]), and 12 if a
    /// KeyPackageRef of the last commit is not valid: of 9, 11 and 12 `place` is its number, from 0 on.
    pub fn resume_in(profile: Profile, state: &[u8], receipts: &[Receipt]) -> Result<Follower, Refused> {
        let mut follower = Follower::new();
        let receipts = receipts.concat();
        checked(unsafe {
            sys::mls_follower_resume(
                state.as_ptr(), state.len(), receipts.as_ptr(), receipts.len(), profile as u32,
                &mut follower.handle,
            )
        })?;
        Ok(follower)
    }

    /// Returns the epoch (RFC 9420, 8.1).
    pub fn epoch(&mut self) -> u64 {
        let mut epoch = 0;
        unsafe { sys::mls_follower_epoch(&mut self.handle, &mut epoch) };
        epoch
    }

    /// Returns the number of members.
    pub fn members(&mut self) -> u32 {
        let mut members = 0;
        unsafe { sys::mls_follower_members(&mut self.handle, &mut members) };
        members
    }

    /// Returns whether the group is over: a commit with a ReInit was accepted (RFC 9420, 11.2).
    pub fn ended(&mut self) -> bool {
        let mut ended = 0;
        unsafe { sys::mls_follower_ended(&mut self.handle, &mut ended) };
        ended == 1
    }

    /// Returns the set of strict rules. No message changes it.
    pub fn rules(&mut self) -> Rules {
        let mut bits = 0;
        unsafe { sys::mls_follower_rules(&mut self.handle, &mut bits) };
        Rules { bits }
    }

    /// Adds strict rules to those of the follower. Only those that it lacks are checked. If they cannot be added, the
    /// follower is unchanged. The number of [`Refused`] is then 10 if the GroupContext or the tree does not meet one:
    /// `inner` is the number of the first, and `place` the node index, or `u64::MAX` if it is no node that does not meet it.
    /// It is 11 if a pending proposal does not meet one: `place` is the number of the first such proposal, from 0 on.
    pub fn make_strict(&mut self, rules: Rules) -> Result<(), Refused> {
        checked(unsafe { sys::mls_follower_make_strict(&mut self.handle, rules.bits) })
    }

    /// Returns the tree hash (RFC 9420, 7.8, 8.1).
    pub fn tree_hash(&mut self) -> Vec<u8> {
        let handle = &mut self.handle;
        filled(|hash, needed| unsafe { sys::mls_follower_tree_hash(handle, hash.as_mut_ptr(), hash.len(), needed) })
            .unwrap()
    }

    /// Returns the confirmed transcript hash (RFC 9420, 8.2).
    pub fn confirmed_hash(&mut self) -> Vec<u8> {
        let handle = &mut self.handle;
        filled(|hash, needed| unsafe {
            sys::mls_follower_confirmed_hash(handle, hash.as_mut_ptr(), hash.len(), needed)
        })
        .unwrap()
    }

    /// Returns the group ID (RFC 9420, 8.1).
    pub fn group_id(&mut self) -> Vec<u8> {
        let handle = &mut self.handle;
        filled(|id, needed| unsafe { sys::mls_follower_group_id(handle, id.as_mut_ptr(), id.len(), needed) }).unwrap()
    }

    /// Returns the encoded GroupContext (RFC 9420, 8.1).
    pub fn context(&mut self) -> Result<Vec<u8>, Fault> {
        let handle = &mut self.handle;
        filled(|context, needed| unsafe {
            sys::mls_follower_context(handle, context.as_mut_ptr(), context.len(), needed)
        })
        .map_err(|number| Fault { number })
    }

    /// Returns the encoded ratchet tree (RFC 9420, 12.4.3.3).
    pub fn tree(&mut self) -> Result<Vec<u8>, Fault> {
        let handle = &mut self.handle;
        filled(|tree, needed| unsafe { sys::mls_follower_tree(handle, tree.as_mut_ptr(), tree.len(), needed) })
            .map_err(|number| Fault { number })
    }

    /// Returns the member at a leaf index, or `None` if the leaf is blank or the tree has no such leaf.
    pub fn member(&mut self, leaf: u32) -> Option<Member> {
        let handle = &mut self.handle;
        let both = filled_pair(|credential, credential_needed, key, key_needed| unsafe {
            sys::mls_follower_member(
                handle, leaf, credential.as_mut_ptr(), credential.len(), credential_needed, key.as_mut_ptr(), key.len(),
                key_needed,
            )
        });
        match both {
            Ok((credential, signature_key)) => Some(Member { leaf, credential, signature_key }),
            Err(NO_MEMBER) => None,
            Err(number) => unreachable!("a follower has a member or none: {number}"),
        }
    }

    /// Returns each member, by its leaf index, one at a time.
    pub fn each_member(&mut self) -> impl Iterator<Item = Member> + '_ {
        let count = self.members() as usize;
        (0..).filter_map(move |leaf| self.member(leaf)).take(count)
    }

    /// Returns the references of the pending proposals (RFC 9420, 5.2 and 12.4), in the order in which they were accepted.
    pub fn pending(&mut self) -> Vec<Vec<u8>> {
        let handle = &mut self.handle;
        let mut count = 0;
        unsafe { sys::mls_follower_pending(handle, &mut count) };
        let mut reference_at = |k| {
            filled(|reference, needed| unsafe {
                sys::mls_follower_pending_at(handle, k, reference.as_mut_ptr(), reference.len(), needed)
            })
        };
        (0..count).map(|k| reference_at(k).unwrap()).collect()
    }

    /// Returns the signatures of a message that have no receipt yet. Bytes that are no message have none.
    pub fn query(&mut self, message: &[u8]) -> Result<Vec<Signature>, Fault> {
        let handle = &mut self.handle;
        let records = filled(|records, needed| unsafe {
            sys::mls_follower_query(
                handle, message.as_ptr(), message.len(), records.as_mut_ptr(), records.len(), needed,
            )
        });
        match records {
            Ok(records) => Ok(signatures_in(&records)),
            Err(1) => Ok(Vec::new()),
            Err(number) => Err(Fault { number }),
        }
    }

    /// Learns that the signatures with these receipts are good.
    pub fn learn(&mut self, receipts: &[Receipt]) -> Result<(), Fault> {
        let receipts = receipts.concat();
        match unsafe { sys::mls_follower_learn(&mut self.handle, receipts.as_ptr(), receipts.len()) } {
            0 => Ok(()),
            number => Err(Fault { number }),
        }
    }

    /// Processes a message (RFC 9420, 6), and accepts it if and only if it satisfies every rule of the profile, and every
    /// strict rule of the follower's set. No lifetime is checked. A refused message changes nothing.
    pub fn judge(&mut self, message: &[u8]) -> Result<Result<Accepted, Refusal>, Fault> {
        let mut reference = [0; 64];
        let judgement = unsafe {
            sys::mls_follower_judge(
                &mut self.handle, message.as_ptr(), message.len(), reference.as_mut_ptr(), reference.len(),
            )
        };
        self.answer(judgement, &reference)
    }

    /// Processes a message as [`Follower::judge`] does, at the time `now`, in seconds since 1970. The lifetime of the leaf node
    /// of each Add that the message has by value must include it (RFC 9420, 7.2, 7.3, 10.1), otherwise the number of
    /// [`Refusal`] is 53. No other lifetime is checked, and the state has no time. Messages that were accepted before are
    /// processed again by [`Follower::judge`]: at a later time one of them might be refused.
    pub fn judge_at(&mut self, now: u64, message: &[u8]) -> Result<Result<Accepted, Refusal>, Fault> {
        let mut reference = [0; 64];
        let judgement = unsafe {
            sys::mls_follower_judge_at(
                &mut self.handle, now, message.as_ptr(), message.len(), reference.as_mut_ptr(), reference.len(),
            )
        };
        self.answer(judgement, &reference)
    }

    /// Returns the answer to a message that was processed.
    fn answer(
        &mut self, judgement: sys::Judgement, reference: &[u8; 64],
    ) -> Result<Result<Accepted, Refusal>, Fault> {
        match judgement {
            sys::Judgement { number: 0, kind: 1, .. } => {
                let size = self.tree_hash().len();
                Ok(Ok(Accepted::Proposal(reference[..size].to_vec())))
            }
            sys::Judgement { number: 0, epoch, .. } => Ok(Ok(Accepted::Commit(epoch))),
            sys::Judgement { number, .. } if number >= 100 => Err(Fault { number }),
            sys::Judgement { number, inner, leaf, .. } => Ok(Err(Refusal { number, inner, leaf })),
        }
    }

    /// Returns the state as a file, from which [`Follower::resume`] resumes. It has the strict rules, and no receipts.
    pub fn state(&mut self) -> Result<Vec<u8>, Fault> {
        let handle = &mut self.handle;
        filled(|state, needed| unsafe { sys::mls_follower_state(handle, state.as_mut_ptr(), state.len(), needed) })
            .map_err(|number| Fault { number })
    }
}

impl Drop for Follower {
    fn drop(&mut self) {
        unsafe { sys::mls_follower_free(&mut self.handle) }
    }
}
