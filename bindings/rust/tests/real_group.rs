//! Follows the group in examples/real. A signature is good if its receipt is in the group's file of receipts.

use mls_check::{
    message_facts, resume_query, start_query, validate_tree, validate_tree_strict, Accepted, Counts, Facts, Follower,
    Profile, Receipt, Refused, Rules, Sender, Signature,
};
use std::fs;

fn file(name: &str) -> Vec<u8> {
    fs::read(format!("{}/../../examples/{name}", env!("CARGO_MANIFEST_DIR"))).unwrap()
}

fn hex(bytes: &[u8]) -> String {
    bytes.iter().map(|byte| format!("{byte:02x}")).collect()
}

fn receipts() -> Vec<Receipt> {
    let text = String::from_utf8(file("real/receipts.txt")).unwrap();
    let byte = |line: &str, i: usize| u8::from_str_radix(&line[2 * i..2 * i + 2], 16).unwrap();
    text.lines().map(|line| std::array::from_fn(|i| byte(line, i))).collect()
}

fn messages() -> Vec<Vec<u8>> {
    let log = file("real/handshakes.log");
    let mut rest = &log[..];
    let mut list = Vec::new();
    while !rest.is_empty() {
        let size = 1 << (rest[0] >> 6);
        let len = rest[1..size].iter().fold(usize::from(rest[0] & 0x3f), |len, byte| len << 8 | usize::from(*byte));
        list.push(rest[size..size + len].to_vec());
        rest = &rest[size + len..];
    }
    list
}

fn good(wanted: &[Signature]) -> Vec<Receipt> {
    let known = receipts();
    wanted.iter().map(|signature| signature.receipt).filter(|receipt| known.contains(receipt)).collect()
}

fn judged(group: &mut Follower, message: &[u8]) -> String {
    let wanted = group.query(message).unwrap();
    group.learn(&good(&wanted)).unwrap();
    match group.judge(message).unwrap() {
        Ok(Accepted::Proposal(reference)) => format!("accepted proposal {}", hex(&reference)),
        Ok(Accepted::Commit(epoch)) => {
            format!("accepted commit {epoch} {} {}", hex(&group.tree_hash()), hex(&group.confirmed_hash()))
        }
        Err(refusal) => format!("refused {} {}", refusal.number, refusal.name()),
    }
}

#[test]
fn follows_message_by_message() {
    let info = file("real/epoch-1.info");
    let wanted = start_query(&info, None, &[]).unwrap();
    assert_eq!(wanted.len(), 3);
    let mut group = Follower::start(&info, None, &good(&wanted)).unwrap();
    let mut lines =
        vec![format!("ready epoch {} members {} tree {}", group.epoch(), group.members(), hex(&group.tree_hash()))];
    for message in messages() {
        // Before its signatures are learnt, and with one bit of its signature changed, it is refused.
        let wanted = group.query(&message).unwrap();
        assert!(!wanted.is_empty());
        assert_eq!(group.judge(&message).unwrap().unwrap_err().number, 7);
        let own = &wanted[0].signature;
        let at = message.windows(own.len()).position(|part| part == &own[..]).unwrap();
        let mut forged = message.clone();
        forged[at] ^= 1;
        assert_eq!(judged(&mut group, &forged), "refused 7 BadSignature");
        lines.push(judged(&mut group, &message));
    }
    let expected = String::from_utf8(file("c/expected.txt")).unwrap();
    assert_eq!(lines.join("\n") + "\n", expected);
}

#[test]
fn resumes_after_each_message() {
    let mut group = Follower::start(&file("real/epoch-1.info"), None, &receipts()).unwrap();
    for message in messages() {
        let mut other = Follower::resume(&group.state().unwrap(), &receipts()).unwrap();
        assert_eq!(other.judge(&message).unwrap(), group.judge(&message).unwrap());
        assert_eq!(other.state().unwrap(), group.state().unwrap());
    }
    assert_eq!((group.epoch(), group.members()), (8, 3));
}

/// The first bytes of the receipts, in hexadecimal digits.
fn fronts(wanted: &[Signature]) -> Vec<String> {
    wanted.iter().map(|signature| hex(&signature.receipt[..4])).collect()
}

#[test]
fn lists_the_signatures_of_a_state() {
    let mut group = Follower::start(&file("real/epoch-1.info"), None, &receipts()).unwrap();
    for message in &messages()[..4] {
        assert!(group.judge(message).unwrap().is_ok());
    }
    // Three leaf nodes, and a pending Remove proposal.
    let state = group.state().unwrap();
    let wanted = resume_query(&state, &[]).unwrap();
    assert_eq!(fronts(&wanted), ["b40a5210", "8239c971", "311cfcb5", "efd6a6ad"]);
    let good = good(&wanted);
    assert_eq!(resume_query(&state, &good), Ok(vec![]));
    assert_eq!(Follower::resume(&state, &good).unwrap().state(), group.state());
    for (at, signature) in wanted.iter().enumerate() {
        let others = [&good[..at], &good[at + 1..]].concat();
        assert_eq!(resume_query(&state, &others), Ok(vec![signature.clone()]));
        let (number, inner, place) = if at < 3 { (7, 5, at as u64) } else { (9, 0, 0) };
        assert_eq!(Follower::resume(&state, &others).err(), Some(Refused { number, inner, place }));
    }
    // A state that is damaged, and what is no state.
    let damaged = [&state[..state.len() - 1], &[state[state.len() - 1] ^ 1]].concat();
    assert_eq!(resume_query(&damaged, &good), Err(Refused { number: 2, inner: 0, place: 0 }));
    assert_eq!(resume_query(&[], &[]), Err(Refused { number: 1, inner: 1, place: 0 }));
}

#[test]
fn refuses_what_has_no_receipts() {
    let info = file("real/epoch-1.info");
    let refused = Refused { number: 6, inner: 5, place: 0 };
    assert_eq!(Follower::start(&info, None, &[]).err(), Some(refused));
    assert_eq!(Follower::start(&[], None, &[]).err(), Some(Refused { number: 106, inner: 1, place: 0 }));
    let mut group = Follower::start(&info, None, &receipts()).unwrap();
    assert_eq!(group.query(&[]).unwrap(), []);
    assert_eq!(group.judge(&[]).unwrap().unwrap_err().name(), "Malformed");
}

/// An extensions list with a type twice, which no leaf node of the group supports.
const REPEATED: [u8; 7] = [6, 0xf0, 0, 0, 0xf0, 0, 0];

/// The place of a strict rule that is not met, and not by a node.
const NO_NODE: u64 = u64::MAX;

/// The rule of this number alone.
fn rule(number: u8) -> Rules {
    let others = Rules::STRICT.without(number).unwrap();
    Rules::from_bits(Rules::STRICT.bits() & !others.bits()).unwrap()
}

/// The bytes with the list of extensions at `at`, which is empty, replaced by `REPEATED`.
fn repeated(bytes: &[u8], at: usize) -> Vec<u8> {
    assert_eq!(bytes[at], 0);
    [&bytes[..at], &REPEATED[..], &bytes[at + 1..]].concat()
}

/// The message with a byte less in its membership tag, which is at its end.
fn with_short_tag(message: &[u8]) -> Vec<u8> {
    let at = message.len() - 33;
    assert_eq!(message[at], 32);
    [&message[..at], &[31], &message[at + 2..]].concat()
}

/// The Remove proposal of this message replaced by a GroupContextExtensions proposal with a type twice. After it come 99
/// bytes: the signature and the membership tag.
fn with_repeated_extensions(message: &[u8]) -> Vec<u8> {
    let (front, end) = (&message[..message.len() - 105], &message[message.len() - 99..]);
    assert_eq!(message[front.len()..][..2], [0, 3]);
    [front, &[0, 7], &REPEATED[..], end].concat()
}

/// Learns that each signature of the message is good, and has it checked.
fn judged_with_trust(group: &mut Follower, message: &[u8]) -> String {
    let wanted = group.query(message).unwrap();
    group.learn(&wanted.iter().map(|signature| signature.receipt).collect::<Vec<_>>()).unwrap();
    match group.judge(message).unwrap() {
        Ok(accepted) => format!("{accepted:?}").split('(').next().unwrap().to_string(),
        Err(refusal) => format!("refused {} {}", refusal.number, refusal.name()),
    }
}

#[test]
fn has_sets_of_strict_rules() {
    assert_eq!(Rules::PLAIN.bits(), 0);
    assert_eq!(Rules::STRICT.bits(), 0x1fff);
    assert_eq!(Rules::STRICT.without(47).unwrap().bits(), 0x1f7f);
    assert_eq!([39, 53].map(|number| Rules::STRICT.without(number)), [None, None]);
    assert_eq!([39, 40, 52, 53].map(|number| Rules::STRICT.has(number)), [false, true, true, false]);
    assert!(!Rules::STRICT.without(47).unwrap().has(47));
    assert_eq!(rule(40).with(rule(52)).bits(), 0x1001);
    assert_eq!(Rules::from_bits(0x1fff), Some(Rules::STRICT));
    assert_eq!(Rules::from_bits(0x2000), None);
}

#[test]
fn follows_by_strict_rules() {
    let info = file("real/epoch-1.info");
    let mut plain = Follower::start(&info, None, &receipts()).unwrap();
    let mut group = Follower::start_by(Rules::STRICT, Profile::Members, &info, None, &receipts()).unwrap();
    assert_eq!((plain.rules(), group.rules()), (Rules::PLAIN, Rules::STRICT));
    for message in messages() {
        assert_eq!(judged_with_trust(&mut group, &with_short_tag(&message)), "refused 40 TagLength");
        assert_eq!(group.judge(&message).unwrap(), plain.judge(&message).unwrap());
        assert_eq!(group.tree_hash(), plain.tree_hash());
    }
    assert_eq!(group.epoch(), 8);
    assert_eq!(group.rules(), Rules::STRICT);
    // The two states differ in the checksum and the strict rules.
    let (state, plain) = (group.state().unwrap(), plain.state().unwrap());
    assert_eq!((&state[..3], &state[35..37], &state[39..]), (&plain[..3], &plain[35..37], &plain[39..]));
    assert_eq!((&state[37..39], &plain[37..39]), (&[0x1f, 0xff][..], &[0, 0][..]));
    assert_eq!(resume_query(&state, &[]), resume_query(&plain, &[]));
    let mut other = Follower::resume(&state, &receipts()).unwrap();
    assert_eq!((other.rules(), other.state()), (Rules::STRICT, Ok(state)));
}

#[test]
fn adds_strict_rules() {
    let mut group = Follower::start(&file("real/epoch-1.info"), None, &receipts()).unwrap();
    let (all, no_tags) = (messages(), Rules::STRICT.without(40).unwrap());
    for message in &all[..3] {
        assert_eq!(judged_with_trust(&mut group, message), "Commit");
    }
    assert_eq!(judged_with_trust(&mut group, &all[3]), "Proposal");
    assert_eq!(judged_with_trust(&mut group, &with_repeated_extensions(&all[3])), "Proposal");
    // The second pending proposal has a type twice, so 41 cannot be added, nor a set with it.
    let refused = Refused { number: 11, inner: 0, place: 1 };
    assert_eq!(group.make_strict(no_tags), Err(refused));
    assert_eq!(group.rules(), Rules::PLAIN);
    assert!(group.state().is_ok());
    let fewer = no_tags.without(41).unwrap();
    assert_eq!(group.make_strict(fewer), Ok(()));
    assert_eq!(group.rules(), fewer);
    assert_eq!(group.make_strict(rule(41)), Err(refused));
    // The proposals are no more pending in the next epoch.
    assert_eq!(judged_with_trust(&mut group, &all[4]), "Commit");
    assert_eq!(group.make_strict(rule(41)), Ok(()));
    assert_eq!(group.rules(), no_tags);
    assert_eq!(judged_with_trust(&mut group, &with_short_tag(&all[5])), "Proposal");
}

#[test]
fn refuses_a_group_that_is_not_strict() {
    let (info, context) = (file("real/epoch-1.info"), file("real/epoch-1.context"));
    let info = repeated(&info, 4 + context.len() - 1);
    let good: Vec<Receipt> = start_query(&info, None, &[]).unwrap().iter().map(|wanted| wanted.receipt).collect();
    let refused = |rules, inner, place| {
        let started = Follower::start_by(rules, Profile::Full, &info, None, &good);
        assert_eq!(started.err(), Some(Refused { number: 9, inner, place }));
        let mut group = Follower::start_in(Profile::Full, &info, None, &good).unwrap();
        assert_eq!(group.make_strict(rules), Err(Refused { number: 10, inner, place }));
    };
    refused(Rules::STRICT, 41, NO_NODE);
    refused(rule(51), 51, 0);
    let fewer = Rules::STRICT.without(41).unwrap().without(51).unwrap();
    assert!(Follower::start_by(fewer, Profile::Full, &info, None, &good).is_ok());
}

#[test]
fn validates_a_tree_by_strict_rules() {
    let (context, tree) = (file("real/epoch-8.context"), file("real/epoch-8.tree"));
    let hash = validate_tree(&context, &tree, &receipts()).unwrap();
    assert_eq!(validate_tree_strict(&context, &tree, &receipts(), Rules::STRICT).as_ref(), Ok(&hash));
    let context = repeated(&context, context.len() - 1);
    let refused = |inner, place| Err(Refused { number: 9, inner, place });
    assert_eq!(validate_tree_strict(&context, &tree, &receipts(), Rules::STRICT), refused(41, NO_NODE));
    assert_eq!(validate_tree_strict(&context, &tree, &receipts(), rule(51)), refused(51, 0));
    assert_eq!(validate_tree_strict(&context, &tree, &receipts(), rule(44)).as_ref(), Ok(&hash));
    assert_eq!(validate_tree(&context, &tree, &receipts()), Ok(hash));
}

#[test]
fn validates_a_tree() {
    let (context, tree) = (file("real/epoch-8.context"), file("real/epoch-8.tree"));
    let hash = validate_tree(&context, &tree, &receipts()).unwrap();
    assert_eq!(hex(&hash), "72763a49e8a0ffa3685769fd0066db78eb8b7f54aef69175360b742e692da9bf");
    assert_eq!(validate_tree(&context, &tree, &[]), Err(Refused { number: 6, inner: 5, place: 0 }));
}

/// The capabilities of the group's leaf nodes, and the source key_package. The lifetime follows (RFC 9420, 7.2).
const KEY_PACKAGE: [u8; 16] = [2, 0, 1, 6, 0, 2, 0, 1, 0, 3, 0, 0, 2, 0, 1, 1];

/// The first and the last second of the lifetime of the leaf node that a message adds, if it adds one.
fn lifetime(message: &[u8]) -> Option<(u64, u64)> {
    let at = message.windows(KEY_PACKAGE.len()).position(|part| part == KEY_PACKAGE)? + KEY_PACKAGE.len();
    let number = |at: usize| u64::from_be_bytes(message[at..at + 8].try_into().unwrap());
    Some((number(at), number(at + 8)))
}

#[test]
fn checks_lifetimes_at_a_time() {
    let info = file("real/epoch-1.info");
    let mut plain = Follower::start(&info, None, &receipts()).unwrap();
    let mut group = Follower::start(&info, None, &receipts()).unwrap();
    let mut adds = 0;
    for message in messages() {
        let mut times = vec![0, u64::MAX];
        if let Some((first, last)) = lifetime(&message) {
            adds += 1;
            for now in [0, first - 1, last + 1, u64::MAX] {
                let refusal = group.judge_at(now, &message).unwrap().unwrap_err();
                assert_eq!((refusal.number, refusal.name()), (53, "LifetimeOutside"));
            }
            times = vec![first, last];
        }
        let state = group.state().unwrap();
        assert_eq!(state, plain.state().unwrap());
        let answer = plain.judge(&message).unwrap();
        assert!(answer.is_ok());
        for now in times {
            group = Follower::resume(&state, &receipts()).unwrap();
            assert_eq!(group.judge_at(now, &message).unwrap(), answer);
        }
    }
    assert_eq!((adds, group.epoch(), group.members()), (4, 8, 3));
    assert_eq!(group.state(), plain.state());
    // It is the last rule.
    let good = good(&start_query(&info, None, &[]).unwrap());
    let mut group = Follower::start_by(Rules::STRICT, Profile::Members, &info, None, &good).unwrap();
    let message = messages().remove(0);
    assert_eq!(group.judge_at(0, &message).unwrap().unwrap_err().number, 7);
    assert_eq!(judged_with_trust(&mut group, &with_short_tag(&message)), "refused 40 TagLength");
    assert_eq!(group.judge_at(0, &with_short_tag(&message)).unwrap().unwrap_err().number, 40);
    assert_eq!(group.judge_at(0, &message).unwrap().unwrap_err().number, 53);
}

/// The id of the group.
const GROUP_ID: &str = "2465531c40cda7923c62292d3a824c84d15fae2af10cb7a5015875f18a1d2a1a";

/// The epoch, the content type and the leaf index of the sender of each message, and how many Adds, Removes and references it
/// has.
const MESSAGE_FACTS: [(u64, u32, u32, u64, u64, u64); 10] = [
    (1, 3, 1, 1, 0, 0),
    (2, 3, 2, 0, 1, 0),
    (3, 3, 0, 1, 0, 0),
    (4, 2, 1, 0, 1, 0),
    (4, 3, 0, 1, 0, 1),
    (5, 2, 2, 0, 1, 0),
    (5, 3, 1, 0, 0, 1),
    (6, 2, 0, 0, 1, 0),
    (6, 3, 1, 0, 0, 0),
    (7, 3, 1, 1, 0, 0),
];

/// The bytes of hexadecimal digits, with spaces between some.
fn bytes_of(digits: &str) -> Vec<u8> {
    let digits = digits.replace(' ', "");
    (0..digits.len() / 2).map(|i| u8::from_str_radix(&digits[2 * i..2 * i + 2], 16).unwrap()).collect()
}

/// The facts of a message that has no other than its wire format.
fn no_facts(wire_format: u32) -> Facts {
    Facts {
        wire_format,
        group_id: None,
        epoch: None,
        content_type: None,
        sender: None,
        proposals: Counts::default(),
        signature_key: None,
    }
}

#[test]
fn reads_the_facts_of_messages() {
    for (message, expected) in messages().iter().zip(MESSAGE_FACTS) {
        let (epoch, content_type, leaf, adds, removes, references) = expected;
        let facts = Facts {
            group_id: Some(bytes_of(GROUP_ID)),
            epoch: Some(epoch),
            content_type: Some(content_type),
            sender: Some(Sender::Member(leaf)),
            proposals: Counts { adds, removes, references, ..Counts::default() },
            ..no_facts(1)
        };
        assert_eq!(message_facts(message).unwrap(), Some(facts));
        assert_eq!(message_facts(&message[1..]).unwrap(), None);
    }
    let info = Facts { group_id: Some(bytes_of(GROUP_ID)), epoch: Some(1), ..no_facts(4) };
    assert_eq!(message_facts(&file("real/epoch-1.info")).unwrap(), Some(info));
    assert_eq!(message_facts(&[]).unwrap(), None);
}

#[test]
fn reads_the_facts_of_other_messages() {
    let leaf = "01b1 0001 0141 020001 020001 00 00 020001";
    let joins = format!(
        "0001 0001 0147 0000000000000000 04 00 03 05 01 0006 01aa \
        01 0181 {leaf} 03 00 00 01c1 07 01d1 04 01aa 01bb 01c6 01e1"
    );
    let join = Facts {
        group_id: Some(vec![0x47]),
        epoch: Some(0),
        content_type: Some(3),
        sender: Some(Sender::NewMemberCommit),
        proposals: Counts { external_inits: 1, ..Counts::default() },
        signature_key: Some(vec![0xb1]),
        ..no_facts(1)
    };
    assert_eq!(message_facts(&bytes_of(&joins)).unwrap(), Some(join));
    let package = format!("0001 0005 0001 0001 01f1 01a1 {leaf} 01 0000000000000000 ffffffffffffffff 00 01c1 00 01c9");
    let facts = Facts { signature_key: Some(vec![0xb1]), ..no_facts(5) };
    assert_eq!(message_facts(&bytes_of(&package)).unwrap(), Some(facts));
    // PrivateMessages: with a group id that is longer than the first buffer, without bytes in it, and with no body that can be
    // read.
    let mut long = bytes_of("0001 0002 412c");
    long.resize(long.len() + 300, 0);
    long.extend(bytes_of("0000000000000005 03 00 01da 01db"));
    let facts = Facts { group_id: Some(vec![0; 300]), epoch: Some(5), content_type: Some(3), ..no_facts(2) };
    assert_eq!(message_facts(&long).unwrap(), Some(facts));
    let facts = Facts { group_id: Some(vec![]), epoch: Some(u64::MAX), content_type: Some(1), ..no_facts(2) };
    assert_eq!(message_facts(&bytes_of("0001 0002 00 ffffffffffffffff 01 00 00 00")).unwrap(), Some(facts));
    assert_eq!(message_facts(&bytes_of("0001 0002")).unwrap(), Some(no_facts(2)));
    // A Welcome.
    assert_eq!(message_facts(&bytes_of("0001 0003 0001 00 00")).unwrap(), Some(no_facts(3)));
}

/// Checks the context and the tree of a group in an epoch of which there are files.
fn check_parts(group: &mut Follower) {
    let epoch = group.epoch();
    assert_eq!(group.context().unwrap(), file(&format!("real/epoch-{epoch}.context")));
    assert_eq!(group.tree().unwrap(), file(&format!("real/epoch-{epoch}.tree")));
}

#[test]
fn reads_the_parts_of_a_group() {
    let mut group = Follower::start(&file("real/epoch-1.info"), None, &receipts()).unwrap();
    check_parts(&mut group);
    for message in messages() {
        let pending = match group.judge(&message).unwrap().unwrap() {
            Accepted::Proposal(reference) => vec![reference],
            Accepted::Commit(epoch) => {
                if epoch == 4 || epoch == 8 {
                    check_parts(&mut group);
                }
                vec![]
            }
        };
        assert_eq!(group.pending(), pending);
        assert_eq!(group.group_id(), bytes_of(GROUP_ID));
    }
    let members: Vec<String> = group
        .each_member()
        .map(|member| format!("{} {} {}", member.leaf, hex(&member.credential), hex(&member.signature_key[..4])))
        .collect();
    assert_eq!(members, ["0 00010467332d30 6634f895", "1 00010467332d33 4420bff9", "2 00010467332d35 5ca4aa35"]);
    for leaf in [3, 4, u32::MAX] {
        assert_eq!(group.member(leaf), None);
    }
}
