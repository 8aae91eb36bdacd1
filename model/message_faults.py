"""Faults of a message's bytes, of its framed content and of its proposals, for faults.py."""
import tree as trees
from layouts import (ADD, BY_VALUE, BYTES, COMMIT, Extension, EXTENSIONS_CHANGE, EXTERNAL, EXTERNAL_INIT,
                     EXTERNAL_PSK, ExternalPsk, FramedContent, GroupContext, IS_APPLICATION, IS_COMMIT, IS_PROPOSAL,
                     KEY_PACKAGE, Lifetime, MEMBER, Message, NEW_COMMITTER, NEW_PROPOSER, NO_BODY, PACKAGE, PRIVATE,
                     PSK, PUBLIC, REINIT, ReInit, REMOVE, REPLACE, RESUMPTION_PSK, ResumptionPsk, U16, UPDATE, whole)
from follower import framed_content
from faults import fault, FAULTS, has_remove, inserted, with_entries


# ---- bytes

@fault(1)
def cut(maker, state, draft):
    return maker.message(state, draft)[:-1 - maker.chosen.randrange(20)]


@fault(1)
def longer(maker, state, draft):
    return maker.message(state, draft) + b"\x00"


@fault(1)
def other_version(maker, state, draft):
    return b"\x00\x02" + maker.message(state, draft)[2:]


@fault(1)
def other_tags(maker, state, draft):
    """A member's message without a membership tag, or one of another sender with it."""
    message = whole(Message, maker.message(state, draft))
    kind, public = message.body
    tag = None if draft.sender[0] == MEMBER else b"tag"
    return Message.write(message._replace(body=(kind, public._replace(membership_tag=tag))))


@fault(1)
def unknown_proposal(maker, state, draft):
    kind, body = draft.content
    if kind != IS_PROPOSAL:
        return None
    content = FramedContent(state.context.group_id, state.context.epoch, draft.sender, b"", draft.content)
    front = FramedContent.write(content)[:-len(FramedContent.fields["content"].kinds[kind].write(body))]
    return b"\x00\x01\x00\x01" + front + b"\x00\x08\x00" + b"\x01s" + b"\x01m"


@fault(2)
def not_public(maker, state, draft):
    body = maker.chosen.choice([(PRIVATE, b"ciphertext"), (PRIVATE, b""), (3, b"welcome")])
    return Message.write(Message(1, body))


@fault(2)
def other_message(maker, state, draft):
    if maker.chosen.random() < 0.5:
        return Message.write(Message(1, (PACKAGE, maker.add()[1])))
    return maker.signed_info(state.context, state.tree, False)[1]


# ---- framed contents

def framed_with(maker, state, draft, **changes):
    framed = FramedContent(state.context.group_id, state.context.epoch, draft.sender, b"", draft.content)
    return maker.message(state, draft, framed._replace(**changes))


@fault(3)
def other_group(maker, state, draft):
    return framed_with(maker, state, draft, group_id=state.context.group_id + b"x")


@fault(4)
def other_epoch(maker, state, draft):
    epoch = state.context.epoch + maker.chosen.choice([-1, 1])
    return framed_with(maker, state, draft, epoch=epoch) if 0 <= epoch < 2**64 else None


@fault(3)
def other_group_and_epoch(maker, state, draft):
    return framed_with(maker, state, draft, group_id=b"another group", epoch=state.context.epoch ^ 1)


@fault(5)
def blank_sender(maker, state, draft):
    blank = [index for index in range(trees.width(state.tree) + 2) if not trees.leaf(state.tree, index)]
    if draft.sender[0] == MEMBER:
        return framed_with(maker, state, draft, sender=(MEMBER, maker.chosen.choice(blank + [2**32 - 1])))
    return None


@fault(29)
def unknown_external(maker, state, draft):
    if draft.content[0] == IS_PROPOSAL:
        return framed_with(maker, state, draft, sender=(EXTERNAL, maker.chosen.choice([3, 2**32 - 1])))
    return None


@fault(29)
def unknown_external_data(maker, state, draft):
    return framed_with(maker, state, draft, sender=(EXTERNAL, 4), content=(IS_APPLICATION, b"data"))


@fault(6)
def application(maker, state, draft):
    return framed_with(maker, state, draft, content=(IS_APPLICATION, b"data"))


@fault(30)
def not_for_sender(maker, state, draft):
    kind, _ = draft.sender
    index = maker.member(state)
    commit = maker.joined(state, [(EXTERNAL_INIT, b"kem")], {}).content
    proposals = {
        EXTERNAL: [maker.update(state, index), (EXTERNAL_INIT, b"kem")],
        NEW_PROPOSER: [maker.update(state, index), maker.remove(state), maker.psk(state, False), (EXTENSIONS_CHANGE, ()),
                       (EXTERNAL_INIT, b"kem"), maker.reinit()],
        NEW_COMMITTER: [maker.add(), maker.remove(state), (EXTERNAL_INIT, b"kem")],
    }
    if kind == MEMBER:
        return None
    contents = [(IS_PROPOSAL, proposal) for proposal in proposals[kind]]
    return framed_with(maker, state, draft, content=maker.chosen.choice(contents + [commit] * (kind != NEW_COMMITTER)))


@fault(30, 33)
def external_init_alone(maker, state, draft):
    if draft.content[0] != IS_PROPOSAL:
        return None
    return framed_with(maker, state, draft, content=(IS_PROPOSAL, (EXTERNAL_INIT, b"kem")))


@fault(17)
def path_missing(maker, state, draft):
    kind, body = draft.content
    if kind != IS_COMMIT or not body.path:
        return None
    if draft.sender[0] == MEMBER and body.proposals:
        return None
    return framed_with(maker, state, draft, content=(kind, body._replace(path=None)))


@fault(7, signed=True)
def bad_signature(maker, state, draft):
    framed = FramedContent(state.context.group_id, state.context.epoch, draft.sender, b"", draft.content)
    right = maker.sign(draft.key, framed_content(framed, state.context))
    other_context = state.context._replace(epoch=state.context.epoch ^ 1)
    by_other = maker.sign(maker.name("other"), framed_content(framed, state.context))
    signatures = [bytes([right[0] ^ 1]) + right[1:], b"", right + b"\x00", by_other]
    if draft.sender[0] in (MEMBER, NEW_COMMITTER):
        elsewhere = framed._replace(sender=(NEW_PROPOSER, NO_BODY))
        signatures.append(maker.sign(draft.key, framed_content(framed, other_context)))
    else:
        elsewhere = framed._replace(sender=(NEW_COMMITTER, NO_BODY))
    signatures.append(maker.sign(draft.key, framed_content(elsewhere, state.context)))
    return maker.enclosed(framed, maker.chosen.choice(signatures))


@fault(7, signed=True)
def bad_context_in_signature(maker, state, draft):
    """A context is signed where none belongs, or none where it belongs."""
    framed = FramedContent(state.context.group_id, state.context.epoch, draft.sender, b"", draft.content)
    content = without_or_with_context(framed, state.context)
    return maker.enclosed(framed, maker.sign(draft.key, content))


def without_or_with_context(framed, context):
    body = U16.write(1) + U16.write(PUBLIC) + FramedContent.write(framed)
    if framed.sender[0] not in (MEMBER, NEW_COMMITTER):
        body += GroupContext.write(context)
    return BYTES.write(b"MLS 1.0 FramedContentTBS") + BYTES.write(body)


# ---- proposals

@fault(8)
def pending_again(maker, state, draft):
    pending = [maker.sent[entry.reference] for entry in state.pending if entry.reference in maker.sent]
    if not pending:
        return None
    message = whole(Message, maker.chosen.choice(pending))
    public = message.body[1]
    if public.membership_tag is not None:
        public = public._replace(membership_tag=maker.chosen.choice([b"", b"another tag", public.membership_tag]))
    return Message.write(message._replace(body=(PUBLIC, public)))


def bad_add(maker):
    good = maker.add()[1]
    key = good.leaf_node.encryption_key
    source = maker.chosen.choice([(UPDATE, NO_BODY), (COMMIT, b"hash")])
    kinds = [good._replace(version=2), good._replace(suite=maker.suite ^ 1), good._replace(suite=99),
             good._replace(init_key=key), good._replace(leaf_node=maker.leaf(source))]
    return maker.signed_package(maker.chosen.choice(kinds))


def badly_signed_add(maker):
    good = maker.add()[1]
    leaf = good.leaf_node._replace(signature=b"bad")
    return maker.chosen.choice([good._replace(signature=b"bad"), maker.signed_package(good._replace(leaf_node=leaf))])


def bad_update(maker, state, index):
    old = trees.leaf(state.tree, index)
    joining = KEY_PACKAGE, Lifetime(0, 1)
    return maker.chosen.choice([
        maker.renewed(state, index, joining),
        maker.renewed(state, index, (COMMIT, b"hash")),
        maker.signed_leaf(old._replace(source=(UPDATE, NO_BODY)), index),
    ])


def badly_signed_update(maker, state, index):
    leaf = maker.update(state, index)[1]
    return maker.chosen.choice([leaf._replace(signature=b"bad"), maker.signed_leaf(leaf, index + 1)])


def bad_remove(maker, state):
    blank = [index for index in range(trees.width(state.tree) + 3) if not trees.leaf(state.tree, index)]
    return maker.chosen.choice(blank + [2**32 - 1])


def bad_extensions(maker):
    data = maker.chosen.choice([b"", b"\x00\x00", b"\x00\x00\x00\x00", b"\x01\x00\x00\x00"])
    return Extension(0xF00D, b""), Extension(3, data)


def bad_psk(maker, state, by_member):
    length = trees.digest_length(maker.suite)
    nonce = bytes(maker.chosen.choice([0, length - 1, length + 1]))
    kinds = [(EXTERNAL_PSK, ExternalPsk(b"psk", nonce)), (RESUMPTION_PSK, ResumptionPsk(1, b"group", 0, nonce))]
    if state.context.epoch or not by_member:
        kinds += [(RESUMPTION_PSK, ResumptionPsk(usage, b"group", 0, bytes(length))) for usage in (2, 3)]
    return maker.chosen.choice(kinds)


def bad_proposals(maker, state, draft, signed):
    """Proposals that are not valid, by the rule that refuses them, as the draft's sender may send them."""
    kind, index = draft.sender
    if signed:
        made = {9: (ADD, badly_signed_add(maker))}
        if kind == MEMBER:
            made[10] = REPLACE, badly_signed_update(maker, state, index)
    else:
        made = {9: (ADD, bad_add(maker))}
        if kind == MEMBER:
            made[10] = REPLACE, bad_update(maker, state, index)
            made[33] = EXTERNAL_INIT, b"kem"
        if kind in (MEMBER, EXTERNAL):
            made[11] = REMOVE, bad_remove(maker, state)
            made[27] = EXTENSIONS_CHANGE, bad_extensions(maker)
            made[31] = PSK, bad_psk(maker, state, kind == MEMBER)
            made[32] = REINIT, ReInit(b"group", 0, 1, ())
        if kind == NEW_COMMITTER:
            made = {11: (REMOVE, bad_remove(maker, state)), 31: (PSK, bad_psk(maker, state, False))}
    return made


def with_bad_proposal(maker, state, draft, rule, signed=False):
    made = bad_proposals(maker, state, draft, signed)
    kind, body = draft.content
    if rule not in made or (kind == IS_PROPOSAL and draft.sender[0] == NEW_COMMITTER):
        return None
    if kind == IS_PROPOSAL:
        proposal = made[rule]
        key = proposal[1].leaf_node.signature_key if draft.sender[0] == NEW_PROPOSER else draft.key
        return maker.message(state, draft._replace(content=(kind, proposal), key=key))
    return with_entries(maker, state, draft, inserted(maker, body.proposals, (BY_VALUE, made[rule])))


for number in (9, 10, 11, 27, 31, 32, 33):
    def invalid(maker, state, draft, rule=number):
        if draft.sender[0] == NEW_COMMITTER and rule == 11 and has_remove(draft):
            return None
        return with_bad_proposal(maker, state, draft, rule)
    FAULTS.append((f"invalid_{number}", (number,), invalid, False))

for number in (9, 10):
    def badly_signed(maker, state, draft, rule=number):
        if draft.sender[0] == NEW_COMMITTER:
            return None
        return with_bad_proposal(maker, state, draft, rule, True)
    FAULTS.append((f"badly_signed_{number}", (number,), badly_signed, True))


