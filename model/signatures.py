"""Which signatures of a start, of a resumption and of messages have to be verified, by the text of docs/FORMATS.md, for
random_groups.py and run_rows.py.

A signature is its key, its SignContent and itself. None depends on whether others are good.
"""
import tree as trees
from layouts import ADD, BY_REFERENCE, IS_PROPOSAL, MEMBER, REPLACE
from follower import (Follower, Item, Refused, applied, content_of, info_content, is_join_list, leaf_content, message_of,
                      package_content)


def without_repeats(signatures):
    return list(dict.fromkeys(signatures))


def of_leaf(leaf, group_id, index):
    return leaf.signature_key, leaf_content(leaf, group_id, index), leaf.signature


def of_start(info, tree):
    """That of the GroupInfo, then those of the leaves."""
    key = trees.leaf(tree, info.signer).signature_key
    return without_repeats([(key, info_content(info), info.signature), *of_leaves(info.context, tree)])


def of_leaves(context, tree):
    return [of_leaf(trees.leaf(tree, index), context.group_id, index) for index in trees.members(tree)]


def of_state(state, full):
    """Those of the leaves, then those of the message of each pending proposal."""
    found = of_leaves(state.context, state.tree)
    for pending in state.pending:
        found += of_message(state, full, message_of(content_of(state.context, pending)))
    return without_repeats(found)


def of_proposal(group_id, sender, proposal):
    kind, body = proposal
    if kind == ADD:
        package = body.leaf_node.signature_key, package_content(body), body.signature
        return [of_leaf(body.leaf_node, group_id, 0), package]
    if kind == REPLACE and sender[0] == MEMBER:
        return [of_leaf(body, group_id, sender[1])]
    return []


def of_message(state, full, data):
    """Those of a message in a state. A message that cannot be read raises Refused."""
    found = []
    follower = Follower(lambda *signature: found.append(signature) or True, full)
    message = follower.read(data)
    try:
        follower.check_sender(state, message)
    except Refused:
        return []
    kind, body = message.framed.content
    sender, group_id = message.framed.sender, state.context.group_id
    if kind == IS_PROPOSAL:
        found += of_proposal(group_id, sender, body)
    elif sender[0] == MEMBER:
        found += of_commit(state, follower, sender, body)
    else:
        found += of_join(state, body)
    return without_repeats(found)


def of_commit(state, follower, sender, commit):
    """Of a member's commit: of the proposals by value, of the leaves that the list puts into the tree, and of the path's leaf
    if the list can be applied."""
    try:
        items = follower.resolved(state, sender, commit)
    except Refused:
        return []
    group_id, found = state.context.group_id, []
    for item in items:
        if item.by_value:
            found += of_proposal(group_id, sender, item.proposal)
    after = applied(state.tree, items)
    if after is None:
        return found
    tree, added = after
    replaced = [item.sender[1] for item in items if item.proposal[0] == REPLACE]
    for index in replaced + added:
        if trees.leaf(tree, index):
            found.append(of_leaf(trees.leaf(tree, index), group_id, index))
    if commit.path:
        found.append(of_leaf(commit.path.leaf_node, group_id, sender[1]))
    return found


def of_join(state, commit):
    """Of an external commit: that of the path's leaf, at the leaf that its sender takes."""
    if not is_join_list(commit.proposals):
        return []
    items = [Item(None, entry, True) for tag, entry in commit.proposals if tag != BY_REFERENCE]
    after = applied(state.tree, items)
    if after is None:
        return []
    _, index = trees.seat(after[0])
    return [of_leaf(commit.path.leaf_node, state.context.group_id, index)]
