"""Shapes for cost.py: what the strict rules check, for a follower that has them, and the same for one that has none. Rule 40
is left out, since the messages have tags without content."""
from group import BASIC, Group, key, new_leaf, number, vector
from list_shapes import (adds_of_one_extension, certificates_of_one_byte, ciphertexts_of_one_byte, context_extensions_of_one,
                         context_extensions_proposed, package_extensions_proposed, paths_of_one_ciphertext,
                         reinit_extensions_proposed, updates_of_one_certificate)
from messages import add, commit, extensions_of, false_path, frozen, inline, proposal, put_leaves, with_capabilities
from shape import SHAPES, shape

STRICT = ("--strict", "--allow", "40")

# A type of extensions that no leaf lists unless it is said.
OWN = 0xF000


def both(make):
    """The shape, and the same strictly."""
    shape(make)
    strictly(make)
    return make


def strictly(make):
    SHAPES["strict-" + make.__name__.replace("_", "-")] = lambda put: make(put.asking(*STRICT))


for make in (adds_of_one_extension, certificates_of_one_byte, ciphertexts_of_one_byte, context_extensions_of_one,
             context_extensions_proposed, package_extensions_proposed, paths_of_one_ciphertext, reinit_extensions_proposed,
             updates_of_one_certificate):
    strictly(make)


def other_types(count):
    """Extensions of that many types, which are none of the standard's."""
    return [(256 + at, b"") for at in range(count)]


@both
def context_extensions_of_other_types(put):
    """Proposals whose lists have each type once, and which have to be compared with one another."""
    group = Group(2)
    body = extensions_of(other_types(put.size(15_000)))
    return put.replay(group, [proposal(group, 0, body, number(at, 4))[0] for at in range(20)])


@both
def context_extensions_of_two_types(put):
    """A list of proposals that each have two extensions of the context."""
    group = Group(2)
    body = extensions_of(other_types(2))
    return put.replay(group, [commit(group, [inline(body)] * put.size(60_000))])


@both
def capabilities_of_many_codes(put):
    """An Add whose leaf node lists many types of extensions and of proposals, none of them by default."""
    codes = vector(b"".join(number(256 + at % 60_000, 2) for at in range(put.size(500_000))))
    capabilities = bytes.fromhex("020001 020001") + codes + codes + bytes.fromhex("020001")
    return put.replay(Group(2), [proposal(Group(2), 0, add(new_leaf("many", capabilities=capabilities)))[0]])


@both
def ciphertexts_of_right_length(put):
    """A path whose one node has far more ciphertexts than its resolution has nodes, each with the form of the suite."""
    group = Group(2)
    ciphertext = vector(key("kem output")) + vector(bytes(48))
    node = vector(key("node")) + vector(ciphertext * put.size(40_000))
    return put.replay(group, [commit(group, [], false_path(bytes(32), node))])


def listing(kinds):
    """Capabilities that list these types of extensions."""
    return BASIC[:6] + vector(b"".join(number(kind, 2) for kind in kinds)) + BASIC[7:]


def types_changed(put, supporting):
    """The same commit again and again, of an extension of the context whose type a member does not support. If all but the
    last one do, all leaves have to be visited. The path has a ciphertext for each other member, so a message has the size
    of the group."""
    group = with_capabilities(Group(put.size(1_000)), listing([OWN] if supporting else []))
    last = max(group.present())
    put_leaves(group, {last: new_leaf("last")})
    start = frozen(group)
    path = group.renew(0, group.renewed(0))
    message = commit(group, [inline(extensions_of([(OWN, b"")]))], group.path_bytes(0, path, set()))
    return put.replay(start, [message] * 50)


@shape
def strict_types_refused_by_the_last(put):
    return types_changed(put.asking(*STRICT), True)


@shape
def strict_types_refused_by_the_first(put):
    return types_changed(put.asking(*STRICT), False)
