"""The faults that random_cases.py puts into messages, by message_faults.py and commit_faults.py.

A fault is a function of the maker, the state and the draft. It answers the bytes of a message, or None if it does not
fit the draft. FAULTS lists the faults, each with its name, the rules by which it may be refused, and whether only a
follower that checks signatures refuses it.
"""
from layouts import BY_VALUE, REMOVE

FAULTS = []


def fault(*rules, signed=False):
    def kept(make):
        FAULTS.append((make.__name__, rules, make, signed))
        return make
    return kept


# ---- the proposals of a commit's draft

def with_entries(maker, state, draft, entries):
    kind, commit = draft.content
    return maker.message(state, draft._replace(content=(kind, commit._replace(proposals=tuple(entries)))))


def inserted(maker, entries, *new):
    entries = list(entries)
    for entry in new:
        entries.insert(maker.chosen.randrange(len(entries) + 1), entry)
    return entries


def has_remove(draft):
    return any(tag == BY_VALUE and proposal[0] == REMOVE for tag, proposal in draft.content[1].proposals)
