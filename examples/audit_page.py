"""The HTML of audit.py: a report that stands alone, without a script and without addresses.

The reasons in words, and what the verdict does not say, are the texts of docs/FORMATS.md, docs/AUDIT.md and README.md.
"""

import collections
import datetime
import hashlib
import html
import pathlib
import re

import draw_tree
from log import Fault
from members import OTHER_PROPOSALS, REINIT, leaf_words, name_of, shown

TOP = pathlib.Path(__file__).resolve().parent.parent

# The strict rules (docs/FORMATS.md).
STRICT = range(40, 53)

# ---- the texts of the pages

Rule = collections.namedtuple("Rule", "name words section")


def section_of(page, heading):
    """The text under a heading of a page of this repository, up to the next heading."""
    path = TOP / page
    try:
        text = path.read_text(encoding="utf-8")
    except OSError as error:
        raise Fault(f"{path}: {error.strerror}: audit.py takes the texts of its report from there; run it in a checkout or an "
                    "unpacked release") from error
    found = re.search(rf"^#+ {re.escape(heading)}\n(.*?)(?=^#|\Z)", text, re.S | re.M)
    if not found:
        raise Fault(f"{path} has no part “{heading}”: take it and audit.py from one release")
    return found[1]


def rules():
    """Why a message is refused, by number, and why a state is, by name: the tables of docs/FORMATS.md. A start is refused under
    the same names."""
    text = section_of("docs/FORMATS.md", "Why a message is refused")
    rows = re.findall(r"^\| (\d+) \| (\w+) \| (.*) \| ([^|]*) \| [^|]* \|$", text, re.M)
    if not {1, 25, *STRICT} <= {int(row[0]) for row in rows}:
        raise Fault(f"{TOP / 'docs/FORMATS.md'} has no table of the refusals: take it and audit.py from one release")
    text = section_of("docs/FORMATS.md", "State files")
    states = re.findall(r"^\| `(\w+)` \| `state refused [^|]*` \| (.*) \|$", text, re.M)
    return {int(number): Rule(name, words, section) for number, name, words, section in rows} | dict(states)


def meaning():
    """The paragraphs and lists of docs/AUDIT.md and README.md on what the verdict says and what it doesn't."""
    before = section_of("docs/AUDIT.md", "What the verdict does not say").split("\n\n")
    blocks = section_of("README.md", "What `valid` and `accepted` mean").split("\n\n")
    last = max((at for at, block in enumerate(blocks) if block.startswith("- ")), default=0)
    return [block for block in before + blocks[:last + 1] if block.strip()]


# ---- words

def spaced(name):
    """The words of a name: those of InfoSignature are info signature."""
    return re.sub(r"(?<!^)(?=[A-Z])", " ", name).lower()


def day(seconds):
    try:
        return datetime.datetime.fromtimestamp(seconds, datetime.timezone.utc).strftime("%Y-%m-%d")
    except (OverflowError, OSError, ValueError):
        return f"second {seconds}"


# ---- HTML

STYLE = """
body { font: 15px/1.5 system-ui, sans-serif; color: #222; max-width: 70rem; margin: 2rem auto; padding: 0 1rem }
h1 { font-size: 1.6rem } h2 { font-size: 1.2rem; margin-top: 2.5rem; border-bottom: 1px solid #ccc }
.verdict { border-left: .5rem solid; padding: .5rem 1rem; font-size: 1.1rem }
.yes { border-color: #2c7a3f; background: #eaf6ec } .no { border-color: #b3261e; background: #fcecea }
table { border-collapse: collapse; width: 100%; margin: 1rem 0 }
th, td { text-align: left; vertical-align: top; padding: .3rem .6rem; border-bottom: 1px solid #ddd; overflow-wrap: anywhere }
th { background: #f4f4f4; overflow-wrap: normal; white-space: nowrap } td ul { margin: 0; padding-left: 1.2rem }
code, pre { font: 13px ui-monospace, monospace; overflow-wrap: anywhere }
pre { white-space: pre-wrap; background: #f4f4f4; padding: .5rem }
.drawn { overflow-x: auto; border: 1px solid #ddd }
.came { color: #1d6b30 } .left { color: #9c1c15 }
summary { cursor: pointer }
@media print { body { max-width: none; margin: 0 } .drawn, details { break-inside: avoid } }
"""

POLICY = "default-src 'none'; style-src 'unsafe-inline'"


def escape(value):
    return html.escape(str(value))


def code(value):
    return f"<code>{escape(value)}</code>"


def plain_html(text):
    """HTML of a line of our pages: code, bold text, and links as their text."""
    text = escape(" ".join(text.split()))
    text = re.sub(r"\[([^\]]*)\]\([^)]*\)", r"\1", text)
    text = re.sub(r"\*\*([^*]*)\*\*", r"<strong>\1</strong>", text)
    return re.sub(r"`([^`]*)`", r"<code>\1</code>", text)


def table(heads, rows):
    """A table whose cells are HTML already."""
    yield "<table><thead><tr>" + "".join(f"<th>{escape(head)}</th>" for head in heads) + "</tr></thead><tbody>"
    for row in rows:
        yield "<tr>" + "".join(f"<td>{cell}</td>" for cell in row) + "</tr>"
    yield "</tbody></table>"


def items(lines):
    return "<ul>" + "".join(f"<li>{line}</li>" for line in lines) + "</ul>" if lines else ""


def verdict(audit):
    """The verdict in a sentence."""
    if not audit.is_started():
        return "Not accepted: the group cannot be followed from this GroupInfo."
    count = len(audit.answers)
    if audit.is_accepted():
        return f"Accepted: the start is valid, and each of the {count} messages of the log satisfies the rules." if count \
            else "Accepted: the start is valid. The log has no message."
    found = f"{len(audit.refused)} of {count} messages are refused" if audit.refused else ""
    if audit.broken:
        found += f"{' and ' if found else ''}the log is broken at message {audit.broken.number}"
    return f"Not accepted: the start is valid, but {found}."


def start_reason(line, known):
    """Why there is no start, in words."""
    words = line.split()
    if words[1] == "unreadable":
        return f"The {'GroupInfo' if words[0] == 'info' else words[0]} cannot be read: {escape(' '.join(words[2:]))}."
    _, name, *rest = words[2:]
    place = f", {'leaf' if name == 'Member' else 'node'} {rest[2]}" if rest[2:] else ""
    if name == "Strict":
        rule = known[int(rest[0])]
        return f"{reason_html(int(rest[0]), rule)} (RFC 9420, {plain_html(rule.section)}){escape(place)}."
    reason = known.get(name, spaced(name))
    reason = reason[0].upper() + reason[1:]
    return f"{plain_html(reason)}{escape(f': {spaced(rest[1])}{place}' if rest else '')}."


def reason_html(number, rule):
    strict = "Strict rule" if number in STRICT else "Rule"
    return f"{strict} {number}, {code(rule.name)}: {plain_html(rule.words)}"


def verdict_part(audit, known):
    yield f'<div class="verdict {"yes" if audit.is_accepted() else "no"}"><p><strong>{verdict(audit)}</strong></p>'
    if not audit.is_started():
        yield f"<p>{start_reason(audit.start, known)}</p>"
    if audit.broken:
        yield (f"<p>Message {audit.broken.number} begins at byte {audit.broken.at} of the log, and cannot be read from it: "
               f"{escape(audit.broken.why)}. Nothing after it was read.</p>")
    yield "</div>"
    end = f", and <code>mlscheck replay</code> at the end {code(audit.counts)}" if audit.counts else ""
    yield f"<p><code>mlscheck validate</code> prints {code(audit.start)}{end}.</p>"
    if audit.notes:
        yield f"<pre>{escape(audit.notes.rstrip())}</pre>"


def refused_cell(each, known):
    number = int(each.words[0])
    found = reason_html(number, known[number])
    if number == 25:
        _, _, inner, name, leaf = each.words
        found += escape(f". Here {inner}, {spaced(name)}: leaf {leaf}")
    return found + "."


def refused_part(audit, known):
    if not audit.refused:
        return
    yield "<h2>Refused messages</h2>"
    rows = ((each.number, each.at, escape(each.what), refused_cell(each, known),
             plain_html(known[int(each.words[0])].section)) for each in audit.refused)
    yield from table(["Message", "At byte", "What it says it is", "Why it is refused", "RFC 9420"], rows)


def input_part(audit):
    yield "<h2>Inputs</h2>"
    rows = ((escape(each.role), code(each.path), len(each.data), code(hashlib.sha256(each.data).hexdigest()))
            for each in audit.inputs)
    yield from table(["What", "File", "Bytes", "SHA-256"], rows)


def rules_words(words):
    if words.plain:
        return "without strict rules"
    return f"with the strict rules, but for {words.allow}" if words.allow else "with all strict rules"


def signature_words(audit):
    """How many signatures were verified, and which were not good."""
    bad = [f"{count} of {'message ' + str(number) if number else 'the start'}" for number, count in audit.bad]
    found = f"Not good: {', '.join(bad)}." if bad else "All are good." if audit.verified else ""
    return f"Signatures that the Python package {audit.library} verified: {audit.verified}. {found}"


def program_part(audit):
    words = audit.words
    yield "<h2>Program</h2>"
    yield f"<pre>{escape(audit.version.rstrip())}</pre>"
    yield (f"<p>The group was followed in the profile {code(words.profile)}, {escape(rules_words(words))}. "
           f"{escape(signature_words(audit))}</p>")
    yield ("<p>The verdict can be had again from the files and the receipts of the good signatures, which "
           "<code>--receipts</code> of this script stores:</p>")
    yield "<pre>" + "\n".join(map(escape, audit.commands)) + "</pre>"


def group_part(audit):
    if not audit.info:
        return
    info = audit.info
    yield "<h2>Group at the start</h2>"
    group_id = bytes.fromhex("" if info["group"] == "-" else info["group"])
    rows = [("group id", escape(shown(group_id))), ("cipher suite", info["suite"]), ("epoch", info["epoch"]),
            ("tree hash", code(info["tree"])), ("confirmed transcript hash", code(info["confirmed"])),
            ("extensions of the GroupContext", escape(info["extensions"])),
            ("signer of the GroupInfo", "leaf " + info["signer"])]
    yield from table(["What", "Value"], rows)


def update_words(index, before, after):
    """What an Update or the path of a commit changed at a leaf, beside its encryption key."""
    new = []
    if before.credential != after.credential:
        new.append(f"new credential, formerly {name_of(before)}")
    if before.signature_key != after.signature_key:
        new.append("new signature key")
    return leaf_words(index, after) + (f" ({', '.join(new)})" if new else "")


def change_cell(changes):
    """Who came, who left, and what else a commit did."""
    lines = [f'<span class="came">Came: {escape(leaf_words(*each))}</span>' for each in changes.came]
    lines += [f'<span class="left">Left: {escape(leaf_words(*each))}</span>' for each in changes.left]
    lines += [f"New keys: {escape(update_words(*each))}" for each in changes.updated]
    lines += [f"Other proposals: {escape(', '.join(changes.others))}"] if changes.others else []
    lines += ["The group is over (RFC 9420, 11.2)"] if OTHER_PROPOSALS[REINIT] in changes.others else []
    return items(lines) or "No member came or left."


def committer_cell(epoch):
    if not epoch.changes:
        return "the start"
    how = " (external commit)" if epoch.changes.is_external else ""
    return f"{escape(leaf_words(*epoch.changes.committer))}{how}, message {epoch.message}"


def member_cell(epoch):
    if epoch.members is None:
        return str(epoch.count)
    lines = [escape(leaf_words(*each)) for each in epoch.members]
    return f"<details><summary>{epoch.count}</summary>{items(lines)}</details>"


def epoch_cell(epoch):
    hashes = [f"tree hash {code(epoch.tree_hash)}", f"confirmed transcript hash {code(epoch.confirmed)}"]
    return f"<details><summary>{epoch.number}</summary>{items(hashes)}</details>"


def epoch_row(epoch):
    change = change_cell(epoch.changes) if epoch.changes else ""
    sent = items([f"message {number}: {escape(what)}" for number, what in epoch.proposals])
    return epoch_cell(epoch), committer_cell(epoch), change, sent, member_cell(epoch)


def epoch_part(audit):
    if not audit.epochs:
        return
    yield "<h2>Epochs</h2>"
    if audit.epochs[-1].members is None:
        yield "<p>The members are so many that only the first epochs list them here. Those of the last epoch are below.</p>"
    heads = ["Epoch", "Begun by", "What changed", "Proposals accepted in it", "Members"]
    yield from table(heads, map(epoch_row, audit.epochs))


def member_row(index, leaf):
    lifetime = "–".join(map(day, leaf.lifetime)) if leaf.lifetime else ""
    return index, escape(name_of(leaf)), code(leaf.signature_key.hex()), escape(lifetime)


def member_part(audit):
    if not audit.leaves:
        return
    yield f"<h2>Members of the last epoch, {audit.epochs[-1].number}</h2>"
    rows = (member_row(*each) for each in sorted(audit.leaves.items()))
    yield from table(["Leaf", "Credential", "Signature key", "Lifetime, of a leaf of a KeyPackage"], rows)


def drawing(lines):
    """The SVG of a tree that `show tree` printed. Of one with more leaves than are drawn at once, the first part."""
    nodes, counts = draw_tree.read(lines)
    root = min(counts[0], draw_tree.MOST_LEAVES) - 1
    yield '<div class="drawn">'
    yield from draw_tree.drawn(nodes, root, counts)
    yield "</div>"


def tree_part(audit):
    for epoch, lines in audit.trees.items():
        yield f"<h2>Tree of epoch {epoch}</h2>"
        yield from drawing(lines)


def block_html(block):
    if not block.startswith("- "):
        return f"<p>{plain_html(block)}</p>"
    return items([plain_html(line) for line in re.split(r"^- ", block, flags=re.M)[1:]])


def meaning_part(blocks):
    yield "<h2>What the verdict says, and what it does not say</h2>"
    yield from map(block_html, blocks)
    yield ("<p>mlscheck is proved, and the script that wrote this report is not. It read from the accepted messages who came, "
           "left and committed. The members of the last epoch are those of the state that mlscheck printed.</p>")


def page(audit, known, blocks):
    """The lines of the report."""
    yield '<!DOCTYPE html>\n<html lang="en"><head><meta charset="utf-8">'
    yield f'<meta http-equiv="Content-Security-Policy" content="{POLICY}">'
    yield '<meta name="viewport" content="width=device-width, initial-scale=1">'
    yield f"<title>Audit of an MLS group: {'accepted' if audit.is_accepted() else 'not accepted'}</title>"
    yield f"<style>{STYLE}</style></head><body><h1>Audit of an MLS group</h1>"
    yield from verdict_part(audit, known)
    yield from refused_part(audit, known)
    for part in (input_part, program_part, group_part, epoch_part, member_part, tree_part):
        yield from part(audit)
    yield from meaning_part(blocks)
    yield "</body></html>"
