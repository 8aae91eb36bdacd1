"""The shapes of inputs that cost.py makes, by their names, and where an input is written."""
import os

from group import vector

SHAPES = {}


def shape(make):
    SHAPES[make.__name__.replace("_", "-")] = make
    return make


def shape_of_queries(make):
    """The shape, for the gate, and the same for the library for C."""
    shape(make)
    SHAPES[make.__name__.replace("_", "-") + "-in-c"] = lambda put: make(put.in_c())
    return make


class Input:
    """Where an input is written, how many times its least size it has, the strict rules that are asked, and whether its records
    are for queries.c, which calls the library for C, or for the gate."""

    def __init__(self, folder, times, rules=(), by_library=False):
        self.folder = folder
        self.times = times
        self.rules = rules
        self.by_library = by_library

    def asking(self, *rules):
        """The same, for a follower that has the strict rules which these arguments ask."""
        return Input(self.folder, self.times, rules)

    def in_c(self):
        """The same, for queries.c, which follows a group without strict rules."""
        return Input(self.folder, self.times, by_library=True)

    def size(self, least):
        return max(round(least * self.times), 2)

    def full(self, least):
        """The size, rounded up to a power of two: the members of a full tree."""
        return 1 << (self.size(least) - 1).bit_length()

    def write(self, name, body):
        path = os.path.join(self.folder, name)
        with open(path, "wb") as file:
            file.write(body)
        return path

    def lists(self, words, before, piped=(b"", b"")):
        """Writes the arguments of both runs, and what each reads from a pipe."""
        for name, listed, body in (("words", words, piped[0]), ("before", before, piped[1])):
            self.write(name, "".join(word + "\n" for word in listed).encode())
            self.write(name + ".piped", body)

    def replay(self, group, messages, command="replay", touches_all=False, share=None, profile="members"):
        """A log through which the group is followed, in addition to the start alone. If its messages touch all of the tree, the
        tree's bytes count as bytes that came. With a share, each message may take that of the time of a start."""
        log = b"".join(vector(body) for body in messages)
        words = [command, "--info", self.write("info", group.info()), "--tree", self.write("tree", group.tree())]
        words += ["--profile", "full"] if profile == "full" else []
        words += self.rules
        words += ["--trust", "--log"] if command == "replay" else ["--log"]
        self.lists([*words, self.write("log", log)], [*words, self.write("empty", b"")])
        return [len(log) + (len(group.tree()) if touches_all else 0), len(messages), share or 0]

    def queries(self, group, messages, before=(), share=None, profile="members"):
        """Queries of a gate that follows the group, or of queries.c, in addition to its start alone, and to the messages that
        it processes before them."""
        taken = [(b"m", body) for body in before]
        return self.gate(group, [(b"q", body) for body in messages], share, profile, taken)

    def gate(self, group, records, share=None, profile="members", before=()):
        """Records for a gate that follows the group, or for queries.c, each a letter and a message, in addition to its start,
        and to the records before them."""
        begin = vector(b"b") + b"".join(vector(letter + body) for letter, body in before)
        sent = b"".join(vector(letter + body) for letter, body in records)
        info, tree = self.write("info", group.info()), self.write("tree", group.tree())
        words = ["gate", "--info", info, "--tree", tree, "--profile", profile, *self.rules, "--trust"]
        words = [info, tree, profile] if self.by_library else words
        self.lists(words, words, (begin + sent, begin))
        return [len(sent), len(records), share or 0]

    def validate_tree(self, context, tree, nodes=0):
        words = ["validate-tree", "--context", "CONTEXT", "--tree", "TREE", "--trust"]
        return self.files(words, {"CONTEXT": context, "TREE": tree}, nodes)

    def files(self, words, files, nodes=0):
        """A command on files, which its arguments name, in addition to its help. If one of them is a tree, the number of
        its nodes."""
        for name, body in files.items():
            self.write(name, body)
        self.lists([os.path.join(self.folder, word) if word in files else word for word in words], ["--help"])
        told = [sum(map(len, files.values()))]
        return [*told, 0, 0, nodes] if nodes else told
