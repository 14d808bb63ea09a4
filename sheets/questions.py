"""Single equations, put to the program as loads of trees made for the purpose.

A question is an operation with its constant, an own set and the sets of its arguments. Its node has a child for
each argument, whose own set is that argument; the node's one set has the equation that is asked for.
"""

import program
from answers import Answers
from session import Lines, load_of
from table import USES_B, read_table
from tree import Tree

# a table has 64 productions, and four of them are not questions
MOST_FORMS = 60
# a question takes three nodes and a third of a row: 150 of them stay below 512 nodes
MOST_AT_ONCE = 150
THREE, ONE, NONE, ARGUMENT = range(4)
FRAME = [b"020000", b"020100", b"020100", b"03000401010100", b"0300020100", b"030000", b"030200",
         b"0401" + b"00" * 12]


def production_of(op, c):
    """The frames of a question's production: symbol 1 over one argument or two, of symbol 2."""
    two = op in USES_B
    return [b"0301020202" if two else b"03010102",
            b"04%02x0100%s%016x" % (op, b"0200" if two else b"0000", c)]


class Asker:
    """Puts questions and keeps their answers."""

    def __init__(self, forms):
        self.group = {form: number // MOST_FORMS for number, form in enumerate(forms)}
        self.forms = forms
        self.talks = {}
        self.known = {}
        self.asked = 0

    def ask(self, questions):
        """Finds the answers of questions that are not known yet."""
        waiting = {}
        for question in dict.fromkeys(questions):
            if question not in self.known:
                waiting.setdefault(self.group[question[:2]], []).append(question)
        for group, row in waiting.items():
            for at in range(0, len(row), MOST_AT_ONCE):
                self.put(group, row[at:at + MOST_AT_ONCE])

    def put(self, group, row):
        """Puts some questions of one table as one load, and reads their sets off the dump."""
        talk, table, place = self.talk(group)
        nodes, where = tree_of(row, place)
        instances = Tree(table, nodes).instances()
        talk.say(load_of(nodes, 0).text + [b"08"])
        answers = Answers(talk.hear(len(instances)))
        answers.update()
        sets = answers.sets(instances)
        self.known.update({question: sets[8 * node] for question, node in zip(row, where)})
        self.asked += len(row)

    def talk(self, group):
        """The session of a group of forms, begun when it is first needed."""
        if group not in self.talks:
            forms = self.forms[group * MOST_FORMS:(group + 1) * MOST_FORMS]
            text = [b"0103%02x" % (4 + len(forms))] + FRAME + [line for form in forms for line in production_of(*form)]
            place = {form: 4 + number for number, form in enumerate(forms)}
            self.talks[group] = program.Talk(text), read_table(Lines(text)), place
        return self.talks[group]

    def close(self):
        for talk, _, _ in self.talks.values():
            talk.close()


def tree_of(questions, place):
    """A tree of questions in rows of three, then of one; and the nodes at which they stand."""
    nodes, where = [], []
    for number, (op, c, own, arguments) in enumerate(questions):
        if number < len(questions) // 3 * 3:
            nodes += [(THREE, 0)] * (number % 3 == 0)
        else:
            nodes.append((ONE, 0))
        where.append(len(nodes))
        nodes.append((place[op, c], own))
        nodes += [(ARGUMENT, argument) for argument in arguments]
    return nodes + [(NONE, 0)], where
