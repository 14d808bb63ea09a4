"""What each round of a climb found, asked from the program.

A frame 11 tells that a round was made, and not what it found. Where that can't be seen from the sets before and
after, the round is put together again: every equation of the circle, over the sets of the round before, is handed
to the program as a small tree of its own, and the set that it dumps is what the round found. So here too no set is
worked out by the page. Of a circle of one or two rounds nothing has to be asked: the last round left all as it was.
"""

from questions import Asker

# questions of a page; climbs behind these are shown by their rounds alone
MOST_QUESTIONS = 30_000


def climbs_of(day):
    """Says of every circle, of the day and of the cold load, what each round found."""
    every = [worked for event in day.events for worked in event.worked]
    if day.two:
        every += [worked for event in day.two.events for worked in event.worked]
    for worked in every:
        if worked.lone or worked.climb.rounds <= 2:
            worked.found = seen_at_once(worked, day.doubts)
    ask([Climbing(worked) for worked in every if worked.formulas], day.doubts)


def seen_at_once(worked, doubts):
    """What the rounds of a climb found, where the sets at its end say it."""
    first = {place: value for place, value in enumerate(worked.after) if value}
    if worked.climb.rounds == 1 and not worked.lone and first:
        doubts.append(f"the circle of {worked.climb.least} closed in round 1, and has members")
    return [first] + [{}] * (worked.climb.rounds - 1)


def ask(climbing, doubts):
    """Asks all climbs side by side, a round of each at a time, so that few and long questions are put."""
    asker = Asker(sorted({form for climb in climbing for form in climb.forms()}))
    try:
        while climbing and asker.asked < MOST_QUESTIONS:
            rounds = [climb.questions() for climb in climbing]
            asker.ask([question for row in rounds for question in row.values()])
            for climb, row in zip(climbing, rounds):
                climb.take({place: asker.known[question] for place, question in row.items()})
            climbing = [climb for climb in climbing if not climb.finished(doubts)]
    finally:
        asker.close()


class Climbing:
    """A climb on its way: the sets that the last round left, and what each round has found so far."""

    def __init__(self, worked):
        self.worked = worked
        self.sets = [0] * len(worked.members)
        self.found = []
        self.readers = {}
        for place, (_, _, _, sources) in enumerate(worked.formulas):
            for where, what in sources:
                if where == "in":
                    self.readers.setdefault(what, []).append(place)

    def forms(self):
        return [(op, c) for op, c, _, _ in self.worked.formulas]

    def questions(self):
        """The next round's question for each member, by its place.

        Members that read nothing which the round before changed would be asked the same again, and are left out.
        """
        asked = range(len(self.sets))
        if self.found:
            asked = {reader for place in self.found[-1] for reader in self.readers.get(place, [])}
        return {place: self.question(place) for place in asked}

    def question(self, place):
        op, c, own, sources = self.worked.formulas[place]
        return op, c, own, tuple(self.sets[what] if where == "in" else what for where, what in sources)

    def take(self, answers):
        """What the round left: the answers that are not the sets that it found."""
        self.found.append({place: value for place, value in sorted(answers.items()) if value != self.sets[place]})
        for place, value in self.found[-1].items():
            self.sets[place] = value

    def finished(self, doubts):
        """Whether all rounds but the closing one are made. Each must have found something, and the sets must then be
        those of the dump; where it is otherwise the climb is left without its rounds, and a doubt is told."""
        worked, least, rounds = self.worked, self.worked.climb.least, self.worked.climb.rounds
        if not self.found[-1]:
            doubts.append(f"the circle of {least} closed in round {rounds}, and had nothing more to find before that")
            return True
        if len(self.found) < rounds - 1:
            return False
        if self.sets == worked.after:
            worked.found = self.found + [{}]
        else:
            doubts.append(f"the rounds of the circle of {least} end with other sets than its update")
        return True
