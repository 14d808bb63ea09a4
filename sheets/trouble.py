"""The two ways in which a page can fail to come about, so that main can tell them apart by their statuses."""


class Unusable(Exception):
    """A word, a file or a program that can't be used: nothing is shown, status 2."""


class Misfit(Exception):
    """The program's answers don't fit what it was given: the sheets can't agree, status 1."""
