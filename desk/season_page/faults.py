"""What ends the command before there is a page, with the words for it."""


class Refused(Exception):
    """The stick is refused: exit status 1."""


class Failed(Exception):
    """A wrong call, or something that cannot be read, written or found: exit status 2."""
