"""What went wrong, and what the program ends with then."""

from enum import IntEnum


class Status(IntEnum):
    """What the program ends with."""

    DONE = 0
    # `can` answers no, or a policy has a fault
    NO = 1
    WORDS = 2
    SETTINGS = 3
    SERVER = 4
    REFUSED = 5
    NOT_DONE = 6


class Trouble(Exception):
    """Why a command ends early: what went wrong and where, and what to do about it."""

    def __init__(self, what, advice, status):
        super().__init__(what)
        self.what, self.advice, self.status = what, advice, status

    def line(self):
        """One line for a person. What came from elsewhere is escaped by who puts it in."""
        return f"tailnetctl: {self.what}. {self.advice}." if self.advice else f"tailnetctl: {self.what}."
