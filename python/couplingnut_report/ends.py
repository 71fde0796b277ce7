"""How the command ends: its statuses, and the exceptions that carry words for standard error."""

READY, NOT_READY, REFUSED, FAILED = 0, 1, 2, 3


class End(Exception):
    """Ends the command with words and a status."""
    status = FAILED


class Wrong(End):
    """The command, or what it was given, is refused."""
    status = REFUSED


class Unreadable(End):
    """Input or output failed."""
    status = FAILED
