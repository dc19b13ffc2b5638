"""What ends a tool with one line."""


class Refused(Exception):
    """What can't be read, drawn or told, in one line."""
