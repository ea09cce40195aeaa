"""What ends a command: each with its exit status, and with a sentence for standard error."""


class Stop(Exception):
    """A command ends with this sentence, and nothing is written."""
    status = 2


class Refused(Stop):
    """Something was refused, or cannot be taken exactly."""


class Broken(Stop):
    """A program did not answer as it has to, or what was found cannot be handed over; nothing of it is used."""
    status = 3
