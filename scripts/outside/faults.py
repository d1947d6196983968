"""What stops a script: lines on standard error, and a status."""


class Lines(Exception):
    """What stops a script has a line for each thing that is wrong."""

    def __init__(self, *lines: str):
        super().__init__(*lines)
        self.lines = lines

    def __str__(self) -> str:
        return "\n".join(self.lines)


class WrongWords(Lines):
    """The words of the command line are none that it knows."""

    status = 2


class Fault(Lines):
    """A file, a program or a launch is not as it has to be. `block` is printed after the lines as it is, for a reader to paste."""

    status = 3
    block = ""
