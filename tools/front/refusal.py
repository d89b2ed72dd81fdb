"""Why a command doesn't do what it was asked to."""


class Refusal(Exception):
    """One line for the reader, with what to do; and the status that the program ends with."""

    def __init__(self, text, status=1):
        super().__init__(text)
        self.text, self.status = text, status
