"""What ends a tool before its end: a sentence and a status."""

# the statuses that tools have of their own; 3 to 7 are those of the program
WRONG = 1
NOT_RUN = 2
NOT_WRITTEN = 4
NO_MEMORY = 5
NOT_BUILT = 126
INTERRUPTED = 130


class Ended(BaseException):
    """A signal came that ends the tool: its number."""

    def __init__(self, number: int):
        super().__init__()
        self.number = number


class Failure(Exception):
    """A tool cannot go on: the sentence that says why, and the status."""

    def __init__(self, sentence: str, status: int = WRONG):
        super().__init__(sentence)
        self.status = status
