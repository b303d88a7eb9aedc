"""What goes wrong: a command that is refused, a call that cannot be done, and a process that dies."""


class Error(Exception):
    """The base of all. Its arguments are those that make it again, so that it can be pickled and copied."""


class Refusal(Error):
    """A command was refused, and nothing has changed. `name` says why, as the manual lists it: `NoLight`, `OnBlock` and so on."""

    def __init__(self, name: str, command: str):
        super().__init__(name, command)
        self.name = name
        self.command = command

    def __str__(self) -> str:
        return f"{self.name}: {self.command}"


class Fault(Error):
    """A call was not done. `status` is a status of `xw.h`, such as `NotFilled`, or `Character` for a string that is not Windows-1252."""

    def __init__(self, status: str, message: str = ""):
        super().__init__(status, message)
        self.status = status
        self.message = message

    def __str__(self) -> str:
        return f"{self.status}: {self.message}" if self.message else self.status


class Died(Error):
    """A worker died: the process `worker`, with the exit status `code`, or by the signal `-code`."""

    def __init__(self, worker: int, code: int):
        super().__init__(worker, code)
        self.worker = worker
        self.code = code

    def __str__(self) -> str:
        return f"worker {self.worker} was ended by signal {-self.code}" if self.code < 0 else f"worker {self.worker} ended with status {self.code}"
