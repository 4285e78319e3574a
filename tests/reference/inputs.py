"""What keeps the command from running, and the files that it reads."""

MOST_BYTES = 4_194_304  # of a module or a script
MOST_SNAPSHOT = 301_989_888


class Refused(Exception):
    """The command does not run: its status, and what its line on the trace says."""

    def __init__(self, status, text):
        super().__init__(text)
        self.status, self.text = status, text


def read_file(name, most=MOST_BYTES):
    """The bytes of a file. No more of it is read than tells that it is too long."""
    try:
        with open(name, "rb") as file:
            content = file.read(most + 1)
    except OSError as error:
        raise Refused(22, f"cannot read {name}") from error
    if len(content) > most:
        raise Refused(23, f"{name} is over {most} bytes")
    return content
