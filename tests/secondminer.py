"""Questions to a second miner, an independent implementation of the paper 01."""
import os
import subprocess

# How many of the requests have landed: the second miner is asked as of then.
REV = 13


def told(command, lines):
    """What the second miner says to each line.

    Started with 'batch' it takes one command a line on standard input, and puts a line
    with a single dot behind each answer.
    """
    done = subprocess.run(
        command.split() + ["batch"],
        input="".join(f"{line} --rev {REV}\n" for line in lines),
        capture_output=True,
        text=True,
        check=True,
    )
    said = done.stdout.split("\n.\n")[:-1]
    assert len(said) == len(lines), "the second miner has not answered every command"
    return said


class Folder:
    """Files by their contents, as the second miner takes them: those with the same bytes are one file."""

    def __init__(self, path):
        self.path = path
        self.names = {}

    def file(self, contents):
        if contents not in self.names:
            self.names[contents] = os.path.join(self.path, str(len(self.names)))
            with open(self.names[contents], "wb") as out:
                out.write(contents)
        return self.names[contents]
