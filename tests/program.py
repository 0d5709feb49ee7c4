"""Calls a built program in a scratch folder, for tests that are no transcripts."""
import pathlib
import subprocess
import sys


def expect(is_so, what):
    if not is_so:
        sys.exit(f"grain: {what}")


class Program:
    def __init__(self, program, folder):
        self.program, self.folder = str(pathlib.Path(program).resolve()), pathlib.Path(folder)

    def run(self, *arguments, given=b"", **more):
        """The status, and what came on standard output and standard error."""
        words = [self.program, *arguments]
        ran = subprocess.run(words, cwd=self.folder, input=given, stdout=subprocess.PIPE, stderr=subprocess.PIPE, timeout=120, **more)
        return ran.returncode, ran.stdout, ran.stderr

    def done(self, *arguments, given=b""):
        """What came on standard output of what has to be done."""
        status, text, errors = self.run(*arguments, given=given)
        expect(status == 0 and errors == b"", f"{arguments} ends with {status}: {errors!r}")
        return text

    def refused(self, *arguments, given=b""):
        """The message of what has to be refused."""
        status, text, errors = self.run(*arguments, given=given)
        expect(status == 1 and errors.startswith(b"error: "), f"{arguments} ends with {status}: {text!r}, {errors!r}")
        return errors.decode()

    def write(self, name, content):
        (self.folder / name).write_bytes(content)
        return name

    def read(self, name):
        return (self.folder / name).read_bytes()
