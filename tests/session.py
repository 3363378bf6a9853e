"""The program at a pipe: it gets a line, and has to print what that line prints before it gets more."""

import os
import select
import subprocess

import annotated

PATIENCE = 600  # seconds


class Session:
    def __init__(self, program, *words, **names):
        pipe, env = subprocess.PIPE, os.environ | names
        self.run = subprocess.Popen([program, *words], bufsize=0, stdin=pipe, stdout=pipe, stderr=pipe, env=env)
        self.printed = b""

    def tell(self, text):
        """Sends it a text; nothing where it has ended."""
        try:
            for at in range(0, len(text), 65536):
                self.run.stdin.write(text[at : at + 65536])
        except BrokenPipeError:
            pass

    def hear(self, wanted):
        """Whether this is what it has printed so far; it is waited for."""
        while len(self.printed) < len(wanted):
            if not select.select([self.run.stdout], [], [], PATIENCE)[0]:
                return False
            more = os.read(self.run.stdout.fileno(), 65536)
            if not more:
                return False
            self.printed += more
        return self.printed.startswith(wanted)

    def end(self):
        """Its exit status, all that it printed, and what it printed on standard error."""
        out, err = self.run.communicate(timeout=2 * PATIENCE)
        return self.run.returncode, self.printed + out, err.decode()


def line_by_line(program, script, **names):
    """Runs an annotated script line by line: how many lines printed what they should before the next was sent, and the end."""
    session, wanted, heard = Session(program, *script.words, **names), "", 0
    for k, statement in enumerate(script.statements):
        wanted += "".join(f"{line}\n" for line in annotated.printed(k + 1, script.lines[k]))
        session.tell(f"{statement}\n".encode())
        if not session.hear(wanted.encode()):
            break
        heard += 1
    return heard, session.end()
