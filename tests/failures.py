"""Input that can't be read and output that can't be written, for the two programs.

A program that is started with the argument `status` writes a digit to descriptor 3: 0 for a plan or `meets`, 1 for `tight` or
`refused`, 2 for a failure; without it, nothing. A failure is one line on standard error, and no line that looks like an answer.
"""

import fcntl
import os
import pathlib
import subprocess
import tempfile
import time

SECONDS = 60
SMALL_PIPE = 4096


class Ran:
    """What a program wrote on descriptors 1, 2 and 3."""

    def __init__(self, output, said, told):
        self.output, self.said, self.told = output, said, told


def shell(program, words, redirected, data=b""):
    """Runs a program by a shell that redirects."""
    with tempfile.TemporaryDirectory() as folder:
        digit = pathlib.Path(folder) / "digit"
        ran = subprocess.run(["sh", "-c", f'exec "$1" {words} 3>"$2" {redirected}', "sh", program, digit], input=data,
                             capture_output=True, timeout=SECONDS, check=False)
        return Ran(ran.stdout.decode(), ran.stderr.decode(), digit.read_text())


def slow_reader(program, data, blocking):
    """Runs a program whose standard output is a small pipe that is read late."""
    with tempfile.TemporaryDirectory() as folder:
        digit = pathlib.Path(folder) / "digit"
        reading, writing = os.pipe()
        fcntl.fcntl(writing, fcntl.F_SETPIPE_SZ, SMALL_PIPE)
        os.set_blocking(writing, blocking)
        with subprocess.Popen(["sh", "-c", 'exec "$1" status 3>"$2"', "sh", program, digit], stdin=subprocess.PIPE, stdout=writing,
                              stderr=subprocess.PIPE) as running:
            os.close(writing)
            running.stdin.write(data)
            running.stdin.close()
            time.sleep(0.3)
            with os.fdopen(reading, "rb") as reader:
                output = reader.read()
            said = running.stderr.read()
        return Ran(output.decode(), said.decode(), digit.read_text())


def wrong_failure(ran):
    """A failure is one line on standard error, nothing on standard output, and a 2."""
    if ran.output:
        return f"prints {ran.output!r}"
    if ran.said.count("\n") != 1 or not ran.said.endswith("\n"):
        return f"says {ran.said!r} on standard error"
    return None if ran.told == "2" else f"tells {ran.told!r}, not 2"


def wrong_answer(ran, output, told):
    """An answer is this output, nothing on standard error, and this digit."""
    if ran.output != output:
        return f"prints {ran.output!r}, not {output!r}"
    if ran.said:
        return f"says {ran.said!r} on standard error"
    return None if ran.told == told else f"tells {ran.told!r}, not {told!r}"


def wrong_slow(ran, output):
    """A slow reader gets the whole output, or the beginning of it and a message."""
    if ran.told == "0":
        return wrong_answer(ran, output, "0")
    if not output.startswith(ran.output):
        return f"prints what is no part of the plan, {ran.output[-80:]!r}"
    return wrong_failure(Ran("", ran.said, ran.told))


def told(path, answers):
    """Each answer with its digit, and with none where none is asked for: what is tried, and what is wrong with it.
    answers has name, input, output and digit; path gives the file of a name, here and below."""
    for name, data, output, digit in answers:
        yield f"{name} with status", wrong_answer(shell(path(name), "status", "", data), output, digit)
        yield f"{name} without status", wrong_answer(shell(path(name), "", "", data), output, "")


def failed(path, inputs):
    """Each way to fail, for each program with a good input."""
    with tempfile.TemporaryDirectory() as folder:
        for name, data in inputs:
            for what, redirected in (("a full device", ">/dev/full"), ("a closed standard output", ">&-"),
                                     ("a standard output that is read only", "1</dev/null"),
                                     ("a folder on standard input", f"<{folder}"), ("a closed standard input", "<&-"),
                                     ("a standard input that is write only", "0>/dev/null")):
                yield f"{name} with {what}", wrong_failure(shell(path(name), "status", redirected, data))


def slow(path, data, output):
    """A long plan through a small pipe."""
    program = path("plan_order")
    yield "plan_order with a slow reader", wrong_answer(slow_reader(program, data, True), output, "0")
    yield "plan_order with a slow reader and a pipe that does not wait", wrong_slow(slow_reader(program, data, False), output)
