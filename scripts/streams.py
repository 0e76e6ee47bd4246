"""Runs a script with failing input and output, and with few bytes moved at a time (`refuse.c`)."""
from replaying import Wrong

FEW = (1, 7)  # bytes
FAILURES = (("FAIL", b"call failed\n", b"fault: input\n"), ("SPOIL", b"output spoiled\n", b"fault: output\n"))


def check_few(script, output, shim):
    """Checks that the output is the same with few bytes moved at a time."""
    for few in FEW:
        ended = script.run({"LD_PRELOAD": shim, "SHORT": str(few)})
        if (ended.returncode, ended.stdout, ended.stderr) != (0, output, b""):
            raise Wrong(f"with {few} bytes at a time, status {ended.returncode}, {ended.stderr!r}, or other output")


def failures(script, output, shim, word, mark, fault):
    """Lets each call fail in turn, and returns the number of calls. Each must end the program after a beginning of its output."""
    number = 0
    while True:
        ended = script.run({"LD_PRELOAD": shim, word: str(number)})
        if mark not in ended.stderr:
            return number
        errors = ended.stderr.replace(mark, b"", 1)
        if (ended.returncode, errors) != (3, fault) or not output.startswith(ended.stdout):
            raise Wrong(f"{word}={number}, status {ended.returncode}, {errors!r}")
        number += 1


def check(name, script, output, shim):
    """Tests a script, and returns the number of failures of input and output."""
    try:
        check_few(script, output, shim)
        return sum(failures(script, output, shim, *each) for each in FAILURES)
    except Wrong as wrong:
        raise Wrong(f"{name}: {wrong}") from wrong
