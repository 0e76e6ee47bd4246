"""Runs a script with each call of the store failing in turn."""
from replaying import Wrong, is_fault

MOST_CALLS = 1000


def fault_met(script, call, expected, check):
    """Runs a script with one call of the store failing. Returns whether there was such a call; it may change only one reply."""
    faulty = script.headed(b"fault %d" % call)
    output = faulty.output()
    check(faulty.lines, output)
    answers = faulty.answers(output)
    met = [event for event, answer in enumerate(answers) if is_fault(answer)]
    if not met:
        if answers != expected:
            raise Wrong(f"fault {call} did not occur, and a reply changed")
        return False
    event, again = met[0], faulty.doubled(met[0])
    output = again.output()
    check(again.lines, output)
    answers = again.answers(output)
    if not is_fault(answers[event]) or not again.agree(answers[:event] + answers[event + 1:], expected):
        raise Wrong(f"fault {call} at {script.lines[script.events[event]]!r} changed another reply")
    return True


def faults_met(script, expected, check=lambda lines, output: None):
    """Lets each call of the store fail in turn, and returns the number of calls.

    The line whose call fails gets a fault as its reply. If it is retried, it gets the same reply as without the fault, and so
    does every other line. `check` is called with the lines and the output of each run.
    """
    for call in range(1, MOST_CALLS + 1):
        if not fault_met(script, call, expected, check):
            return call - 1
    raise Wrong(f"more than {MOST_CALLS} calls of the store")
