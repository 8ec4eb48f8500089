"""What `lnorm` answers if its streams are cut; a part of wanted.py.

It is written after the exit statuses and lines of docs/use/FORMATS.md and the calls `cut_reads`, `cut_writes` and `cut_faults` of
docs/work/CASES.md. The message of a fault is not known, so neither is an answer that shows one.
"""
from wanted_forms import Unknown

FAILURES = ("interrupted", "failed", "nothing")
ERROR = "standard error: "
FAILED = (4, 0, "lnorm: input or output failed\n")


def ended(printed):
    """The exit status, how much was written, and the line on standard error, of what `lnorm` prints."""
    *output, status = printed.splitlines(keepends=True)
    line = output.pop()[len(ERROR):] if output and output[-1].startswith(ERROR) else ""
    if line.startswith("F"):
        raise Unknown
    return int(status.split()[1]), len("".join(output).encode()), line


def told(run):
    status, written, line = run
    return "status %d, %d bytes written%s" % (status, written, ", " + line if line else "\n")


def at_each(calls, run_of, whole):
    """A run for each call and each way to fail, and the one that is not cut."""
    cut = ["%s at call %d of %d: %s" % (failure, call, call, told(run_of(call, failure)))
           for call in range(1, calls + 1) for failure in FAILURES]
    return "".join(cut) + "%d calls: %s" % (calls, told(whole))


def cut_reads(lines_of, data, words):
    """A read takes 100 bytes; the last one finds the end. One that gives nothing is the end."""
    whole = ended(lines_of(data, words))
    calls = 0 if whole[2].startswith("lnorm: usage") else -(-len(data) // 100) + 1

    def run_of(call, failure):
        return ended(lines_of(data[:100 * (call - 1)], words)) if failure == "nothing" else FAILED

    return at_each(calls, run_of, whole)


def cut_writes(lines_of, data, words):
    """A write takes 10 bytes."""
    whole = ended(lines_of(data, words))
    return at_each(-(-whole[1] // 10), lambda call, failure: (FAILED[0], 10 * (call - 1), FAILED[2]), whole)


def cut_faults(lines_of, data, words):
    """A write of the line takes one byte."""
    whole = ended(lines_of(data, words))
    shown = told(whole)
    if not whole[2]:
        whole = FAILED
        shown += told(whole)
    return shown + "".join(
        "%s at each of %d bytes: the same, but for the line, which ends before that byte\n" % (failure, len(whole[2].encode()))
        for failure in FAILURES)
