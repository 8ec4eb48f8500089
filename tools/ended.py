"""How a tool ends as a command; a part of each tool that prints a help."""
import os
import sys


def ended(main, *arguments, closed=1):
    """Calls `main`, and ends the process with the exit status that it returns.

    If the reader of standard output is gone, as `head` is when it has enough, the exit status is `closed`, without a traceback. If the
    user interrupts, it is 130.
    """
    try:
        try:
            status = main(*arguments)
        except SystemExit as stop:
            status = stop.code
        sys.stdout.flush()
    except KeyboardInterrupt:
        status = 130
    except BrokenPipeError:
        # the interpreter flushes standard output once more when it ends
        os.dup2(os.open(os.devnull, os.O_WRONLY), 1)
        status = closed
    sys.exit(status)


def asks_for(arguments, *options):
    """Whether one of these options is among the arguments before `--`."""
    end = arguments.index("--") if "--" in arguments else len(arguments)
    return any(word in options for word in arguments[:end])


def asks_for_help(arguments):
    return asks_for(arguments, "--help", "-h")
