"""What the measuring scripts share: the program, drawn numbers, plans, and runs with their seconds of the processor and peak memory."""
import os
import sys


def program_of(argv):
    """The program that is measured: the first word, or what `./wadrelion` builds."""
    top = os.path.dirname(os.path.dirname(os.path.abspath(__file__)))
    return os.path.abspath(argv[1]) if len(argv) > 1 else os.path.join(top, "crates/filter_cli/out/filter_cli")


def draws(state):
    """Numbers that are the same in every run."""
    while True:
        state = (6364136223846793005 * state + 1442695040888963407) % 2**64
        yield state >> 33


def drawn_taps(count):
    source = draws(count)
    return [next(source) % 65536 - 32768 for _ in range(count)]


def filter_plan(taps, width=16):
    return f'version = 1\nwidth = {width}\n[[element]]\nkind = "filter"\ntaps = {taps}\n'


def measured(words, folder, output=None):
    """Runs the words in a folder; their seconds of the processor and their peak memory in MiB."""
    child = os.fork()
    if child == 0:
        os.chdir(folder)
        if output is not None:
            target = os.open(output, os.O_WRONLY | os.O_CREAT | os.O_TRUNC, 0o644)
            os.dup2(target, 1)
        os.execvp(words[0], words)
    _, status, usage = os.wait4(child, 0)
    if status != 0:
        sys.exit(f"{words[0]} ended with status {os.waitstatus_to_exitcode(status)}")
    return usage.ru_utime + usage.ru_stime, usage.ru_maxrss / 1024


def write(folder, name, text):
    with open(os.path.join(folder, name), "w") as file:
        file.write(text)


def read(folder, name):
    with open(os.path.join(folder, name)) as file:
        return file.read()
