"""What the comparisons beside this file share: a run of the program, and a loop over texts."""
import collections
import difflib
import re
import subprocess
import sys


def difference(program, text, wanted, words=()):
    """The transcript of a text, under these words, beside the lines that are wanted, or nothing where it has just these and their exit status."""
    data = text if isinstance(text, bytes) else text.encode()
    ran = subprocess.run([program, "run", *words], input=data, capture_output=True)
    got = [*ran.stdout.decode().split("\n"), f"status {ran.returncode}"]
    is_refused = any(re.match(r"(\[\d+\] )?refused: ", line) for line in wanted)
    lines = [*wanted, "", f"status {int(is_refused)}"]
    return None if got == lines else "\n".join([str(text), *difflib.unified_diff(lines, got, "oracle", "mrew", lineterm="", n=2)])


def compare_texts(compare):
    """Compares the texts with the numbers on the command line. `compare` takes a number and the program, and gives what the text had, as words or counts by
    words, and how the transcripts differ, if they do. Each text that differs is printed, and at the end what all texts had; the exit status tells which."""
    program, first, last = sys.argv[1], int(sys.argv[2]), int(sys.argv[3])
    had, different = collections.Counter(), 0
    for number in range(first, last):
        words, other = compare(number, program)
        had.update(words)
        if other:
            different += 1
            print(f"text {number}:\n{other}\n")
    print(f"texts {last - first}, different {different}: {', '.join(f'{word} {count}' for word, count in sorted(had.items()))}")
    sys.exit(different > 0)
