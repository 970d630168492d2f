"""Stands between a client and the program: frames are passed on, and the replies are changed."""
import subprocess
import sys

from nofs.client import frame, read_frame


def pass_on(words, change):
    """Serves standard input by the program of these words; `change` gives what is answered, from step, reply and number."""
    program, number = subprocess.Popen(words, stdin=subprocess.PIPE, stdout=subprocess.PIPE), 0
    while (step := read_frame(sys.stdin.buffer)) is not None:
        program.stdin.write(frame(step))
        program.stdin.flush()
        sys.stdout.buffer.write(frame(change(step, read_frame(program.stdout), number)))
        sys.stdout.buffer.flush()
        number += 1
