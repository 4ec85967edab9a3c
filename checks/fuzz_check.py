"""Feeds hostile bytes to the program, for a minute with each kind of input."""
import os
import subprocess

RUN = os.path.join(os.path.dirname(os.path.abspath(__file__)), 'fuzz', 'run')


def check(program):
    """Prints the table of the kinds, and returns 1 if an input got a wrong answer, otherwise 0."""
    return int(subprocess.run([RUN, program.path]).returncode != 0)
