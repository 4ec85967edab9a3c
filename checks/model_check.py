"""Random scripts, to which the program and the model (checks/model) must give the same answers."""
import os
import subprocess

RUN = os.path.join(os.path.dirname(os.path.abspath(__file__)), 'model', 'run')
# 10,000 scripts of the usual length, then 1,000 long ones
RUNS = (['--scripts', '10000'], ['--scripts', '1000', '--lines', '100', '--seed', '100001'])


def check(program):
    """Prints what the runs say, and returns how many of them found a difference."""
    print('Random scripts, answered by the program and by a model in Python', flush=True)
    return sum(subprocess.run([RUN, *words, program.path]).returncode != 0 for words in RUNS)
