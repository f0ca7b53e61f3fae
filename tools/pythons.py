"""Which Python here has a module that the standard library lacks; for the tools beside this file."""
import subprocess
import sys

PYTHONS = (sys.executable, '/usr/bin/python3')


def that_has(module, pythons=PYTHONS):
    """The first Python that has a module; None where none has it. RuntimeError where one has it and it can't be loaded."""
    for python in dict.fromkeys(pythons):
        try:
            run = subprocess.run([python, '-c', 'import ' + module], capture_output=True, text=True)
        except OSError:
            continue
        if run.returncode == 0:
            return python
        if "No module named '%s'" % module not in run.stderr:
            raise RuntimeError(run.stderr)
    return None
