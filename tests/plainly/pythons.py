#!/usr/bin/env python3
"""Which Python has some modules: the first python3 on the PATH that can import them all. Another one may stand before that of the system.
usage: pythons.py MODULE..
  It writes the path of that Python, or nothing."""
import os
import subprocess
import sys


def python_with(*modules):
    """The path of a Python that has these modules, or None."""
    command = ["-c", "import " + ", ".join(modules)]
    found = [os.path.join(folder, "python3") for folder in os.get_exec_path()]
    for python in dict.fromkeys(filter(os.path.exists, found)):
        if subprocess.run([python, *command], stdin=subprocess.DEVNULL, stdout=subprocess.DEVNULL, stderr=subprocess.DEVNULL, check=False).returncode == 0:
            return python
    return None


if __name__ == "__main__":
    print(python_with(*sys.argv[1:]) or "")
