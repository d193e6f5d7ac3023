"""PROGRAM WORD..: runs a program, and prints its peak of memory and its processor time."""

import resource
import subprocess
import sys

subprocess.run(sys.argv[1:], check=True)
used = resource.getrusage(resource.RUSAGE_CHILDREN)
print(f"peak {used.ru_maxrss / 1024:.0f} MB, processor {used.ru_utime + used.ru_stime:.1f} s")
