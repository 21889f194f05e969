"""Runs a program on this one's streams, and ends as it does. The last line of standard error says what the run took:
its seconds of the processor, and the mebibytes that it had at its highest."""
import os
import sys

process = os.fork()
if not process:
    os.execv(sys.argv[1], sys.argv[1:])
_, status, used = os.wait4(process, 0)
seconds, memory = used.ru_utime + used.ru_stime, used.ru_maxrss / 1024
os.write(2, f'{{"seconds": {seconds}, "memory": {memory}}}\n'.encode())
sys.exit(abs(os.waitstatus_to_exitcode(status)))
