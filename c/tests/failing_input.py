#!/usr/bin/env python3
"""failing_input.py FILE COMMAND..: runs a command whose standard input has the bytes of a file, and then fails with an
input error where a file would end, as a stick does that is pulled out. It is the memory of this program, read through
the system's file for that, up to the end of what is mapped. Gives the command's exit status."""
import ctypes
import mmap
import os
import subprocess
import sys

with open(sys.argv[1], 'rb') as file:
    data = file.read()
pages = (len(data) + mmap.PAGESIZE - 1) // mmap.PAGESIZE * mmap.PAGESIZE
room = mmap.mmap(-1, pages + mmap.PAGESIZE)
start = ctypes.addressof(ctypes.c_char.from_buffer(room))
room[pages - len(data):pages] = data
# Behind the bytes there is nothing any more.
if ctypes.CDLL(None).munmap(ctypes.c_void_p(start + pages), ctypes.c_size_t(mmap.PAGESIZE)) != 0:
    sys.exit('failing_input.py: the page behind the bytes stays')
memory = os.open('/proc/self/mem', os.O_RDONLY)
os.lseek(memory, start + pages - len(data), os.SEEK_SET)
status = subprocess.run(sys.argv[2:], stdin=memory, check=False).returncode
os._exit(status if status >= 0 else 128 - status)
