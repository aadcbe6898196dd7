"""The program whose core test_prepare.py takes, for Python 2.7 and 3.6 to 3.13: three threads wait in a recursion. It
prints its number and the functions and files of each thread, the newest frame first, and waits, or aborts."""

import json
import os
import sys
import threading
import time

gate = threading.Event()


def descend(depth):
    return descend(depth - 1) if depth else gate.wait(600)


def frames_of(frame):
    rows = []
    while frame:
        rows.append([frame.f_code.co_name, frame.f_code.co_filename])
        frame = frame.f_back
    return rows


for _ in range(3):
    thread = threading.Thread(target=descend, args=(20,))
    thread.daemon = True
    thread.start()
time.sleep(0.5)
main = threading.current_thread().ident
others = [frames_of(frame) for number, frame in sys._current_frames().items() if number != main]
print(json.dumps({"pid": os.getpid(), "others": others, "file": __file__}))
sys.stdout.flush()
if sys.argv[1:] == ["abort"]:
    os.abort()
time.sleep(600)
