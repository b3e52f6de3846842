#!/usr/bin/env python3
"""Runs a command at a terminal, for desk/check: terminal.py SECONDS TEXT KEYS COMMAND..

Types KEYS (\\n, \\x04 and the like may be written so) once the terminal shows TEXT, and waits until the command ends. Writes
what the terminal showed and ends with the command's status, 128 and the signal's number where a signal ended it, or
124 where SECONDS were not enough."""
import os, pty, select, signal, sys, time

limit, text, keys = float(sys.argv[1]), sys.argv[2].encode(), sys.argv[3].encode().decode("unicode_escape").encode("latin-1")
pid, terminal = pty.fork()
if pid == 0:
    signal.signal(signal.SIGINT, signal.SIG_DFL)
    os.execvp(sys.argv[4], sys.argv[4:])

shown, typed, status, end = b"", False, None, time.monotonic() + limit
while status is None and time.monotonic() < end:
    if select.select([terminal], [], [], 0.02)[0]:
        try:
            shown += os.read(terminal, 4096)
        except OSError:  # nobody has the terminal any more
            time.sleep(0.02)
    if not typed and text in shown:
        os.write(terminal, keys)
        typed = True
    done, how = os.waitpid(pid, os.WNOHANG)
    if done:
        status = os.waitstatus_to_exitcode(how)
if status is None:
    os.killpg(pid, signal.SIGKILL)
    os.waitpid(pid, 0)
    status = 124
while select.select([terminal], [], [], 0)[0]:
    try:
        shown += os.read(terminal, 4096)
    except OSError:
        break
sys.stdout.buffer.write(shown)
sys.exit(status if status >= 0 else 128 - status)
