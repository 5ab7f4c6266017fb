"""A board: access_board.py LINK RECORD [slow] [GROUP]. A terminal whose other end is at LINK, root's alone or a group's too,
as a rule of udev's makes it; each byte that comes is kept in RECORD, behind its moment, as `SECONDS HEX`, and given back;
`slow` is as slow as a serial line of 115200 baud. Where it is hung up it stays, as a serial line does."""
import errno
import os
import select
import shutil
import sys
import time
import tty

link, record, *more = sys.argv[1:]
IS_SLOW = more[:1] == ["slow"]
board, other = os.openpty()
tty.setraw(board)
tty.setraw(other)
name = os.ttyname(other)
os.chmod(name, 0o600)
if more and not IS_SLOW:
    shutil.chown(name, group=more[0])
    os.chmod(name, 0o660)
if os.path.lexists(link):
    os.unlink(link)
os.symlink(name, link)
os.set_blocking(board, False)
with open(record, "a", buffering=1, encoding="ascii") as kept:
    while True:
        select.select([board], [], [])
        try:
            said = os.read(board, 115 if IS_SLOW else 4096)
        except OSError as fault:
            if fault.errno != errno.EIO:
                raise
            os.close(other)
            other = os.open(name, os.O_RDWR | os.O_NOCTTY)
            tty.setraw(other)
            continue
        kept.write(f"{time.time():.4f} {said.hex()}\n")
        if IS_SLOW:
            time.sleep(0.01)
        try:
            os.write(board, said)
        except OSError:
            pass  # nobody reads what the board says
