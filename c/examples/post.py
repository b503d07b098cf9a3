"""Posts a message as process INDEX of the file "box": post.py [INDEX]."""

import sys

import rme

index = int(sys.argv[1]) if len(sys.argv) > 1 else 0
try:
    rme.create("box", procs=2, cap=1024, width=1)
except FileExistsError:
    pass
with rme.Seat("box", index) as seat, seat.lock() as inside:
    if inside.owner_died:
        inside.mended()  # an earlier process of this index died inside: its append is ended
    number = 1 + sum(message.sender == index for message in seat.messages())
    print(f"message {number}:", "stored" if inside.append(number, 77) else "already there")
