"""What send.c does, from Python: send.py FILE PROCS INDEX MESSAGES [SECONDS]."""

import sys
import time

import rme


def say(text):
    print(f"{index}: {text}", flush=True)


path, (procs, index, count) = sys.argv[1], map(int, sys.argv[2:5])
seconds = int(sys.argv[5]) if len(sys.argv) > 5 else 1
try:
    rme.create(path, procs, cap=1024)
except FileExistsError:
    pass
with rme.Seat(path, index) as seat:
    for _ in range(count):
        with seat.lock() as inside:
            say("owner died" if inside.owner_died else "inside")
            if inside.owner_died:
                inside.mended()
            number = 1 + sum(message.sender == index for message in seat.messages())
            time.sleep(seconds)
            say(f"message {number} {'stored' if inside.append(number, 1000 * index + number) else 'already there'}")
    for message in seat.messages():
        print(message.sender, message.number, *message.value)
