"""Two services write a log, and a reader follows it: services.py FOLDER. Service 0 is killed in the midst of its messages and started again:
it asks the log which number comes next, and each message is there once."""

import os
import signal
import subprocess
import sys

import rme_log

MESSAGES = 10


def serve(folder, index, dies):
    with rme_log.Log(folder, index) as log:
        first = log.next()
        if first > 1:
            print(f"service {index} goes on with message {first}", flush=True)
        for number in range(first, MESSAGES + 1):
            log.append(number, 100 * index + number)
            if dies and number == MESSAGES // 2:
                os.kill(os.getpid(), signal.SIGKILL)


def start(folder, index, *dies):
    return subprocess.Popen([sys.executable, __file__, folder, str(index), *dies])


def main(folder):
    rme_log.create(folder, procs=2, cap=4, width=1)
    killed, other = start(folder, 0, "dies"), start(folder, 1)
    print("service 0 was killed:", "yes" if killed.wait() == -signal.SIGKILL else "no", flush=True)
    start(folder, 0).wait()
    other.wait()
    last = [0, 0]
    with rme_log.Reader(folder, "audit") as reader:
        for message in reader:
            last[message.sender] += 1
            assert (message.number, message.value) == (last[message.sender], (100 * message.sender + message.number,))
            reader.keep()  # its work is done
    print(f"read {last[0]} messages of service 0 and {last[1]} of service 1")
    print(f"segments are dropped before {rme_log.drop(folder)}")


if len(sys.argv) > 2:
    serve(sys.argv[1], int(sys.argv[2]), sys.argv[3:] == ["dies"])
else:
    main(sys.argv[1] if len(sys.argv) > 1 else "log")
