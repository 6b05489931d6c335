#!/usr/bin/env python3
"""What a shell cannot try of the desk's streams.

usage: desk_streams.py taken DESK FILE OUT BYTES    `desk list -` into OUT, whose size is limited to BYTES, with FILE through a pipe:
                                                    prints how many bytes of FILE were taken, then what was on standard error
       desk_streams.py terminal DESK WORD..         the desk with a terminal as standard error and its answers to no file:
                                                    prints what the terminal got
       desk_streams.py gone DESK FILE               `desk list FILE` into a pipe that is closed after the first bytes, a write to
                                                    which is answered and not a signal: prints what was on standard error
"""
import os
import pty
import resource
import signal
import subprocess
import sys
import threading


def taken(desk, path, out, limit):
    def limited():
        signal.signal(signal.SIGXFSZ, signal.SIG_IGN)
        resource.setrlimit(resource.RLIMIT_FSIZE, (limit, limit))

    content = open(path, "rb").read()
    count = 0
    with open(out, "wb") as answers:
        run = subprocess.Popen([desk, "list", "-"], stdin=subprocess.PIPE, stdout=answers, stderr=subprocess.PIPE, preexec_fn=limited)
        said = []
        reader = threading.Thread(target=lambda: said.append(run.stderr.read()))
        reader.start()
        try:
            while count < len(content):
                count += os.write(run.stdin.fileno(), content[count:count + 65536])
        except BrokenPipeError:
            pass
        os.close(run.stdin.fileno())
        reader.join()
        run.wait(timeout=60)
    print(count)
    sys.stdout.write(said[0].decode())


def terminal(desk, words):
    master, slave = pty.openpty()
    run = subprocess.Popen([desk] + words, stdin=subprocess.DEVNULL, stdout=subprocess.DEVNULL, stderr=slave)
    os.close(slave)
    got = b""
    while True:
        try:
            piece = os.read(master, 65536)
        except OSError:
            break
        if not piece:
            break
        got += piece
    run.wait(timeout=60)
    sys.stdout.write(got.decode().replace("\r\n", "\n"))


def gone(desk, path):
    ignored = lambda: signal.signal(signal.SIGPIPE, signal.SIG_IGN)
    run = subprocess.Popen([desk, "list", path], stdin=subprocess.DEVNULL, stdout=subprocess.PIPE, stderr=subprocess.PIPE,
                           preexec_fn=ignored, restore_signals=False)
    os.read(run.stdout.fileno(), 100)
    run.stdout.close()
    said = run.stderr.read()
    run.wait(timeout=60)
    sys.stdout.write(said.decode())


if __name__ == "__main__":
    how = sys.argv[1]
    if how == "taken":
        taken(sys.argv[2], sys.argv[3], sys.argv[4], int(sys.argv[5]))
    elif how == "terminal":
        terminal(sys.argv[2], sys.argv[3:])
    else:
        gone(sys.argv[2], sys.argv[3])
