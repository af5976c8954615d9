"""Runs commands in turn, five times each, so that all of them meet the same times of a busy machine. The commands are parted
by the word `--`; the first word of each is the file of its input and the second that of its output ("-" is none). Prints a
line for each command: the least processor time in seconds (user and system) and the greatest resident memory in bytes,
which is never less than this script's own, some 14 MB."""
import os
import subprocess
import sys


def run(source, target, *command):
    with open(os.devnull if source == "-" else source, "rb") as inputs, open(os.devnull if target == "-" else target, "wb") as outputs:
        child = subprocess.Popen(command, stdin=inputs, stdout=outputs)
        _, status, used = os.wait4(child.pid, 0)
    if status != 0:
        sys.exit("status %d: %s" % (status, " ".join(command)))
    return used.ru_utime + used.ru_stime, used.ru_maxrss * 1024


commands = [[]]
for word in sys.argv[1:]:
    if word == "--":
        commands.append([])
    else:
        commands[-1].append(word)
rounds = [[run(*command) for command in commands] for _ in range(5)]
for runs in zip(*rounds):
    print("%.3f %d" % (min(seconds for seconds, _ in runs), max(memory for _, memory in runs)))
