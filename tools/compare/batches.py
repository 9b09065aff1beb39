"""Runs scripts through two programs and compares what they print, line by line."""

import hashlib
import os
import subprocess
import threading

# Commands that print no line.
SILENT = ("check", "blob", "bytes", "#")
BATCH_LINES = 40000
BATCH_BYTES = 4_000_000
TIME_LIMIT = 120


def distinct(scripts, seen):
    """Those of the scripts that did not come before; `seen` has a mark for each that did."""
    for script in scripts:
        mark = hashlib.blake2b("\n".join(script).encode(), digest_size=16).digest()
        if mark not in seen:
            seen.add(mark)
            yield script


def calls_of(script):
    return sum(1 for line in script if not line.startswith(SILENT))


def run_program(program, text):
    """What a program prints. A program that stops early or hangs has printed less."""
    process = subprocess.Popen([program], stdin=subprocess.PIPE, stdout=subprocess.PIPE, stderr=subprocess.PIPE)
    try:
        out, err = process.communicate(text, timeout=TIME_LIMIT)
    except subprocess.TimeoutExpired:
        process.kill()
        out, err = process.communicate()
        err += b"time limit"
    return out, err


def run_both(first, second, text):
    answers = {}

    def go(program):
        answers[program] = run_program(program, text)

    threads = [threading.Thread(target=go, args=(program,)) for program in (first, second)]
    for thread in threads:
        thread.start()
    for thread in threads:
        thread.join()
    return answers[first], answers[second]


def batches(scripts):
    """Scripts in groups, so that each group is one run of a program."""
    group, lines, size = [], 0, 0
    for script in scripts:
        group.append(script)
        lines += len(script)
        size += sum(map(len, script))
        if lines >= BATCH_LINES or size >= BATCH_BYTES:
            yield group
            group, lines, size = [], 0, 0
    if group:
        yield group


def text_of(group):
    return "".join(line + "\n" for script in group for line in script).encode()


class Difference:
    """The first line in which two outputs differ, with the script that it belongs to."""

    def __init__(self, script, call, left, right):
        self.script = script
        self.call = call
        self.left = left
        self.right = right


def first_difference(group, left, right):
    """None where the outputs of a group are alike."""
    if left == right and left.count(b"\n") == sum(map(calls_of, group)):
        return None
    left, right = left.decode().splitlines(), right.decode().splitlines()
    at = 0
    for script in group:
        for call in range(calls_of(script)):
            a = left[at] if at < len(left) else "(nothing)"
            b = right[at] if at < len(right) else "(nothing)"
            if a != b or a == "(nothing)":
                return Difference(script, call, a, b)
            at += 1
    return Difference(group[-1], calls_of(group[-1]), "(more lines)", "(more lines)")


def differs(first, second, script):
    (left, _), (right, _) = run_both(first, second, text_of([script]))
    return first_difference([script], left, right)


def shorten(first, second, difference):
    """Leaves lines out as long as the two still differ."""
    best = differs(first, second, difference.script)
    if best is None:
        return difference
    changed = True
    while changed:
        changed = False
        for at in range(len(best.script) - 1, -1, -1):
            if best.script[at].startswith("blob"):
                continue
            shorter = differs(first, second, best.script[:at] + best.script[at + 1:])
            if shorter is not None and "(nothing)" not in (shorter.left, shorter.right):
                best, changed = shorter, True
    return best


def program_path(path):
    if not os.access(path, os.X_OK):
        raise SystemExit(f"{path} is not a program")
    return os.path.abspath(path)
