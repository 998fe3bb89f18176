"""The library's own scheduler, asked through tests/c/serve.c."""
import os
import struct
import subprocess

from captures import words

TESTS = os.path.join(os.path.dirname(os.path.abspath(__file__)), "..", "tests")
SERVE = os.path.join(TESTS, "..", "target", "c", "quick", "serve")
SCHEDULE = 3
OPEN_ROWS, CLOSED_ROWS = 0, 1
WRITES = 1 << 31


def room_for(requests):
    """Bytes that a schedule may have: header and fourteen settings, and four events for each request."""
    return 80 + 32 * len(requests)


def scheduled(settings, requests, policy):
    """The capture that morgazell_schedule writes. The archive is proved and built first, unless nothing has changed."""
    subprocess.run([os.path.join(TESTS, "c", "build")], check=True, capture_output=True)
    room = room_for(requests)
    question = words([SCHEDULE, len(settings), len(requests), room, 0, policy]) + words(settings) + words(requests) + bytes(room)
    run = subprocess.run([os.path.join(TESTS, "x86"), "run", SERVE], input=question, capture_output=True, check=True)
    (length,) = struct.unpack_from("<I", run.stdout, 8)
    return run.stdout[8:8 + length]
