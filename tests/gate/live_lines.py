#!/usr/bin/env python3
"""Shows that `pcap-show` and `pcap-lines` of the built program write the line of a record as soon as the record came whole: a
pcap file comes over a pipe, a record each half second, some of them in parts, and each line has to be there within a tenth of a
second of the last octet of its record. Where the program is then ended by SIGINT or SIGTERM, all lines of records that came are
there; and where a file on disk is read, its lines are written in big pieces. A busy machine may be late, so what fails is tried
up to three times. It ends within half a minute.

usage: tests/gate/live_lines.py [PROGRAM]     PROGRAM is another program to run than the built one
"""
import os
import selectors
import signal
import struct
import subprocess
import sys
import tempfile
import threading
import time

ROOT = os.path.abspath(os.path.join(os.path.dirname(__file__), "..", ".."))
PROGRAM = os.path.join(ROOT, "crates", "clnp_tool", "out", "clnp_tool")

# how long lies between two records, and how late the line of one may be, in seconds
BETWEEN, LATE = 0.5, 0.1
TRIES = 3

HEADER = struct.pack("<IHHiIII", 0xA1B2C3D4, 2, 4, 0, 0, 262_144, 1)
HELLO = bytes.fromhex("820f0100020078324b010447002702")
SHOWN = b"esh hold=120 sum=324b addr=47002702 rest="


def end_by_signals():
    """A shell has what it starts in the background pass over SIGINT: the program is to end by it."""
    signal.signal(signal.SIGINT, signal.SIG_DFL)
    signal.signal(signal.SIGTERM, signal.SIG_DFL)


def record(second, frame):
    return struct.pack("<IIII", second, 0, len(frame), len(frame)) + frame


def osi(pdu):
    frame = bytes.fromhex("09002b000005" + "0a0000000001") + struct.pack(">H", len(pdu) + 3) + b"\xfe\xfe\x03" + pdu
    return frame + bytes(max(0, 60 - len(frame)))


OTHER = bytes.fromhex("ffffffffffff0a00000000010800") + bytes(46)

# the pieces that are written at once, each with the line of `pcap-show` and of `pcap-lines` that it calls for, if it completes a
# record
HELLO_RECORD, OTHER_RECORD = record(7, osi(HELLO)), record(8, OTHER)
PIECES = [
    (HEADER, None),
    (HELLO_RECORD, (b"1 is 0a0000000001 " + SHOWN, b"7 is 0a0000000001 " + HELLO.hex().encode())),
    (OTHER_RECORD[:9], None),
    (OTHER_RECORD[9:], (b"2 other", b"# 2 other")),
    (HELLO_RECORD[:40], None),
    (HELLO_RECORD[40:] + OTHER_RECORD[:16], (b"3 is 0a0000000001 " + SHOWN, b"7 is 0a0000000001 " + HELLO.hex().encode())),
    (OTHER_RECORD[16:], (b"4 other", b"# 4 other")),
]

failures = []


def tried(trial, *words):
    """Goes through a trial, which gives what was wrong, until nothing is, but not too often."""
    for _ in range(TRIES):
        wrong = trial(*words)
        if not wrong:
            return
    failures.extend(wrong)


def came_within(stream, seconds):
    """What comes of a stream within so many seconds, up to the end of a line."""
    came, end = b"", time.monotonic() + seconds
    with selectors.DefaultSelector() as selector:
        selector.register(stream, selectors.EVENT_READ)
        while not came.endswith(b"\n") and selector.select(max(0, end - time.monotonic())):
            more = os.read(stream.fileno(), 65_536)
            if not more:
                break
            came += more
    return came


def ended(process, seconds=5):
    try:
        return process.wait(seconds)
    except subprocess.TimeoutExpired:
        process.kill()
        process.wait()
        return None


def live(program, command, which, ending):
    """One live view, ended by a signal or by the end of its input; `which` says which of the lines are wanted."""
    name = f"{command}, ended by {ending.name if ending else 'the end of its input'}"
    wrong = []
    process = subprocess.Popen([program, command], stdin=subprocess.PIPE, stdout=subprocess.PIPE, bufsize=0, preexec_fn=end_by_signals)
    for number, (piece, lines) in enumerate(PIECES):
        process.stdin.write(piece)
        came = came_within(process.stdout, LATE)
        wanted = lines[which] + b"\n" if lines else b""
        if came != wanted:
            wrong.append(f"{name}: within {LATE} s of piece {number} came {came!r}, and not {wanted!r}")
        time.sleep(BETWEEN - LATE)
    if ending:
        process.send_signal(ending)
        status, wanted = ended(process), -ending
    else:
        process.stdin.close()
        status, wanted = ended(process), 0
    rest = process.stdout.read()
    if rest:
        wrong.append(f"{name}: at the end came {rest!r} more")
    if status != wanted:
        wrong.append(f"{name}: it ended with {status}, and not {wanted}")
    process.stdout.close()
    if ending:
        process.stdin.close()
    return wrong


def many_at_once(program, command, which, ending):
    """Many records in one piece, and a signal shortly after them: no line is missing."""
    name = f"{command}, many records, ended by {ending.name}"
    count = 500
    process = subprocess.Popen([program, command], stdin=subprocess.PIPE, stdout=subprocess.PIPE, bufsize=0, preexec_fn=end_by_signals)
    process.stdin.write(HEADER + HELLO_RECORD * count + HELLO_RECORD[:20])
    came = []
    reader = threading.Thread(target=lambda: came.append(process.stdout.read()))
    reader.start()
    time.sleep(BETWEEN)
    process.send_signal(ending)
    ended(process)
    reader.join()
    process.stdin.close()
    process.stdout.close()
    lines = b"".join((PIECES[1][1][which].replace(b"1", str(number).encode(), 1) if which == 0 else PIECES[1][1][which]) + b"\n"
                     for number in range(1, count + 1))
    return [] if came[0] == lines else [f"{name}: {came[0].count(bytes([10]))} lines came of {count}"]


def of_a_file(program, command):
    """A file on disk: its lines are written in big pieces, which a pipe gives as they were written."""
    name = f"{command}, of a file"
    count = 20_000
    with tempfile.TemporaryFile() as file:
        file.write(HEADER + HELLO_RECORD * count)
        file.seek(0)
        ours, its = os.pipe()
        process = subprocess.Popen([program, command], stdin=file, stdout=its)
        os.close(its)
        pieces, came = 0, 0
        while True:
            piece = os.read(ours, 1 << 20)
            if not piece:
                break
            pieces += 1
            came += piece.count(b"\n")
        os.close(ours)
        if ended(process) != 0 or came != count:
            return [f"{name}: {came} lines came of {count}"]
        return [] if pieces <= count // 20 else [f"{name}: {count} lines came in {pieces} pieces"]


def main():
    if len(sys.argv) > 2 or any(word.startswith("-") for word in sys.argv[1:]):
        sys.exit(__doc__)
    program = os.path.abspath(sys.argv[1]) if len(sys.argv) == 2 else PROGRAM
    views = []
    for which, command in enumerate(["pcap-show", "pcap-lines"]):
        for ending in [None, signal.SIGINT, signal.SIGTERM]:
            views.append(threading.Thread(target=tried, args=(live, program, command, which, ending)))
        tried(of_a_file, program, command)
    for view in views:
        view.start()
    for view in views:
        view.join()
    for which, command in enumerate(["pcap-show", "pcap-lines"]):
        for ending in [signal.SIGINT, signal.SIGTERM]:
            tried(many_at_once, program, command, which, ending)
    if failures:
        sys.exit("\n".join(f"live_lines: {failure}" for failure in failures))
    print("live_lines: each line was there once its record was whole, and none was lost")


main()
