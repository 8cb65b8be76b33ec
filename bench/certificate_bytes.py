#!/usr/bin/env python3
"""Drops, doubles and changes each byte of a certificate in turn, and has ./argue check what comes of it.

The certificate shows that 4 is in every preferred set of a framework of four arguments. Each change of it has to be
accepted, refused as a text or rejected, and nothing else; beside the wrong answer that 3 is in every preferred set none may
be accepted. With --changes each byte is changed to each of these bytes.

usage: bench/certificate_bytes.py [--changes BYTES]
"""
import argparse
import os
import subprocess
import sys
import tempfile
from pathlib import Path

TOP = Path(__file__).resolve().parent.parent
FRAMEWORK = b"p af 4\n1 2\n2 1\n1 3\n2 3\n3 4\n"
CERTIFICATE = b"""\
cert 1
w 1 4
w 2 4
r
a A3 1 3
a A5 1 1 2
a A6 1 3
a A2 2 3
a A14 1
d -Ad -Member:3 -Attack:1:3 -Attack:2:3 -Gap:1:1:2 -Gap:1:3:1000001 0 5 1 3 2 4
s 1
s 2
a A2 1 2
d -Ad -Ask:1 -Ask:2 -Attack:1:2 -Attack:1:3 -Attack:2:3 -Gap:1:1:2 -Gap:1:3:1000001 0 5 6 7 8 9
end
"""


def changed(changes):
    """The certificate with each byte dropped, doubled and changed."""
    yield CERTIFICATE
    for at in range(len(CERTIFICATE)):
        front, byte, rest = CERTIFICATE[:at], CERTIFICATE[at:at + 1], CERTIFICATE[at + 1:]
        yield front + rest
        yield front + byte + byte + rest
        for other in changes:
            yield front + bytes([other]) + rest


def main():
    words = argparse.ArgumentParser(description=__doc__.splitlines()[0])
    words.add_argument("--changes", default="0 -\n")
    words.add_argument("--program", default=str(TOP / "out" / "argue"), help="the built program, else ./argue builds it")
    asked = words.parse_args()
    if asked.program == str(TOP / "out" / "argue") and os.system(f"'{TOP / 'argue'}' >/dev/null") != 0:
        sys.exit("bench: ./argue doesn't run")
    counts = {}
    wrong = 0
    with tempfile.TemporaryDirectory() as folder:
        for name, text in (("af", FRAMEWORK), ("answer", b"YES\n")):
            Path(folder, name).write_bytes(text)
        for text in changed(asked.changes.encode()):
            Path(folder, "cert").write_bytes(text)
            for number in ("4", "3"):
                told = subprocess.run([asked.program, "check", "-p", "DS-PR", "-f", f"{folder}/af", "-a", number, "-r",
                                       f"{folder}/answer", "-c", f"{folder}/cert"], stdout=subprocess.PIPE)
                first = {0: b"ACCEPTED\n", 2: b"error: certificate line ", 8: b"REJECTED "}.get(told.returncode)
                fits = first is not None and told.stdout.startswith(first)
                if not fits or (number == "3" and told.returncode == 0):
                    wrong += 1
                    print(f"wrong: {told.returncode} {told.stdout!r} for -a {number} on {text!r}")
                counts[number, told.returncode] = counts.get((number, told.returncode), 0) + 1
    for (number, status), count in sorted(counts.items()):
        print(f"-a {number}: status {status}, {count} times")
    sys.exit(1 if wrong else 0)


if __name__ == "__main__":
    main()
