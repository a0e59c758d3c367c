#!/usr/bin/env python3
"""viewer.py FOLDER: mmlist and tshark list the same 100,000 mFrames; the processor time of each, from one run, and their ratio.

The records are those of tests/traces/long.trace, five times. mmlist reads them as a house trace, tshark as a pcap file of link
type 274 (IEEE 802.3br mPackets).
"""

import os
import struct
import subprocess
import sys
from pathlib import Path

ROOT = Path(__file__).resolve().parents[2]
TIMES = 5
MPACKETS = 274


def mframes(trace):
    at = 0
    while at < len(trace):
        length, _ = struct.unpack_from("<HH", trace, at)
        yield trace[at + 4:at + 4 + length]
        at += 4 + length


def seconds(command, source, target):
    with open(source, "rb") as given, open(target, "wb") as written:
        process = subprocess.Popen(command, cwd=ROOT, stdin=given, stdout=written, stderr=subprocess.DEVNULL)
        _, status, usage = os.wait4(process.pid, 0)
        process.returncode = os.waitstatus_to_exitcode(status)
    if process.returncode != 0:
        sys.exit(f"{command[0]} ended with {process.returncode}")
    return usage.ru_utime + usage.ru_stime


def lines(path):
    with open(path, "rb") as listing:
        return sum(1 for _ in listing)


def main():
    made = Path(sys.argv[1]).resolve()
    once = (ROOT / "tests" / "traces" / "long.trace").read_bytes()
    records = list(mframes(once)) * TIMES
    (made / "trace").write_bytes(once * TIMES)
    with open(made / "mframes.pcap", "wb") as capture:
        capture.write(struct.pack("<IHHiIII", 0xA1B2C3D4, 2, 4, 0, 0, 65535, MPACKETS))
        for number, mframe in enumerate(records):
            capture.write(struct.pack("<IIII", number // 1000, number % 1000 * 1000, len(mframe), len(mframe)))
            capture.write(mframe)
    ours = seconds(["scripts/run-program", "mmlist"], made / "trace", made / "listing")
    theirs = seconds(["tshark", "-r", str(made / "mframes.pcap")], os.devnull, made / "viewer")
    version = subprocess.run(["tshark", "--version"], capture_output=True, text=True).stdout.splitlines()[0]
    print(f"{len(records):,} records: mmlist {ours:.3f} s for {lines(made / 'listing'):,} lines, tshark {theirs:.3f} s for "
          f"{lines(made / 'viewer'):,} lines; mmlist takes {ours / theirs:.3f} of tshark's time ({version})")


if __name__ == "__main__":
    main()
