"""measure.py RELINK FOLDER: times RELINK on large objects in the kit FOLDER/kit, and prints the least and the middle of some runs."""

import os
import resource
import statistics
import subprocess
import sys
import time

import large

RUNS = 15
CASES = (
    ("read, entries by offset", 13, True, True),
    ("read, entries from the last to the first", 13, False, True),
    ("read and linked, entries by offset", 0, True, False),
)


def main():
    relink, folder = sys.argv[1:]
    failed = False
    for what, wanted, ascending, flawed in CASES:
        content = large.make_object(ascending, flawed)
        with open(os.path.join(folder, "kit", "kernel.o"), "wb") as file:
            file.write(content)
        times = []
        for _ in range(RUNS):
            start = time.perf_counter()
            status = subprocess.run([relink, "link", "/kit"], cwd=folder, stderr=subprocess.DEVNULL).returncode
            times.append(1000 * (time.perf_counter() - start))
            failed |= status != wanted
        print(f"{what}: {len(content)} bytes, status {status}, {min(times):.0f} ms, in the middle {statistics.median(times):.0f} ms")
    print(f"at most {resource.getrusage(resource.RUSAGE_CHILDREN).ru_maxrss // 1024} MiB")
    if failed:
        sys.exit("a status is not the one that is wanted")


main()
