"""What the scripts here share: numbers of the binary format, times and peak memory of a run."""
import os
import subprocess
import time


def number(n):
    """The unsigned number of the binary format."""
    out = b""
    while n >= 128:
        out += bytes([n % 128 + 128])
        n //= 128
    return out + bytes([n])


def timed(command, check=True):
    """Seconds of the fastest of five runs, which must succeed where that is asked for."""
    best = None
    for _ in range(5):
        start = time.perf_counter()
        subprocess.run(command, check=check, stdout=subprocess.DEVNULL, stderr=None if check else subprocess.DEVNULL)
        seconds = time.perf_counter() - start
        best = seconds if best is None else min(best, seconds)
    return best


def peak(command, folder, check=True):
    """Peak memory of a run in MiB, as /usr/bin/time reports it; the run must succeed where that is asked for."""
    peak = os.path.join(folder, "peak")
    subprocess.run(
        ["/usr/bin/time", "-q", "-f", "%M", "-o", peak] + command,
        check=check,
        stdout=subprocess.DEVNULL,
        stderr=None if check else subprocess.DEVNULL,
    )
    with open(peak) as file:
        return int(file.read()) / 1024


def padded(core, mebibytes):
    """A core module with a custom section of this size in front of its own sections."""
    size = mebibytes << 20
    contents = number(7) + b"padding" + bytes(range(256)) * (size // 256)
    return core[:8] + b"\0" + number(len(contents)) + contents + core[8:]
