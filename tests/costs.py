"""Measures what `rt ci` spends on each crate, by looking at the prover's processes while it runs."""
import os
import threading

INTERVAL = 0.5
TICKS = os.sysconf("SC_CLK_TCK")


def read(path):
    try:
        with open(path, "rb") as it:
            return it.read()
    except OSError:
        return b""


def fields_of(pid):
    """The fields of /proc/PID/stat behind the process's name, or none where it has ended."""
    return read(f"/proc/{pid}/stat").rpartition(b")")[2].split()


def seconds_of(pid):
    """The processor seconds of a process itself, without its children's."""
    fields = fields_of(pid)
    return (int(fields[11]) + int(fields[12])) / TICKS if fields else 0.0


def is_below(pid, above):
    """Whether a process was started by another, or by one that was."""
    while (fields := fields_of(pid)) and pid != str(above):
        pid = fields[1].decode()
    return pid == str(above)


class Sampler:
    """The processor seconds of the prover's processes of one repository, by crate and by what they do.

    A process is counted with what it had used when it was last seen, so each lacks at most INTERVAL seconds.
    """

    def __init__(self, root):
        self.root, self.seconds, self.what = root, {}, {}
        self.ended = threading.Event()
        self.thread = threading.Thread(target=self.sample_on, daemon=True)

    def __enter__(self):
        self.thread.start()
        return self

    def __exit__(self, *_):
        self.ended.set()
        self.thread.join()

    def sample_on(self):
        while not self.ended.wait(INTERVAL):
            for pid in filter(str.isdigit, os.listdir("/proc")):
                if pid not in self.what:
                    self.what[pid] = self.task_of(pid)
                if self.what[pid]:
                    self.seconds[pid] = max(seconds_of(pid), self.seconds.get(pid, 0.0))

    def task_of(self, pid):
        """The crate and the task of a process of the prover: 'proof', 'tests' or 'must-fail'. None of any other process."""
        words = read(f"/proc/{pid}/cmdline").decode(errors="replace").split("\0")
        if os.path.basename(words[0]) != "rattle" or "--crate-name" not in words:
            return None
        try:
            folder = os.readlink(f"/proc/{pid}/cwd")
        except OSError:
            return None
        if not is_below(pid, os.getpid()):
            return None
        is_inside = folder.startswith(f"{self.root}/")
        task = "must-fail" if not is_inside else "tests" if "--test" in words else "proof"
        return words[words.index("--crate-name") + 1], task

    def lines(self):
        """A line for each crate and task, in the form that bench/gate_costs.py reads."""
        sums = {}
        for pid, seconds in self.seconds.items():
            sums[self.what[pid]] = sums.get(self.what[pid], 0.0) + seconds
        return [f"cost of {task}: {crate} {seconds:.0f} processor seconds" for (crate, task), seconds in sorted(sums.items())]
