"""What the scripts of this folder share: the built program, its seconds, its instructions and its memory."""
import os
import re
import shutil
import subprocess
import sys
import tempfile
import time

ROOT = os.path.dirname(os.path.dirname(os.path.abspath(__file__)))


def program(name="nozgurt"):
    """The path of the built program of that name."""
    path = os.path.join(ROOT, "crates", name, "out", name)
    if not os.path.exists(path):
        sys.exit(f"bench: build the program first, by ./{name} --build")
    return path


def memory_folder():
    """A folder whose files stay in memory; the usual one for temporary files where there is none."""
    return "/dev/shm" if os.path.isdir("/dev/shm") else None


def drop(journal):
    """Takes a journal away, so that the next run begins anew."""
    if journal is not None and os.path.exists(journal):
        os.remove(journal)


def seconds_of(words, journal=None):
    """The seconds of the fastest of three runs, each without the journal before it, and what the last one printed."""
    best = None
    for _ in range(3):
        drop(journal)
        start = time.perf_counter()
        done = subprocess.run(words, capture_output=True)
        seconds = time.perf_counter() - start
        if done.returncode != 0:
            sys.exit(f"bench: {done.stdout!r} with status {done.returncode}")
        best = seconds if best is None else min(best, seconds)
    return best, done.stdout


def processor_seconds_of(words, journal=None):
    """The seconds and the processor seconds, both of the run that took the fewest of the latter, of three as above."""
    best = None
    for _ in range(3):
        drop(journal)
        before = os.times()
        start = time.perf_counter()
        done = subprocess.run(words, capture_output=True)
        seconds = time.perf_counter() - start
        after = os.times()
        if done.returncode != 0:
            sys.exit(f"bench: {done.stdout!r} with status {done.returncode}")
        busy = after.children_user + after.children_system - before.children_user - before.children_system
        best = (busy, seconds) if best is None else min(best, (busy, seconds))
    return best[1], best[0]


def count_of(words, journal=None, lines=os.devnull):
    """The instructions of a run, its start included, as valgrind counts them, with a file as its input; none without valgrind."""
    if shutil.which("valgrind") is None:
        return None
    drop(journal)
    with tempfile.TemporaryDirectory() as folder, open(lines) as given:
        counts = os.path.join(folder, "counts")
        counting = ["valgrind", "--tool=callgrind", f"--callgrind-out-file={counts}", *words]
        done = subprocess.run(counting, stdin=given, capture_output=True, text=True)
    found = re.search(r"Collected : (\d+)", done.stderr)
    return None if found is None else int(found[1])


def instructions_of(words, journal=None):
    """The same in millions; a dash where it is not known."""
    count = count_of(words, journal)
    return "-" if count is None else f"{count / 1e6:.1f}"


def growth_of(seconds, before):
    """How many times the seconds before; nothing for the first."""
    return "" if before is None else f"{seconds / before:.2f}"


def memory_of(words, journal=None):
    """The most memory of a run in KiB, as far as the system shows it while it runs: the most of twenty runs."""
    return max(memory_seen(words, journal) for _ in range(20))


def memory_seen(words, journal):
    drop(journal)
    most = 0
    with subprocess.Popen(words, stdout=subprocess.DEVNULL) as running:
        while running.poll() is None:
            try:
                with open(f"/proc/{running.pid}/status") as status:
                    for line in status:
                        if line.startswith("VmHWM:"):
                            most = max(most, int(line.split()[1]))
            except OSError:
                break
    return most
