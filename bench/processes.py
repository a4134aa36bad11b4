"""What a process takes: its processor time, its peak memory and its instructions."""
import os
import resource
import shutil
import subprocess
import sys
import tempfile


def require(program):
    """Ends with a message where a program isn't built."""
    if not os.access(program, os.X_OK):
        sys.exit(f"{program} isn't built: bench/README.md says how")


def spent(words, seconds=None):
    """The answer of a run, its status and its text, and its processor time; nothing where it takes more seconds than this."""
    with tempfile.TemporaryFile() as out:
        child = subprocess.Popen(words, stdout=out, stderr=subprocess.DEVNULL, preexec_fn=limited(seconds))
        _, status, usage = os.wait4(child.pid, 0)
        child.returncode = os.waitstatus_to_exitcode(status)
        out.seek(0)
        if seconds is not None and child.returncode < 0:
            return None, None
        return (child.returncode, out.read()), usage.ru_utime + usage.ru_stime


def limited(seconds):
    """Sets a limit of processor time."""
    if seconds is None:
        return None
    return lambda: resource.setrlimit(resource.RLIMIT_CPU, (seconds, seconds))


def least(before, now):
    return now if before is None else min(before, now)


def peak(words, folder):
    """The peak memory of a run, in kilobytes; nothing where GNU time is missing."""
    if not os.access("/usr/bin/time", os.X_OK):
        return None
    report = folder / "time"
    subprocess.run(["/usr/bin/time", "-q", "-f", "%M", "-o", report, *words], capture_output=True)
    return int(report.read_text())


def instructions(words):
    """The instructions of a run; nothing where valgrind is missing or can't run the program."""
    if not shutil.which("valgrind"):
        return None
    counted = ["valgrind", "--tool=callgrind", "--callgrind-out-file=/dev/null", *words]
    run = subprocess.run(counted, capture_output=True, text=True)
    if run.returncode < 0:
        return None
    lines = [line for line in run.stderr.splitlines() if "Collected" in line]
    return int(lines[0].split()[-1]) if lines else None
