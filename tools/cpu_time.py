"""How much time of a processor runs of programs take, and how much memory."""
import os
import resource
import subprocess
import tempfile


def spent():
    """The time of a processor that the programs run so far took."""
    usage = resource.getrusage(resource.RUSAGE_CHILDREN)
    return usage.ru_utime + usage.ru_stime


def timed(command, given):
    """How long a run of a program on these bytes took, and what it wrote."""
    with tempfile.TemporaryFile() as file:
        file.write(given)
        file.seek(0)
        before = spent()
        answer = subprocess.run(command, stdin=file, stdout=subprocess.PIPE, check=True).stdout
        return spent() - before, answer


def least(times, runs):
    """Runs programs in turn, all of them as often as given, so that each meets the same state of the machine. For each pair of
    a command and its input returns the least time that a run took, in seconds, and its output."""
    rounds = [[timed(command, given) for command, given in runs] for _ in range(times)]
    return [min(of_run) for of_run in zip(*rounds)]


def most_memory(command):
    """The most bytes of memory that a run of a program had. It can't be measured below what Python itself has."""
    process = subprocess.Popen(command, stdin=subprocess.DEVNULL, stdout=subprocess.DEVNULL)
    _, status, usage = os.wait4(process.pid, 0)
    process.returncode = os.waitstatus_to_exitcode(status)
    if process.returncode:
        raise subprocess.CalledProcessError(process.returncode, command)
    return 1024 * usage.ru_maxrss
