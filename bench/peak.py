"""The most memory that a process has had."""


def peak_of(process):
    """The most memory in MB that a process has had, which has not ended."""
    with open(f"/proc/{process.pid}/status") as status:
        most = next(line for line in status if line.startswith("VmHWM:"))
    return int(most.split()[1]) / 1024
