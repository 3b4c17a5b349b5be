"""What several tools need: the crates, and how much this machine can do at once."""
import os
import re

TOP = os.path.realpath(os.path.join(os.path.dirname(__file__), ".."))
# What a check of the gate takes of memory beside others, in GB: four took 13. A single one takes up to 6.
CHECK = 3.3


def read(path):
    """What a file has, or nothing where it can't be read."""
    try:
        with open(path, "rb") as it:
            return it.read().decode(errors="replace")
    except OSError:
        return ""


def number_in(path, pattern=r"(\d+)"):
    found = re.search(pattern, read(path))
    return int(found[1]) if found else None


def crates(top=TOP):
    """The crates in the order of crates.txt, each with those of them that it stands on and the kit's libraries that it uses."""
    with open(f"{top}/crates.txt", encoding="utf-8") as it:
        lines = [line.partition("#")[0].partition(":") for line in it]
    return {head.split()[0]: names.split() for head, _, names in lines if head.strip()}


def groups(controller):
    """The folders of the control groups that this process is in, the uppermost first. They are mounted in one of two ways."""
    for line in read("/proc/self/cgroup").splitlines():
        _, names, path = line.split(":", 2)
        root = "/sys/fs/cgroup" if not names else f"/sys/fs/cgroup/{controller}" if controller in names.split(",") else ""
        parts = path.strip("/").split("/") if path.strip("/") else []
        if root:
            yield from ("/".join([root, *parts[:number]]) for number in range(len(parts) + 1))


def processors():
    """Those that this process may run on, or fewer by the quota of a control group."""
    found = [len(os.sched_getaffinity(0))]
    for group in groups("cpu"):
        for quota, period in (("cpu.max", r"\d+ (\d+)"), ("cpu.cfs_quota_us", None)):
            given = number_in(f"{group}/{quota}", r"^(\d+)")
            of = number_in(f"{group}/{quota}", period) if period else number_in(f"{group}/cpu.cfs_period_us")
            if given and of:
                found.append(max(given // of, 1))
    return min(found)


def free_memory():
    """The free memory in GB: what the system calls available, or less by the limit of a control group. Of what a group holds, pages of files
    can be given back."""
    found = [1024 * (number_in("/proc/meminfo", r"MemAvailable:\s+(\d+)") or 0)]
    for group in groups("memory"):
        for limit, held, prefix in (("memory.max", "memory.current", ""), ("memory.limit_in_bytes", "memory.usage_in_bytes", "total_")):
            most, has = number_in(f"{group}/{limit}"), number_in(f"{group}/{held}")
            if most and has is not None:
                files = [number_in(f"{group}/memory.stat", rf"(?m)^{prefix}{kind} (\d+)") or 0 for kind in ("active_file", "inactive_file")]
                found.append(most - has + sum(files))
    return max(min(found), 0) / 1e9


def lanes(each=CHECK):
    """How many checks, or other works that take so many GB, go side by side, and why. RT_JOBS, set by hand, wins."""
    given = os.environ.get("RT_JOBS", "")
    if given.isdigit() and int(given):
        return int(given), f"{int(given)} by RT_JOBS"
    number, free = processors(), free_memory()
    room = max(int(free / each), 1)
    if room < number:
        return room, f"{room} of {number} processors, as {free:.1f} GB of memory are free and each takes {each}"
    return number, f"{number}, one a processor; {free:.1f} GB of memory are free"
