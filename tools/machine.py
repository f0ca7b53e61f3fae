"""How many checks this machine takes at once; for the tools beside this file."""
import os
import re

MEMORY_OF_A_CHECK = 4 << 30  # bytes, rounded up from what the largest library takes


def free_memory():
    """The bytes of memory that are free, at most the limit of the container."""
    with open('/proc/meminfo') as f:
        free = int(re.search(r'MemAvailable:\s+(\d+)', f.read()).group(1)) << 10
    try:
        with open('/sys/fs/cgroup/memory.max') as f:
            limit = f.read().strip()
    except OSError:
        limit = 'max'
    return free if limit == 'max' else min(free, int(limit))


def lanes_for(processors, memory):
    """One check a processor, at most one for each 4 GB of memory (rounded), at least one."""
    return max(1, min(processors, (memory + MEMORY_OF_A_CHECK // 2) // MEMORY_OF_A_CHECK))


def lanes():
    """How many checks to run at once: RT_JOBS where it is set, else by the processors and the free memory."""
    fixed = os.environ.get('RT_JOBS', '')
    return int(fixed) if re.fullmatch('0*[1-9][0-9]*', fixed) else lanes_for(len(os.sched_getaffinity(0)), free_memory())
