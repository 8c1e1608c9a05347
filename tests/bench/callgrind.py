"""Instructions of a driver, by callgrind: what it collects inside the driver's function `measured`."""
import os
import re
import subprocess

# callgrind counts `rep stosb` once for each byte; the C library is kept from clearing buffers by it
TUNABLES = "glibc.cpu.x86_rep_stosb_threshold=4000000000:glibc.cpu.x86_non_temporal_threshold=4000000000"


def run(options, words, tunables=TUNABLES):
    command = ["valgrind", "--tool=callgrind", "--toggle-collect=measured", *options, *words]
    env = dict(os.environ, GLIBC_TUNABLES=tunables)
    return subprocess.run(command, check=True, capture_output=True, text=True, env=env)


def instructions(*words, tunables=TUNABLES):
    """Of one run."""
    done = run(["--callgrind-out-file=/dev/null"], words, tunables)
    return re.search(r"Collected : (\d+)", done.stderr)[1]
