"""What refuses a program its memory or its threads: a library that is loaded before it. Needs a C compiler."""

import os
import subprocess

SOURCE = os.path.join(os.path.dirname(os.path.abspath(__file__)), "refuse.c")


def interposer(folder):
    """The library, compiled where it is not yet there."""
    library = os.path.join(folder, "refuse.so")
    if not os.path.exists(library):
        compiler = os.environ.get("CC", "cc")
        subprocess.run([compiler, "-O2", "-shared", "-fPIC", "-o", library, SOURCE, "-ldl"], check=True)
    return library


def refused_threads(library, folder, numbers=""):
    """The variables by which the threads of these numbers can't be started."""
    return {"LD_PRELOAD": library, "REFUSE_THREADS": numbers, "THREADS_COUNT": os.path.join(folder, "threads.count")}


def refused_allocation(library, folder, number=0):
    """The variables by which the allocation of this number is refused; none where it is 0."""
    path = os.path.join(folder, f"allocations.{os.getpid()}.count")
    return {"LD_PRELOAD": library, "REFUSE": str(number), "COUNT": path}
