"""Calls the library over scripts: `call_library.py LIBRARY TIMES SCRIPT..` prints for each the least processor time of so
many calls, after one that is not measured, and the digest of the answer."""
import hashlib
import os
import sys
import time

sys.dont_write_bytecode = True
sys.path.insert(0, os.path.join(os.path.dirname(os.path.dirname(os.path.realpath(__file__))), "tools"))

from vindaesk.program.native import Library


def timed(library: Library, script: bytes) -> float:
    """The processor time of a call."""
    begun = time.process_time()
    library.run(script)
    return time.process_time() - begun


def carry_out(library: Library, path: str, times: int) -> None:
    """Prints what there is to say of one script."""
    with open(path, "rb") as file:
        script = file.read()
    answer = library.run(script)[0]
    best = min([timed(library, script) for _ in range(times)], default=0.0)
    print(best, hashlib.sha256(answer).hexdigest(), flush=True)


def main() -> int:
    library, times = Library(sys.argv[1]), int(sys.argv[2])
    for path in sys.argv[3:]:
        # each has a process of its own with the same memory, since what a call takes depends on what was given back before
        child = os.fork()
        if child == 0:
            carry_out(library, path, times)
            os._exit(0)
        if os.waitpid(child, 0)[1] != 0:
            return 1
    return 0


if __name__ == "__main__":
    sys.exit(main())
