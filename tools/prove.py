"""Makes the library, or the program, of the crate of this folder with the kit's own prover, as the kit's gate does, but for
its search for contracts that no call can meet: that changes no verdict, and the gate does it.

    prove.py lib JOBS
    prove.py run JOBS [WORD..]

A library is made of its statements, which the crates above load at once; `rt lib` makes it whole, with its proofs, and each
crate above loads them anew. The sum of a crate's sources is made once, and not once for each way that leads down to it. On a
kit whose functions have other names or parameters, and where `rt` is no part of a kit, this runs `rt` itself.
"""

import functools
import os
import shutil
import sys


def kit():
    """The kit's own functions; nothing where it has none of these names."""
    sys.path.insert(0, os.path.dirname(os.path.realpath(shutil.which("rt") or "")))
    try:
        import rtlib
        wanted = [rtlib.main, rtlib.guarded, rtlib.lock, rtlib.help_of, rtlib.crates_below]
        wanted += [rtlib.Crate.stamp, rtlib.Crate.build_rlib, rtlib.Crate.cuts_libraries]
    except (ImportError, AttributeError):
        return None
    return rtlib if wanted and "--statements" in rtlib.help_of("build") else None


def make_library(parts, jobs):
    """Proves the crate from nothing and makes its library, with the stamp by which `rt` knows it again; the status."""
    here = os.getcwd()
    crate = next(it for it in parts.crates_below(os.path.dirname(here)) if it.folder == here)
    held = parts.lock([crate])
    parts.Crate.cuts_libraries = True
    stamp = crate.stamp()
    status = crate.build_rlib(["--jobs", jobs], anew=True)
    if status == 0:
        with open("out/rlib/stamp", "w", encoding="utf-8") as file:
            file.write(stamp)
    for it in held:
        os.close(it)
    return status


def by_parts(parts, verb, jobs, words):
    """Does it with the kit's own functions; the status."""
    parts.guarded()
    parts.Crate.stamp = functools.lru_cache(maxsize=None)(parts.Crate.stamp)
    words_of = parts.help_of
    parts.help_of = lambda verb: words_of(verb).replace("--empty-contracts", "")
    if verb == "lib":
        return make_library(parts, jobs)
    return parts.main(verb, "--jobs", jobs, "--", *words)


def main():
    """Does what is asked; the status."""
    verb, jobs, words = sys.argv[1], sys.argv[2], sys.argv[3:]
    parts = kit()
    if parts is not None:
        try:
            return by_parts(parts, verb, jobs, words)
        except (AttributeError, StopIteration, TypeError) as error:
            print(f"prove: the kit's functions are others than these ({error}), so rt itself is asked", flush=True)
    return os.execvp("rt", ["rt", verb, "--jobs", jobs, *(["--", *words] if words else [])])


sys.exit(main())
