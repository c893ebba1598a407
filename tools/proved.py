#!/usr/bin/env python3
"""proved.py FILE: notes what the `rt ci` that passed here since FILE was made left in this checkout: each library as it proved it, in
crates/NAME/out/rlib. Run from the repository's root, before anything else is changed there.

`rt lib` and `rt check` take nothing of that, and prove every crate below once more where no check has run before. tools/dist and
tools/check-definitions need one crate more above them. So they call the kit's rattle as rt itself does, by the words of the kit's own
rtlib, where each library is noted and nothing of what it is made from has changed.
"""
import functools
import hashlib
import os
import subprocess
import sys

# the crate of the C library: the one above all that the calls come down to
TOP = 'urzulempa_c'
ARCHIVE = f'crates/{TOP}/out/lib{TOP}.a'


@functools.lru_cache(maxsize=None)
def kit():
    """the folder of the toolchain: `rt doc` names a page in it"""
    return os.path.dirname(subprocess.run(['rt', 'doc'], stdout=subprocess.PIPE, text=True, check=True).stdout.strip())


def top():
    """the crate of the C library, as rt sees it"""
    sys.dont_write_bytecode = True
    sys.path.insert(0, f'{kit()}/bin')
    import rtlib
    return rtlib.Crate(os.path.abspath(f'crates/{TOP}'), os.path.abspath('.'), {})


def sum_of(crate, seen):
    """a sum of what the crate's library is made from"""
    if crate.name not in seen:
        said = [crate.name, sorted(crate.of_kit), [sum_of(it, seen) for it in crate.deps]]
        with open(f'{kit()}/KIT-ID', 'rb') as f:
            said.append(f.read())
        for part in 'src', 'specs', 'proofs':
            for at, folders, names in os.walk(f'{crate.folder}/{part}'):
                folders.sort()
                for name in sorted(names):
                    with open(f'{at}/{name}', 'rb') as f:
                        said.append((os.path.relpath(f'{at}/{name}', crate.folder), f.read()))
        seen[crate.name] = hashlib.sha256(repr(said).encode()).hexdigest()
    return seen[crate.name]


def note_of(crate):
    return f'{os.path.dirname(crate.rlib)}/by-rt-ci'


def note(mark):
    """notes the libraries that rt ci has made since: it makes each one's folder anew, and puts back those that a check had left before"""
    seen = {}
    for it in top().below():
        made = f'{it.rlib}/toolchain'
        if not os.path.exists(f'{os.path.dirname(it.rlib)}/stamp') and os.path.isdir(made) and os.stat(made).st_mtime_ns > os.stat(mark).st_mtime_ns:
            with open(note_of(it), 'w', encoding='utf-8') as f:
                f.write(sum_of(it, seen))


def left_by_ci(crate):
    """the name of a library below the crate that is not as rt ci proved it of these very sources, or None"""
    seen = {}
    for it in crate.below():
        try:
            with open(note_of(it), encoding='utf-8') as f:
                if f.read() != sum_of(it, seen):
                    return it.name
        except OSError:
            return it.name
    return None


def rattle(crate, verb, name, words, folder):
    """runs rattle on src/lib.rt of the folder, a crate of that name over the libraries that the crate of the C library uses"""
    its = crate.words(['--jobs', str(min(4, len(os.sched_getaffinity(0))))], keeps=False)
    its[its.index('--crate-name') + 1] = name
    its[its.index('--links') + 1] = f'{name}='
    if name != crate.name:
        at = its.index('--crate-type')
        del its[at:at + 2]
    return subprocess.run([f'{kit()}/bin/rattle', verb, *its, *words], cwd=folder, stdin=subprocess.DEVNULL, stdout=subprocess.PIPE, stderr=subprocess.STDOUT, text=True, errors='replace')


if __name__ == '__main__':
    if len(sys.argv) != 2:
        sys.exit(__doc__)
    note(sys.argv[1])
