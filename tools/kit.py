"""What tools need of Rattle's kit: where it lies, what crates.txt lists, and the words that have rattle check or build a crate."""
import functools
import glob
import hashlib
import os
import shutil
import subprocess
import sys


@functools.lru_cache(maxsize=None)
def kit():
    """The kit's folder: that of the page that `rt doc` names."""
    return os.path.dirname(subprocess.run(['rt', 'doc'], capture_output=True, text=True, check=True).stdout.strip())


@functools.lru_cache(maxsize=None)
def listed(top='.'):
    """The crates of crates.txt: name -> (whether it is a static library, what it uses)."""
    with open(f'{top}/crates.txt', encoding='utf-8') as file:
        rows = [line.partition('#')[0].strip() for line in file]
    heads = [row.partition(':')[0::2] for row in rows if row]
    return {head.split()[0]: ('staticlib' in head.split()[1:], uses.split()) for head, uses in heads}


def below(name, top='.'):
    """The repository's libraries below a crate, each after those that it uses."""
    found = []
    for use in listed(top)[name][1]:
        if use in listed(top):
            found += [it for it in [*below(use, top), use] if it not in found]
    return found


def root(name, top='.'):
    """The root file of a crate."""
    main = f'{top}/crates/{name}/src/main.rt'
    return main if os.path.exists(main) else f'{top}/crates/{name}/src/lib.rt'


def rlib(name, top='.'):
    return f'{top}/crates/{name}/out/rlib/{name}.rlib'


def of_kit(name, top='.'):
    """The kit's libraries that a crate uses."""
    return ['std', *[use for use in listed(top)[name][1] if use not in listed(top)]]


def words(name, top='.', sources=False):
    """rattle's words for a crate, over the rlibs of its libraries or over their sources."""
    out, lower = ['--crate-name', name, root(name, top)], below(name, top)
    kits = dict.fromkeys(it for crate in [name, *(lower if sources else [])] for it in of_kit(crate, top))
    for it in kits:
        out += ['--extern', f'{it}={kit()}/rlibs/{it}.rlib']
    out += ['-L', f'dependency={kit()}/rlibs']
    for it in lower:
        if sources:
            uses = [*of_kit(it, top), *[use for use in listed(top)[it][1] if use in listed(top)]]
            out += ['--lib', f'{it}:{",".join(uses)}={root(it, top)}']
        else:
            out += ['-L', f'dependency={os.path.dirname(rlib(it, top))}']
    if not sources:
        for it in [use for use in listed(top)[name][1] if use in listed(top)]:
            out += ['--extern', f'{it}={rlib(it, top)}']
    if listed(top)[name][0]:
        out += ['--crate-type', 'staticlib']
    return out + ['--antt-project', f'{kit()}/rattle/logic/antt-project.json', '--logic-built', f'{kit()}/logic_built']


def rattle(verb, name, *flags, top='.', sources=False, **how):
    """Runs rattle on a crate."""
    return subprocess.run([f'{kit()}/bin/rattle', verb, *words(name, top, sources), *flags], check=False, **how)



# ---- what stands of a proof

def sum_of(names, *more, top='.'):
    """One sum of the kit, of what crates.txt says, of the files of crates and of more files."""
    out = hashlib.sha256(subprocess.run(['rt', 'version'], capture_output=True, check=True).stdout)
    files = [f'{top}/crates.txt', *more]
    for name in sorted(names):
        for part in ('src', 'specs', 'proofs'):
            files += sorted(file for file in glob.glob(f'{top}/crates/{name}/{part}/**', recursive=True) if os.path.isfile(file))
    for file in files:
        with open(file, 'rb') as it:
            out.update(f'{file} {hashlib.sha256(it.read()).hexdigest()}\n'.encode())
    return out.hexdigest()


PROVED = 'target/proved'


def note_proved(before):
    """Notes, right after the gate, that the crates are proved as they stand, and which libraries in their folders out/ it has written: those that are
    younger than the file `before`. It puts back what stood there, where something did."""
    os.makedirs('target', exist_ok=True)
    start = os.stat(before).st_mtime_ns
    new = [it for it in listed() if os.path.isdir(rlib(it)) and os.stat(rlib(it)).st_mtime_ns >= start]
    with open(PROVED, 'w', encoding='ascii') as file:
        file.write(' '.join([sum_of(listed()), *new]))


def proved():
    """Whether the crates are proved as they stand, and the libraries of that run."""
    try:
        with open(PROVED, encoding='ascii') as file:
            noted = file.read().split()
    except OSError:
        return False, []
    well = bool(noted) and noted[0] == sum_of(listed())
    # one with a stamp was written since, by another command
    return well, [it for it in noted[1:] if well and os.path.isdir(rlib(it)) and not os.path.exists(f'{os.path.dirname(rlib(it))}/stamp')]


def by_rt(verb, name):
    """`rt lib` or `rt run` in the crate's folder, which proves what is not proved yet. Gives whether it ended well, and what it said."""
    given = f'crates/{name}/stdin'
    with open(given if os.path.exists(given) else os.devnull, 'rb') as file:
        done = subprocess.run(['rt', verb], cwd=f'crates/{name}', stdin=file, stdout=subprocess.PIPE, stderr=subprocess.STDOUT, text=True, errors='replace', check=False)
    return done.returncode == 0, done.stdout


def archived(name, to):
    """Proves a static library and writes its archive: over the libraries of the gate, where they are of these files, and else by `rt lib`."""
    if set(below(name)) <= set(proved()[1]):
        how = {'stdout': subprocess.PIPE, 'stderr': subprocess.STDOUT, 'text': True, 'errors': 'replace'}
        done = rattle('build', name, '--jobs', '2', '--toolchain', f'{kit()}/toolchain', '--backend', 'llvm', '-o', to, **how)
        return done.returncode == 0, done.stdout
    well, said = by_rt('lib', name)
    if well:
        shutil.copyfile(f'crates/{name}/out/lib{name}.a', to)
    return well, said


def built(name, to):
    """Proves a program and writes it: the one that the gate built, where it is of these files, and else the one that `rt run` builds."""
    made = f'crates/{name}/out/{name}'
    if proved()[0] and os.path.isfile(made):
        shutil.copy(made, to)
        return True, ''
    for old in (made, f'{made}.stamp'):
        if os.path.exists(old):
            os.remove(old)
    _, said = by_rt('run', name)
    # what `rt run` proved and built has a stamp beside it, however the program itself ended
    well = os.path.isfile(made) and os.path.isfile(f'{made}.stamp')
    if well:
        shutil.copy(made, to)
    return well, said


def kept(names, folder, file_of, make):
    """Makes a file in a folder for each crate that is named; nothing is done where it stands already, made by the same kit from the same files."""
    os.makedirs(folder, exist_ok=True)
    for name in names:
        to, noted = f'{folder}/{file_of(name)}', f'{folder}/{name}.sum'
        crates = [*below(name), name]
        if os.path.exists(to) and os.path.exists(noted):
            with open(noted, encoding='ascii') as file:
                if file.read() == sum_of(crates, to):
                    continue
            os.remove(noted)
        well, said = make(name, to)
        if not well:
            print('\n'.join(said.split('\n')[-20:]), file=sys.stderr)
            return 1
        with open(noted, 'w', encoding='ascii') as file:
            file.write(sum_of(crates, to))
    return 0


if __name__ == '__main__':
    # check TOP NAME [FLAG..]: checks a crate of the repository at TOP over the sources of its libraries
    # proved FILE: notes that the gate has proved the crates as they stand; the file was made before it
    if len(sys.argv) == 3 and sys.argv[1] == 'proved':
        note_proved(sys.argv[2])
    elif len(sys.argv) > 3 and sys.argv[1] == 'check':
        sys.exit(rattle('check', sys.argv[3], *sys.argv[4:], top=sys.argv[2], sources=True).returncode)
    else:
        sys.exit('usage: tools/kit.py check TOP NAME [FLAG..], or tools/kit.py proved FILE')
