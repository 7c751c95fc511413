"""What the tools share: the repository's root, runs of the check, and the goals of a function's proof.

A goal is what the check asks at a point of the code, and its place is what is known there: the arguments (`c.args.x`), the contract's `requires`, what a
callee ensures (`c.CALLEE.ensures`), a test (`c.if-a-b.true`), an arm of a match (`c.in-Text`), a loop's invariant (`c.loop-k.invariant`). An answer of
Answers.antt gets its place as `c`.
"""
import contextlib
import glob
import os
import re
import shutil
import subprocess
import sys
import tempfile


def at_root():
    """Goes to the root of the repository: the tools stand in its folder tools/."""
    os.chdir(os.path.join(os.path.dirname(os.path.abspath(__file__)), '..'))


def value_of(flag, words, default=None):
    """The word after a flag."""
    return words[words.index(flag) + 1] if flag in words and words.index(flag) + 1 < len(words) else default


def text_of(path):
    with open(path, encoding='utf-8') as file:
        return file.read()


def write(path, text):
    with open(path, 'w', encoding='utf-8') as file:
        file.write(text)


# ---- the check

def check(crate, words=(), top='.'):
    """The lines that `rt check` prints in a crate's folder, as they come, and its status at the end."""
    with subprocess.Popen(['rt', 'check', *words], cwd=f'{top}/crates/{crate}', stdout=subprocess.PIPE, stderr=subprocess.STDOUT, text=True, errors='replace') as run:
        for line in run.stdout:
            yield line.rstrip('\n')
    yield run.returncode


@contextlib.contextmanager
def copied(crate):
    """A copy of the crates outside the checkout, in which a crate's proofs can be changed: rt ci refuses a file that none of its crates has."""
    with tempfile.TemporaryDirectory() as room:
        shutil.copytree('crates', f'{room}/crates', ignore=shutil.ignore_patterns('out', 'must-fail', 'edits'))
        shutil.copyfile('crates.txt', f'{room}/crates.txt')
        # the top of a repository
        os.mkdir(f'{room}/.git')
        yield room


# ---- goals

class Goals:
    """The goals of a function, or of the cycle of calls that it is in: its folder below proofs/, each goal with its line of the code, and its place."""

    def __init__(self, folder, offered, goals):
        self.folder = folder
        self.offered = offered
        self.lines = re.findall(r'^-- (\S+:\d+:\d+)\n(?:pub )?(\S+) :', offered, re.M)
        self.places = dict(re.findall(r'^(\S+) =\s+(?:\(t : \S+\) →\s+)?Past\.\w+\s+\(?([^\s()]+)', goals, re.M))


def goals_of(crate, function):
    """The goals of a function, named as the check prints it or by the end of its name; nothing where it has none."""
    with tempfile.TemporaryDirectory() as room:
        said = list(check(crate, ['--generated', f'{room}/made', '--start', function.replace('/', '::')]))
        found = glob.glob(f'{room}/made/Rattle-{crate}-proofs/**/AnswersOffered.antt', recursive=True)
        for path in found:
            folder = os.path.dirname(path)
            inside = os.path.relpath(folder, f'{room}/made/Rattle-{crate}-proofs')
            name = function.replace('::', '/')
            text = text_of(f'{folder}/Goals.antt') if os.path.exists(f'{folder}/Goals.antt') else ''
            if inside == name or inside.endswith('/' + name) or '/+' in '/' + inside:
                return Goals(inside, text_of(path), text)
    print('\n'.join(str(line) for line in said[-8:]))
    return None
