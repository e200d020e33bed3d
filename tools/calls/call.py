"""Calls of the program for tools/program: one call, one with a terminal, and files run in every form; what differs from what is expected is printed.

`trial` has what all calls share: the command, the folder that they run in, how many there were and how many differences, and the records of each file that was run by itself.
"""
import os
import pty
import re
import select
import shlex
import subprocess
import time
from collections import namedtuple
from types import SimpleNamespace

from records import Wrong, of_files, read_json, read_tsv, said, sheet_of

trial = SimpleNamespace(command=[], folder='', calls=0, differences=0, kept={})

FORMS = [['--tsv'], ['--json'], []]
Answer = namedtuple('Answer', 'status out err')


# ---- what differs

def shown(args):
    text = ' '.join(shlex.quote(a) if isinstance(a, str) else repr(a)[1:] for a in args)
    return 'savrunte ' + (text if len(text) < 160 else text[:120] + ' .. ' + text[-30:])


def short(x):
    text = x if isinstance(x, str) and '\n' not in x else repr(x)
    return text if len(text) < 240 else text[:200] + f' .. ({len(x)} in all)'


def differs(args, what, expected, came):
    """Says what is not as expected; long texts and lists from the place on where they part."""
    trial.differences += 1
    if type(expected) is type(came) and isinstance(came, (bytes, list)) and len(repr(expected)) > 200:
        at = next((i for i, (x, y) in enumerate(zip(expected, came)) if x != y), min(len(expected), len(came)))
        at = max(at - 20, 0) if isinstance(came, bytes) else at
        what, expected, came = f'{what} from {at} on', expected[at:], came[at:]
    print(f'{shown(args)}: {what}: expected {short(expected)}, came {short(came)}', flush=True)


# ---- one call

def place(name):
    """A file's path."""
    return os.path.join(os.fsencode(trial.folder), os.fsencode(name))


def write(f):
    if f.content is not None:
        with open(place(f.name), 'wb') as to:
            to.write(f.content)


def told(name, sentence):
    """The fault of a file or of an argument, as standard error has it."""
    return b'savrunte: ' + os.fsencode(name) + b': ' + sentence.encode() + b'\n'


def call(args, around=None, **how):
    """Runs the program. `around` is a line of sh that does it with other descriptors."""
    trial.calls += 1
    line = trial.command + list(args)
    if around:
        line = ['sh', '-c', around, 'sh'] + line
    how = {'stdin': subprocess.DEVNULL, 'stdout': subprocess.PIPE, 'stderr': subprocess.PIPE, 'cwd': trial.folder, 'timeout': 100, **how}
    if 'input' in how:
        del how['stdin']
    try:
        done = subprocess.run(line, **how)
    except subprocess.TimeoutExpired:
        differs(args, 'time', 'an end', 'none in 100 s')
        return Answer(None, b'', b'')
    return Answer(done.returncode, done.stdout or b'', done.stderr or b'')


def tried(args, status, err=b'', out=None, **how):
    """A call of which the status, standard error (or a list of which it must be one) and, where it is given, standard output are known."""
    came = call(args, **how)
    if came.status != status:
        differs(args, 'status', status, came.status)
    errs = err if isinstance(err, list) else [err]
    if came.err not in errs:
        differs(args, 'standard error', errs[0] if len(errs) == 1 else errs, came.err)
    if out is not None and came.out != out:
        differs(args, 'standard output', out, came.out)
    return came


# ---- files in every form

def named(files):
    """The arguments that name these files."""
    return [a for f in files for a in (['spreads', f.name] if f.holds == 'spreads' else [f.name])]


def key(f):
    return f.holds, f.content, f.fault


def try_files(files, strict=(False, True), forms=FORMS, **how):
    """Runs these files in one call, in each form, with and without --strict. A file by itself is held against what its runs should say, several against what each said by itself."""
    err = b''.join(told(f.name, f.fault) for f in files if f.fault)
    parts = [trial.kept.get(key(f)) for f in files] if len(files) > 1 else [None]
    for flag in strict:
        status = max(f.status[flag] for f in files)
        for form in forms:
            args = [*form, *['--strict'][:flag], *named(files)]
            came = tried(args, status, err, **how)
            if not form:
                check_sheet(args, came.out, files, parts)
                continue
            try:
                got = of_files((read_tsv if form == ['--tsv'] else read_json)(came.out), status, [(f.holds, os.fsencode(f.name)) for f in files])
            except (Wrong, ValueError) as e:
                differs(args, 'standard output', 'what the document says', str(e))
                continue
            if parts == [None]:
                parts = got
                check_says(args, files[0], got[0])
            elif None not in parts and got != parts:
                differs(args, 'records', parts, got)
    return parts


def check_says(args, f, part):
    """The records of a file by itself against the table, and kept for calls of several."""
    if said(part) != f.says:
        differs(args, 'runs', f.says, said(part))
    if any(r['kind'] == 'fault' for r in part) != bool(f.fault):
        differs(args, 'a record of the fault', bool(f.fault), not f.fault)
    trial.kept[key(f)] = part


def check_sheet(args, out, files, parts):
    """The sheet for a person says what the records say, and has nothing for a machine."""
    if None not in parts:
        sheet = b''.join((b'File ' + os.fsencode(f.name) + b'\n' if len(files) > 1 else b'') + sheet_of(part) for f, part in zip(files, parts))
        if out != sheet:
            differs(args, 'standard output', sheet, out)
    if len(files) == 1 and any(line.startswith(b'#') or b'\t' in line and not line.startswith(b'time ') for line in out.split(b'\n')):
        differs(args, 'standard output', 'no number sign before a line, no tab but in rows', out)


# ---- a terminal

def on_terminal(args, both=False):
    """A call with standard error on a terminal, or standard output as well: status, standard output, what the terminal got, seconds."""
    trial.calls += 1
    ours, theirs = pty.openpty()
    began = time.time()
    p = subprocess.Popen(trial.command + args, cwd=trial.folder, stdin=subprocess.DEVNULL, stdout=theirs if both else subprocess.PIPE, stderr=theirs)
    os.close(theirs)
    got = {ours: b''} if both else {ours: b'', p.stdout.fileno(): b''}
    ends = set(got)
    while ends:
        ready = select.select(list(ends), [], [], 100)[0]
        if not ready:
            differs(args, 'time', 'an end', 'nothing in 100 s')
            p.kill()
            break
        for end in ready:
            try:
                b = os.read(end, 65536)
            except OSError:  # the last writer to the terminal is gone
                b = b''
            got[end] += b
            if not b:
                ends.discard(end)
    p.wait()
    took = time.time() - began
    out = b'' if both else got[p.stdout.fileno()]
    os.close(ours)
    if not both:
        p.stdout.close()
    return p.returncode, out, got[ours], took


def screen(b):
    """The lines that stand on a terminal in the end."""
    lines, x = [''], 0
    for part in re.findall(r'\x1b\[[0-9;?]*[A-Za-z]|[\s\S]', b.decode('utf-8', 'replace')):
        if part == '\n':
            lines.append('')
            x = 0
        elif part == '\r':
            x = 0
        elif part == '\b':
            x = max(x - 1, 0)
        elif part in ('\x1b[K', '\x1b[0K'):
            lines[-1] = lines[-1][:x]
        elif part == '\x1b[2K':
            lines[-1] = ''
        elif part[0] != '\x1b':
            lines[-1] = lines[-1].ljust(x)[:x] + part + lines[-1][x + 1:]
            x += 1
    return [line.rstrip() for line in lines]
