"""Counts what one run asks of the system on its folder: python3 calls.py PROGRAM. It wants strace, and runs in a folder of its own.

A run of some commands under replay, a compaction, one more run and a look. Each write of a file of the folder must be followed by its fsync
before any other call, each reply must come behind one, the folder itself must be synced behind each file that is made or opened for writing,
and the look must change nothing. The one cut, of the slot that stood, comes behind the fsync of the mark and is the last call: it needs none.

Then runs on a folder of the first format, with words that migrate it and words that look at it. Their writes and cuts must be those of the independent
model, in its order and of its sizes; behind the cut of a migration other calls come, but none on that file before the next migration or compaction."""
import collections, os, re, subprocess, sys, tempfile
import model_folder as folders
from frames import frame

FILES = ('ziti.0', 'ziti.1', 'ziti.mark')
CALL = re.compile(r'^(?:\d+ +)?(\w+)\((.*)\) += (-?\d+)')


def run(program, words, given):
    trace = tempfile.NamedTemporaryFile(mode='r', suffix='.strace')
    wanted = 'trace=openat,open,close,write,pwrite64,fsync,fdatasync,ftruncate'
    done = subprocess.run(['strace', '-f', '-e', wanted, '-o', trace.name, program, *words], input=given, capture_output=True)
    calls, names = [], {}
    for line in trace:
        found = CALL.match(line)
        if not found:
            continue
        name, args, value = found.group(1), found.group(2), int(found.group(3))
        if name in ('open', 'openat'):
            path = re.search(r'"([^"]*)"', args).group(1)
            if value >= 0:
                names[value] = path
            if path in FILES or path == '.':
                calls.append(('makes' if 'O_CREAT' in args else 'opens' if 'O_RDWR' in args else 'looks', path, value))
            continue
        number = int(re.match(r'\d+', args).group(0))
        target = {1: 'replies', 2: 'notes'}.get(number, names.get(number))
        if name == 'close':
            names.pop(number, None)
        elif target in FILES + ('.', 'replies', 'notes'):
            calls.append((name, target, value))
    return done, calls


def judge(calls, look, goes_on=False):
    changed = made = None
    synced = look
    last = None
    for name, target, value in calls:
        if changed:
            assert (name, target) == ('fsync', changed), (changed, name, target)
        changed = target if target in FILES and name in ('write', 'pwrite64') else None
        assert last != 'ftruncate' or goes_on, ('a call behind the cut', name, target)
        assert name != 'ftruncate' or last == ('fsync', 'ziti.mark'), (last, name, target)
        last = name if name == 'ftruncate' else (name, target)
        if made and name != 'looks':
            assert (name, target) == ('fsync', '.'), (made, name, target)
            made = None
        if name in ('makes', 'opens') and value >= 0:
            made = target
        if name == 'fsync' and target in FILES:
            synced = True
        if target == 'replies':
            assert synced, 'a reply without a sync'
            synced = look
        if look:
            assert name == 'looks' and target != '.' or target == 'replies', (name, target)
    assert not changed and not made


def show(words, calls):
    counts = collections.Counter(f'{name} {target}' for name, target, _ in calls)
    print(' '.join(words) + ': ' + ', '.join(f'{counts[key]} {key}' for key in sorted(counts)))


def changes(calls):
    """The writes and cuts of the three files in their order, with the bytes that were written."""
    return [(target, None if name == 'ftruncate' else value) for name, target, value in calls if target in FILES and name in ('write', 'pwrite64', 'ftruncate')]


def migrate(program, words, files, given):
    """Runs some words on a folder of the first format, and compares what it changes with the model's changes."""
    for name in FILES:
        if os.path.exists(name):
            os.remove(name)
    for name, data in files.items():
        with open(name, 'wb') as file:
            file.write(data)
    done, calls = run(program, words, given)
    wanted = folders.Run(' '.join(words), files, given)
    assert (done.returncode, done.stdout) == (wanted.status, wanted.said), (done, wanted.status, wanted.said)
    judge(calls, wanted.kept is None, True)
    model = [(name, data and len(data)) for name, _, data in wanted.kept.calls] if wanted.kept else []
    assert changes(calls) == model, (words, changes(calls), model)
    show(words + ['of the first format'], calls)


def main(program):
    program = os.path.abspath(program)
    os.chdir(tempfile.mkdtemp())
    first = b''.join(frame(1000, b'{"name":"i%d"}' % n) for n in range(10))
    for words, given in ((['replay'], first), (['compact'], b''), (['replay'], frame(1000, b'{"name":"late"}')), (['audit'], b'')):
        done, calls = run(program, words, given)
        assert done.returncode == 0, done
        judge(calls, words == ['audit'])
        show(words, calls)
    kept = folders.Kept({}, 1)
    for n in range(3):
        kept.answer(1000, b'{"name":"i%d"}' % n)
    late = frame(1000, b'{"name":"late"}') + frame(1510, b'{}') + frame(1000, b'{"name":"later"}')
    for words in (['replay'], ['compact'], ['audit'], ['advise', 'i1', 'web'], ['ship', '0']):
        migrate(program, words, kept.files, late if words == ['replay'] else b'')


main(sys.argv[1])
