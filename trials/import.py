"""Makes lines of the export in examples/import and answers them: python3 import.py ZITICTL ZITILINE. It wants jq.

The lines must be those of examples/import/network.lines and the replies those of network.replies; every export that lacks a key must
give fewer lines and no error."""
import json, pathlib, subprocess, sys

FOLDER = pathlib.Path(__file__).resolve().parent.parent / 'examples'
LISTS = ('identities', 'links', 'terminators')


def lines_of(export, lists):
    named = [word for name in LISTS for word in ('--slurpfile', name, str(lists.get(name, '/dev/null')))]
    return subprocess.run(['jq', '-r', '-f', str(FOLDER / 'import.jq'), *named], input=json.dumps(export).encode(),
                          capture_output=True, check=True).stdout


def passed(program, word, given):
    return subprocess.run([program, word], input=given, capture_output=True, check=True).stdout


def main(zitictl, zitiline):
    here = FOLDER / 'import'
    export = json.loads((here / 'export.json').read_text())
    lists = {name: here / f'{name}.json' for name in LISTS}
    lines = lines_of(export, lists)
    assert lines == (here / 'network.lines').read_bytes(), 'other lines'
    replies = passed(zitiline, 'decode', passed(zitictl, 'dry', passed(zitiline, 'encode', lines)))
    assert replies == (here / 'network.replies').read_bytes(), 'other replies'
    for key in export:
        fewer = lines_of({name: value for name, value in export.items() if name != key}, lists)
        assert fewer.count(b'\n') < lines.count(b'\n'), key
    print(f'{len(lines.splitlines())} lines, {len(replies.splitlines())} replies, {len(export)} exports that lack a key')


main(*sys.argv[1:])
