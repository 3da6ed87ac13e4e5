#!/usr/bin/env python3
"""Breaks the paragraphs of Markdown files in which a line is too long. Tables, headings, code and marks stay as they are.

    python3 docs/flow.py FILE..
"""
import re
import sys

WIDTH = 118
ITEM = re.compile(r'( *)((?:[-*+]|\d+\.) )?')
TOO_EARLY = re.compile(r'(?:[-+*] |\d+\. |#+ |>|\|)')


def stays(line):
    return not line.strip() or line.lstrip().startswith('```') or line.startswith(('|', '#', '<!--'))


def words_of(text):
    """The words of a text; code between backticks and the text of a link are one word each."""
    words, word, in_code, brackets = [], '', False, 0
    for char in text:
        in_code ^= char == '`'
        if not in_code:
            brackets = max(0, brackets + (char == '[') - (char == ']'))
        if char == ' ' and not in_code and not brackets:
            words.append(word)
            word = ''
        else:
            word += char
    return [w for w in words + [word] if w]


def flowed(first, rest, text):
    """The lines of a paragraph: what the first one begins with, and what each other one does. None becomes an item of a list."""
    lines, line, empty = [], first, True
    for word in words_of(text):
        if not empty and len(line) + 1 + len(word) > WIDTH:
            if TOO_EARLY.match(word + ' ') and ' ' in line[len(rest):]:
                line, _, last = line.rpartition(' ')
                word = f'{last} {word}'
            lines.append(line)
            line = rest + word
        else:
            line += ('' if empty else ' ') + word
        empty = False
    return lines + [line]


def paragraph_end(lines, begin, is_item):
    end = begin + 1
    while end < len(lines) and not stays(lines[end]) and not ITEM.match(lines[end])[2]:
        if is_item and not lines[end].startswith(' '):
            break
        end += 1
    return end


def flow(path):
    with open(path, encoding='utf-8') as file:
        lines = file.read().split('\n')
    out, at, in_code = [], 0, False
    while at < len(lines):
        line = lines[at]
        in_code ^= line.lstrip().startswith('```')
        if in_code or stays(line):
            out.append(line)
            at += 1
            continue
        quote = '> ' if line.startswith('> ') else ''
        item = ITEM.match(line)
        end = paragraph_end(lines, at, bool(item[2]))
        block = lines[at:end]
        if any(len(found) > WIDTH + 2 for found in block):
            text = ' '.join(found[len(quote):].strip() for found in block)
            begin = quote or item[0]
            block = flowed(begin, quote or ' ' * len(item[0]), text[len(item[2] or ''):])
        out += block
        at = end
    with open(path, 'w', encoding='utf-8') as file:
        file.write('\n'.join(out))


for name in sys.argv[1:]:
    flow(name)
