#!/usr/bin/env python3
"""Brings this repository's own definitions and lemmas to snake case, and its must-fail edits to the spelling of the files that they
change. Run once, at the top, after the kit's port.py; the names stand in port_names.txt beside it, an old and a new one a line."""
import glob
import os
import re

here = os.path.dirname(os.path.abspath(__file__))
names = dict(line.split() for line in open(os.path.join(here, 'port_names.txt')))
# Fields of records and constructors among them: these are named behind a dot too, where a proof's own steps are not to be touched.
dotted = {'bits-form', 'bytes-form', 'none-torn', 'bytes-given', 'bytes-end', 'closed-use', 'empty-bytes', 'least-met', 'most-met',
          'time-fits', 'value-fits'}
# Words of the older library and names that the kit's script turned, as must-fail edits still spell them.
older = {'answerOf': 'answer_of', 'bitsOf': 'bits_of', 'valueOf': 'value_of', 'numberOf': 'number_of', 'orElse': 'or_else',
         'readOf': 'read_of', 'nextOf': 'next_of', 'pointOf': 'point_of', 'codeOf': 'code_of', 'sumOf': 'sum_of', 'wordOf': 'word_of',
         'lastOf': 'last_of', 'endAt': 'end_at', 'takenOf': 'taken_of', 'inRow': 'in_row', 'rowAt': 'row_at', 'placeOf': 'place_of',
         'saidOf': 'said_of', 'heldOf': 'held_of', 'sliceOf': 'slice_of', 'cutTo': 'cut_to', 'toBits': 'to_bits', 'ofBits': 'of_bits',
         'isNan': 'is_nan', 'getD': 'get_or', 'subℕ': 'sub_ℕ', 'aheadOf': 'ahead_of', 'readFirst': 'read_first', 'ltb': 'nat_lt',
         'leb': 'nat_le', 'bitXor': 'bit_xor', 'leadingZeros': 'count_leading_zeros',
         'trailingZeros': 'count_trailing_zeros'}
word = re.compile(r"[A-Za-zℕℤ][A-Za-z0-9_ℕℤ₀-₉'-]*")


def renamed(text, table, every_dot):
    def turn(m):
        w, before = m.group(0), text[m.start() - 1] if m.start() else ' '
        if w not in table or (before == '.' and not (every_dot or w in dotted or re.search('[a-z][A-Z]', w))):
            return w
        return table[w]
    return word.sub(turn, text)


def turned(line, every_dot):
    """A line of code or of a proof; in its comment only what stands in backticks."""
    at = re.search(r'(^|\s)(--|//)(\s|$)', line)
    code, note = (line[:at.start()], line[at.start():]) if at else (line, '')
    note = re.sub(r'`[^`]*`', lambda m: '`' + renamed(m.group(0)[1:-1], names, True) + '`', note)
    return renamed(code, names, every_dot) + note


def file_turned(path):
    in_folder = '/proofs/' in path and path.split('/proofs/')[1].count('/') > 0
    old = open(path).read()
    new = '\n'.join(turned(line, not in_folder) for line in old.split('\n'))
    if new != old:
        open(path, 'w').write(new)


def edit_text(text):
    """An edit's old or new text, in today's spelling as far as a pattern says it."""
    text = renamed(text, {**names, **older}, True)
    text = re.sub(r'·(\w+)\.specs\.', r'.\1.specs.', text)
    text = re.sub(r'(?<![\w◌])_([-+*/%^<≤≡∷])_(?!\w)', r'◌\1◌', text)
    text = text.replace('⌜ ', '').replace(' ⌝', '')
    text = re.sub(r'\((\w+(?: \.\w+)+)\)', lambda m: m.group(1).replace(' .', '.'), text)
    text = re.sub(r'(?<=[\w)]) \.(?=\w)', '.', text)
    text = re.sub(r'\((?:now )?\((\w+)\.entry\)\)', r'\1.old', text)
    text = re.sub(r'now \((\w+)\.exit\)', r'\1.new', text)
    return text


def edit_turned(path):
    """An edit is turned step by step where its old text, turned, stands once in its file."""
    crate = path.split('/must-fail/')[0]
    lines, texts, file, keep = open(path).read().split('\n'), {}, None, None
    for i, line in enumerate(lines):
        if line.startswith('file: '):
            file = os.path.join(crate, line[6:].strip())
            texts.setdefault(file, open(file).read())
        elif line.startswith('old: ') and file:
            keep = line[5:]
            if texts[file].count(keep) != 1 and texts[file].count(edit_text(keep)) == 1:
                keep = edit_text(keep)
            lines[i] = 'old: ' + keep
        elif line.startswith('new: ') and file:
            new = line[5:] if keep == lines[i - 1][5:] == edit_text(keep) and line[5:] == edit_text(line[5:]) else edit_text(line[5:])
            lines[i] = 'new: ' + new
            if texts[file].count(keep) == 1:
                texts[file] = texts[file].replace(keep, new)
        elif line.startswith('# at: '):
            lines[i] = '# at: ' + ' '.join(names.get(w, w.replace('-', '_') if '.' not in w else w) for w in line[6:].split())
    open(path, 'w').write('\n'.join(lines))


for path in sorted(glob.glob('crates/*/specs/*.antt') + glob.glob('crates/*/proofs/**/*.antt', recursive=True)
                   + glob.glob('crates/*/src/**/*.rt', recursive=True)):
    file_turned(path)
for path in sorted(glob.glob('crates/*/must-fail/*.edit')):
    edit_turned(path)
