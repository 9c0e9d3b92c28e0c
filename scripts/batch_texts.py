#!/usr/bin/env python3
"""Writes tests/batch/texts.tsv: texts for `batch`, with the answers of the Rust original.

    scripts/batch_texts.py ORACLE-BATCH > tests/batch/texts.tsv

ORACLE-BATCH answers as `batch` does. A line is a name, the text and the answer, separated by tabs, text and answer escaped for
`printf %b` (`\\c` for the empty text).
"""
import subprocess, sys
from texts import PAST, SUM, escaped, faults, journal

TOP = str(2**64 - 1)
COMMANDS = ('41', '4242', '43' * 65, '', '41', 'AbCd')
ENTRY = 'E 6 2 N 1'.split()
CHANGE = 'E 6 2 A 1 2'.split()
HARD = 'H 2 3 5'.split()
POINTER = f'P 1 1 1 7 5 2 5 9 3 {SUM}'.split()
SHOW = 'show 6'.split()


def entry(lsn, index, term, command=1):
    return f'E {lsn} 1 1 1 {index} {term} N {command}'


def hard(lsn, term, vote, commit):
    return f'H {lsn} 1 1 1 {term} {vote} {commit}'


def kept(lsn, index, term, size=9):
    return f'P {lsn} 1 1 1 7 {index} {term} {index} {size} 3 {SUM}'


def point(index, term, size=9, applied=None, ident=7, version=1, group=1, replica=1):
    return f'P {version} {group} {replica} {ident} {index} {term} {index if applied is None else applied} {size} 3 {SUM}'


FIVE = [entry(n, n, 2, 1 + n % 2) for n in range(1, 6)]


def ask(lines, records=FIVE, finish='1', whose='1 1', commands=COMMANDS):
    return journal(records, commands, f'finish {finish}\nbatch {whose}\n' + ''.join(line + '\n' for line in lines))


def each_field():
    """Each line with a field left out, emptied, spoilt, signed or past its range, and with one field more."""
    around = (
        ('entry', ENTRY, [], ['H 2 3 5', 'show 6']),
        ('change', CHANGE, [], ['H 2 3 5', 'show 6']),
        ('hard', HARD, [], ['show 3']),
        ('pointer', POINTER, [], ['H 2 3 5']),
        ('show', SHOW, ['E 6 2 N 2'], []),
    )
    for name, line, before, behind in around:
        yield from faults(name, line, lambda fields: ask([*before, ' '.join(fields), *behind]), 'other-case')


def heads():
    good = journal(FIVE, COMMANDS)
    for name, line in (
        ('0', 'finish 0'), ('1', 'finish 1'), ('01', 'finish 01'), ('2', 'finish 2'), ('empty', 'finish '), ('alone', 'finish'),
        ('00', 'finish 00'), ('two', 'finish 1 1'), ('space', 'finish 1 '), ('before', ' finish 1'), ('spaces', 'finish  1'),
        ('capital', 'Finish 1'), ('longer', 'finishs 1'), ('shorter', 'finis 1'), ('return', 'finish 1\r'), ('tab', 'finish\t1'),
        ('sign', 'finish +1'), ('letter', 'finish a'), ('nothing', ''), ('batch', 'batch 1 1'),
    ):
        yield f'finish-{name}', good + line + '\nbatch 1 1\n'
    for name, line in (
        ('plain', 'batch 1 1'), ('zeros', 'batch 001 0001'), ('top', f'batch {TOP} {TOP}'), ('past', f'batch {PAST} 1'),
        ('past-2', f'batch 1 {PAST}'), ('one', 'batch 1'), ('alone', 'batch'), ('three', 'batch 1 1 1'), ('empty', 'batch  1'),
        ('empty-2', 'batch 1 '), ('capital', 'Batch 1 1'), ('longer', 'batchs 1 1'), ('letter', 'batch a 1'), ('sign', 'batch 1 -1'),
        ('return', 'batch 1 1\r'), ('nothing', ''), ('entry', 'E 6 2 N 1'), ('again', 'finish 1'),
    ):
        yield f'batch-{name}', good + 'finish 1\n' + line + '\n'
    yield 'no-finish', good
    yield 'no-batch', good + 'finish 1\n'
    yield 'no-batch-no-newline', good + 'finish 1'
    yield 'no-last-newline', good + 'finish 1\nbatch 1 1\nE 6 2 N 1\nshow 6'
    yield 'batch-no-newline', good + 'finish 1\nbatch 1 1'
    yield 'two-last-newlines', good + 'finish 1\nbatch 1 1\n\n'
    yield 'last-line-a-space', good + 'finish 1\nbatch 1 1\n '
    yield 'last-line-a-nul', good + 'finish 1\nbatch 1 1\n\0'


def journals():
    """Journals that are refused or cannot be read: the batch behind them is not looked at."""
    behind = 'finish 1\nbatch 1 1\nshow 1\n'
    yield 'empty', ''
    yield 'journal-refused', journal(['F 5', 'F 5'], ('41',), behind)
    yield 'journal-refused-28', journal([entry(TOP, 2, 1)], ('41',), behind)
    yield 'journal-refused-behind', journal(['F 5', 'F 5'], ('41',), 'garbage\n')
    yield 'journal-malformed', journal(['F 5', 'G 6'], ('41',), behind)
    yield 'journal-malformed-command', journal([], ('4',), behind)
    yield 'journal-short', 'commands 0\nrecords 2\nF 5\n' + behind
    yield 'journal-no-commands', 'command 0\nrecords 0\n' + behind
    yield 'journal-no-records', 'commands 0\nrecord 0\n' + behind
    yield 'journal-none', 'commands 0\nrecords 0\n' + behind
    yield 'journal-none-entry', 'commands 0\nrecords 0\nfinish 0\nbatch 1 1\nE 1 1 R 1 2\nshow 1\n'
    yield 'journal-foreign', journal(['F 5', 'F 9'], ('41',), behind)


def orders():
    e, h, p, s = 'E 6 2 N 1', 'H 2 - 5', point(5, 2), 'show 6'
    for name, lines in (
        ('nothing', []), ('p-e-h-s', [p, e, h, s]), ('p-h', [p, h]), ('e-h', [e, h]), ('h', [h]), ('s', [s]), ('e-s', [e, s]),
        ('p-p', [p, p, h]), ('e-p', [e, p, h]), ('h-p', [h, p]), ('s-p', [s, p]), ('h-e', [h, e]), ('s-e', [s, e]), ('h-h', [h, h]),
        ('s-h', [s, h]), ('s-s', [s, s]), ('p-e-p', [p, e, p, h]), ('e-h-e', [e, h, e]), ('e-s-h', [e, s, h]), ('h-s-s', [h, s, 'show 5', 'show 4']),
        ('f', ['F 6']), ('empty-between', [e, '', h]), ('finish-again', [e, 'finish 1']), ('batch-again', ['batch 1 1']),
    ):
        yield f'order-{name}', ask(lines)
    one = 'E 6 2 N 1'
    for n in 31, 32, 33, 63, 64, 65, 66:
        yield f'entries-{n}', ask([f'E {6 + i} 2 N 1' for i in range(n)] + ['H 2 - 5', 'show 37', 'show 38'])
    yield 'entries-64-same', ask([one] * 64 + ['show 6'])
    yield 'entries-65-malformed', ask([one] * 64 + ['E x'])
    yield 'entries-64-then-malformed', ask([one] * 64 + ['H x'])
    yield 'entries-33-bad', ask([one] * 32 + ['E 0 0 N 3'])
    yield 'entries-33-number', ask([one] * 32 + ['E 1 1 N 7'])
    yield 'entries-40-show', ask([one] * 40 + ['show 6'])


def commands():
    yield 'number-0', ask(['E 6 2 N 0'])
    yield 'number-last', ask(['E 6 2 N 6', 'show 6'])
    yield 'number-not-given', ask(['E 6 2 N 7'])
    yield 'number-past', ask([f'E 6 2 N {PAST}'])
    yield 'number-none-given', ask(['E 1 1 N 1'], [], commands=())
    yield 'number-least', ask(['E 6 2 N 5', 'show 6'])
    yield 'number-empty', ask(['E 6 2 N 4', 'show 6'])
    yield 'number-zeros', ask(['E 6 2 N 0002', 'show 6'])
    yield 'number-256', ask(['E 1 1 N 256', 'E 2 1 N 255', 'show 1', 'show 2'], [], commands=['%04x' % n for n in range(256)])
    yield 'number-256-least', ask(['E 1 1 N 256'], [], commands=['41'] * 256)
    yield 'number-prefix', ask(['E 1 1 N 3', 'E 2 1 N 2', 'E 3 1 N 1'], [], commands=['41', '4142', '414243'])
    yield 'number-64', ask(['E 1 1 N 2', 'show 1'], [], commands=['ff' * 65, 'ff' * 64])
    yield 'number-capital', ask(['E 1 1 N 2', 'show 1'], [], commands=['abcdef', 'ABCDEF'])
    for kind in 'APR':
        yield f'change-{kind}', ask([f'E 6 2 {kind} {TOP} {TOP}', 'H 2 - 6', 'show 6'])
    yield 'change-other', ask(['E 6 2 B 1 2'])
    yield 'change-word', ask(['E 6 2 AP 1 2'])
    yield 'change-small', ask(['E 6 2 r 1 2'])
    yield 'checksum-capital', ask([point(5, 2)[:-64] + SUM.upper(), 'H 2 - 5'])
    yield 'checksum-letters', ask([point(5, 2)[:-64] + 'fedcba9876543210' * 4, 'H 2 - 5'])
    yield 'checksum-63', ask([point(5, 2)[:-1]])
    yield 'checksum-65', ask([point(5, 2) + '0'])
    yield 'checksum-other', ask([point(5, 2)[:-1] + 'g'])
    yield 'checksum-twice', ask([point(5, 2) + ' ' + SUM])
    yield 'version-top', ask([point(5, 2, version=2**32 - 1), 'H 2 - 5'])
    yield 'version-past', ask([point(5, 2, version=2**32), 'H 2 - 5'])
    yield 'with-lsn', ask(['E 6 1 1 1 6 2 N 1'])
    yield 'hard-with-owner', ask(['H 1 1 1 2 - 5'])
    yield 'pointer-with-lsn', ask([kept(6, 5, 2)])


def shows():
    every = [f'show {n}' for n in range(0, 10)] + [f'show {TOP}']
    yield 'shown-log', ask(every)
    yield 'shown-batch', ask(['E 6 2 N 6', 'E 7 2 A 1 2', 'E 8 3 N 4', 'E 9 3 N 1', 'H 3 - 5', *every])
    yield 'shown-same-again', ask(['E 4 2 N 1', 'E 5 2 N 2', *every])
    yield 'shown-replaced', ask(['E 4 3 N 6', 'H 3 - 4', *every])
    yield 'shown-replaced-by-change', ask(['E 4 3 A 1 2', 'H 3 - 4', *every])
    yield 'shown-replaced-twice', ask(['E 4 3 N 6', 'E 5 3 N 1', 'E 4 4 N 2', 'H 4 - 4', *every])
    yield 'shown-behind-pointer', ask([point(3, 2), 'H 2 - 4', *every])
    yield 'shown-pointer-and-entries', ask([point(3, 2), 'E 6 2 N 6', 'H 2 3 6', *every])
    yield 'shown-pointer-past', ask([point(9, 2), 'E 10 2 N 6', 'H 2 3 9', 'show 9', 'show 10', *every])
    yield 'shown-refused', ask(['E 6 2 N 6', 'H 1 - 0', *every], [*FIVE, hard(6, 2, '-', 2)])
    yield 'shown-other-replica', ask(every, whose='2 1')
    yield 'shown-other-replica-entry', ask(['E 1 1 N 6', *every], whose='2 1')
    yield 'shown-zero-group', ask(every, whose='0 1')
    yield 'shown-change-of-log', ask(every, ['E 1 1 1 1 1 1 P 3 4'])
    yield 'shown-many', ask(['show 5'] * 300)
    yield 'shown-empty-of-log', ask(every, [entry(1, 1, 1, 4)])
    yield 'shown-64-of-log', ask(every, [entry(1, 1, 1, 2)], commands=['00', '7f' * 64])
    two = [*FIVE, 'E 6 1 1 2 1 1 N 2', 'E 7 1 2 1 1 1 N 6', 'H 8 1 1 2 1 4 1']
    for whose in '1 1', '1 2', '2 1', '3 3':
        for finish in '01':
            yield f'minimum-{whose.replace(" ", "-")}-finish-{finish}', ask(['show 1'], two, finish, whose)
    yield 'minimum-pointer', ask([], [*FIVE, hard(6, 2, '-', 4), kept(7, 4, 2)])
    yield 'minimum-pointer-alone', ask([], [kept(7, 4, 2)], '0')
    yield 'minimum-hard-alone', ask([], [hard(9, 2, '-', 0)], '0')
    yield 'minimum-of-zero', ask([], [entry(0, 1, 1)], '0')
    yield 'minimum-of-top', ask([], [entry(TOP, 1, 1)], '0')
    yield 'hard-unfinished', ask(['H 2 - 0'], finish='0')
    yield 'hard-finished', ask(['H 2 - 0'], finish='1')
    yield 'entries-unfinished', ask(['E 6 2 N 1'], finish='0')
    yield 'entries-finished', ask(['E 6 2 N 1'], finish='1')


def refusals():
    """A batch for each number that preparing can answer, but 1."""
    h = 'H 2 - 5'
    yield 6, ask([], whose='0 1')
    yield 7, ask([], whose='1 0')
    yield 43, ask([f'E {6 + i} 2 N 1' for i in range(33)])
    yield 44, ask([point(5, 2)])
    yield 18, ask([point(5, 2, version=2), h])
    yield 16, ask([point(5, 2, group=0), h])
    yield 17, ask([point(5, 2, replica=0), h])
    yield 19, ask([point(5, 2, ident=0), h])
    yield 20, ask([point(5, 0), h])
    yield 21, ask([point(5, 2, applied=4), h])
    yield 22, ask([point(5, 2, size=0), h])
    yield 45, ask([point(5, 2, group=2), h])
    yield 39, ask([point(4, 2), h], [kept(1, 5, 2)])
    yield 40, ask([point(5, 2, size=10), h], [kept(1, 5, 2)])
    yield 46, ask([point(5, 2), h], [*FIVE[:4], entry(TOP, 5, 2)])
    yield 46, ask(['E 6 2 N 1'], [*FIVE[:4], entry(TOP, 5, 2)])
    yield 41, ask([point(6, 1), 'H 2 - 6'], [kept(1, 5, 2)])
    yield 42, ask([point(3, 1), h])
    yield 3, ask(['E 6 2 A 1 0'])
    yield 8, ask(['E 0 2 N 1'])
    yield 9, ask(['E 6 0 N 1'])
    yield 4, ask(['E 6 2 R 0 2'])
    yield 10, ask(['E 6 2 N 3'])
    yield 25, ask(['E 5 2 N 1'], [kept(1, 5, 2)])
    yield 26, ask(['E 5 2 N 1'])
    yield 27, ask(['E 3 3 N 1', 'H 3 - 4'], [*FIVE, hard(6, 2, '-', 4)])
    yield 28, ask(['E 2 1 N 1'], [])
    yield 30, ask(['E 7 2 N 1'])
    yield 31, ask(['E 6 1 N 1'])
    yield 32, ask([f'E {n} 1 N 1' for n in range(61, 66)], [entry(n, n, 1) for n in range(1, 61)])
    yield 13, ask(['H 2 0 5'])
    yield 15, ask(['H 0 - 5'])
    yield 33, ask(['H 1 - 0'])
    yield 34, ask(['H 2 - 2'], [*FIVE, hard(6, 2, '-', 3)])
    yield 35, ask(['H 2 4 3'], [*FIVE, hard(6, 2, 3, 3)])
    yield 36, ask(['H 2 - 3'], [*FIVE, hard(6, 2, 3, 3)])
    yield 47, ask([point(6, 3), 'H 2 - 6'])
    yield 48, ask([point(4, 2), 'H 2 - 3'])
    yield 49, ask(['H 2 - 6'])
    yield 50, ask(['E 6 3 N 1'])
    yield 50, ask(['E 6 3 N 1', 'H 2 - 5'])


def main():
    texts = [pair for part in (each_field, heads, journals, orders, commands, shows) for pair in part()]
    texts += [(f'refused-{number}-{k}', text) for k, (number, text) in enumerate(refusals())]
    assert len(texts) == len({name for name, _ in texts})
    for name, text in texts:
        data = text.encode('latin-1')
        answer = subprocess.run([sys.argv[1]], input=data, capture_output=True, check=True).stdout
        if name.startswith('refused-'):
            assert answer.split()[:2] == [b'refused', name.split('-')[1].encode()], (name, answer)
        print(name, escaped(data), escaped(answer), sep='\t')


if __name__ == '__main__':
    main()
