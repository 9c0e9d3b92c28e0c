#!/usr/bin/env python3
"""Writes tests/recover/texts.tsv: texts for `recover`, with the answers of the Rust original.

    scripts/texts.py ORACLE-RECOVER CASES > tests/recover/texts.tsv

ORACLE-RECOVER answers as document 01's `recover`; CASES is the folder that the oracle's `gen-journals 0 0 cases` wrote. A line is
a name, the text and the answer, separated by tabs, text and answer escaped for `printf %b` (`\\c` for the empty text). The long texts
of tests/recover/long.sh are made there; here they get their answers, in tests/recover/long.tsv.
"""
import os, re, subprocess, sys

# The original's answers follow those requests of document 02 that change one (scripts/requests.txt).
os.environ['REQUESTS'] = open(os.path.join(os.path.dirname(os.path.abspath(__file__)), 'requests.txt')).read()

SUM = '00000000000000010000000000000002000000000000000300000000000000ff'
ENTRY = 'E 5 1 1 1 1 1 N 1'.split()
CHANGE = 'E 5 1 1 1 1 1 A 1 2'.split()
HARD = 'H 5 1 1 1 1 3 0'.split()
POINTER = f'P 5 1 1 1 7 5 2 5 9 3 {SUM}'.split()
FOREIGN = 'F 5'.split()
PAST = str(2**64)


def journal(records, commands=('41',), more=''):
    lines = [f'commands {len(commands)}', *commands, f'records {len(records)}', *records]
    return '\n'.join(lines) + '\n' + more


def faults(name, line, text, cased):
    """A line's fields as they are, one more, the first in the other case (called `cased`), and each left out, emptied, spoilt, past its
    range, with leading zeros or signed."""
    yield f'{name}-whole', text(line)
    yield f'{name}-one-more', text(line + ['1'])
    yield f'{name}-{cased}', text([line[0].swapcase()] + line[1:])
    for i in range(len(line)):
        yield f'{name}-without-{i}', text(line[:i] + line[i + 1:])
        yield f'{name}-empty-{i}', text(line[:i] + [''] + line[i + 1:])
        yield f'{name}-spoilt-{i}', text(line[:i] + [line[i] + 'x'] + line[i + 1:])
        if line[i].isdigit() and len(line[i]) < 64:
            yield f'{name}-past-range-{i}', text(line[:i] + [PAST] + line[i + 1:])
            yield f'{name}-leading-zeros-{i}', text(line[:i] + ['000' + line[i]] + line[i + 1:])
            yield f'{name}-signed-{i}', text(line[:i] + ['+' + line[i]] + line[i + 1:])


def each_field():
    """Each line, its fields spoilt one by one."""
    for name, line in ('entry', ENTRY), ('change', CHANGE), ('hard', HARD), ('pointer', POINTER), ('foreign', FOREIGN):
        yield from faults(name, line, lambda fields: journal([' '.join(fields)]), 'small-letter')


def ranges():
    top = str(2**64 - 1)
    yield 'lsn-at-its-end', journal([f'F {top}'])
    yield 'version-at-its-end', journal(['E 5 4294967295 1 1 1 1 N 1'])
    yield 'version-past-its-end', journal(['E 5 4294967296 1 1 1 1 N 1'])
    yield 'hard-version-past-its-end', journal(['H 5 4294967296 1 1 1 - 0'])
    yield 'pointer-version-past-its-end', journal([f'P 5 4294967296 1 1 7 5 2 5 9 3 {SUM}'])
    yield 'configuration-version-at-its-end', journal([f'E 5 1 1 1 1 1 R {top} 2'])
    yield 'configuration-version-past-its-end', journal([f'E 5 1 1 1 1 1 R {PAST} 2'])
    yield 'group-and-replica-at-their-end', journal([f'E 5 1 {top} {top} 1 1 N 1'])
    yield 'twenty-one-digits', journal(['F 100000000000000000000'])
    yield 'minus', journal(['F -5'])
    yield 'two-dashes', journal(['H 5 1 1 1 1 -- 0'])
    yield 'vote-empty', journal(['H 5 1 1 1 1  0'])
    yield 'commands-256', journal([], ['41'] * 256)
    yield 'commands-257', journal([], ['41'] * 257)
    yield 'records-4096-missing', 'commands 0\nrecords 4096\n'
    yield 'records-4097', 'commands 0\nrecords 4097\n' + ''.join(f'F {n}\n' for n in range(3))
    yield 'command-number-0', journal(['E 5 1 1 1 1 1 N 0'])
    yield 'command-number-last', journal(['E 5 1 1 1 1 1 N 2'], ['41', '42'])
    yield 'command-number-not-given', journal(['E 5 1 1 1 1 1 N 3'], ['41', '42'])
    yield 'command-number-none-given', journal(['E 5 1 1 1 1 1 N 1'], [])
    yield 'command-number-past-range', journal([f'E 5 1 1 1 1 1 N {PAST}'])


def shapes():
    good = journal(['F 5'])
    yield 'empty', ''
    yield 'one-newline', '\n'
    yield 'one-byte', 'c'
    yield 'one-nul', '\0'
    yield 'one-space', ' '
    yield 'nothing-asked', 'commands 0\nrecords 0\n'
    yield 'no-last-newline', good[:-1]
    yield 'two-last-newlines', good + '\n'
    yield 'a-line-too-many', good + 'F 6\n'
    yield 'a-line-too-many-without-newline', good + 'F 6'
    yield 'a-space-too-many', good + ' '
    yield 'garbage-behind', good + 'x\0y\n'
    yield 'a-record-missing', 'commands 0\nrecords 2\nF 5\n'
    yield 'a-record-missing-without-newline', 'commands 0\nrecords 2\nF 5'
    yield 'all-records-missing', 'commands 0\nrecords 1\n'
    yield 'records-line-missing', 'commands 0\n'
    yield 'a-command-missing', 'commands 2\n41\nrecords 0\n'
    yield 'commands-cut', 'comm'
    yield 'commands-without-number', 'commands\n'
    yield 'commands-with-space', 'commands \n'
    yield 'commands-with-two-spaces', 'commands  0\nrecords 0\n'
    yield 'commands-space-behind', 'commands 0 \nrecords 0\n'
    yield 'commands-space-before', ' commands 0\nrecords 0\n'
    yield 'commands-two-numbers', 'commands 0 0\nrecords 0\n'
    yield 'commands-other-word', 'command 0\nrecords 0\n'
    yield 'commands-longer-word', 'commandss 0\nrecords 0\n'
    yield 'commands-capital', 'Commands 0\nrecords 0\n'
    yield 'commands-tab', 'commands\t0\nrecords 0\n'
    yield 'commands-sign', 'commands +0\nrecords 0\n'
    yield 'commands-hex', 'commands 0x1\n41\nrecords 0\n'
    yield 'commands-zeros', 'commands 0001\n41\nrecords 0\n'
    yield 'commands-carriage-return', 'commands 0\r\nrecords 0\r\n'
    yield 'commands-past-range', f'commands {PAST}\nrecords 0\n'
    yield 'records-first', 'records 0\ncommands 0\n'
    yield 'records-other-word', 'commands 0\nrecord 0\n'
    yield 'records-longer-word', 'commands 0\nrecordss 0\n'
    yield 'records-empty-line', 'commands 0\n\nrecords 0\n'
    yield 'records-carriage-return', 'commands 0\nrecords 0\r\n'
    yield 'records-past-range', f'commands 0\nrecords {PAST}\n'
    yield 'records-without-number', 'commands 0\nrecords\n'
    yield 'command-empty', journal(['E 5 1 1 1 1 1 N 1'], [''])
    yield 'command-65-bytes', journal([], ['ab' * 65])
    yield 'command-66-bytes', journal([], ['ab' * 66])
    yield 'command-131-digits', journal([], ['a' * 131])
    yield 'command-odd', journal([], ['414'])
    yield 'command-one-digit', journal([], ['4'])
    yield 'command-capital', journal(['E 5 1 1 1 1 1 N 1', 'E 6 1 1 1 1 1 N 2'], ['ABCDEF', 'abcdef'])
    yield 'command-other-letter', journal([], ['4g'])
    yield 'command-space', journal([], ['41 42'])
    yield 'command-space-behind', journal([], ['41 '])
    yield 'command-carriage-return', journal([], ['41\r'])
    yield 'command-nul', journal([], ['4\0'])
    yield 'command-dash', journal([], ['-'])
    yield 'second-command-bad', journal([], ['41', 'zz'])
    yield 'record-empty-line', journal([''])
    yield 'record-empty-line-between', journal(['F 5', '', 'F 6'])
    yield 'record-carriage-return', journal(['F 5\r'])
    yield 'record-nul', journal(['F 5\0'])
    yield 'record-space-before', journal([' F 5'])
    yield 'record-space-behind', journal(['F 5 '])
    yield 'record-two-spaces', journal(['F  5'])
    yield 'record-tab', journal(['F\t5'])
    yield 'record-other-letter', journal(['G 5'])
    yield 'record-word', journal(['FF 5'])
    yield 'record-kind-of-entry', journal(['E 5 1 1 1 1 1 X 1'])
    yield 'record-change-of-normal', journal(['E 5 1 1 1 1 1 N 1 2'])
    yield 'record-normal-of-change', journal(['E 5 1 1 1 1 1 A 1'])
    yield 'checksum-63', journal([' '.join(POINTER[:-1] + [SUM[1:]])])
    yield 'checksum-65', journal([' '.join(POINTER[:-1] + ['0' + SUM])])
    yield 'checksum-capital', journal([' '.join(POINTER[:-1] + [SUM.upper()])])
    yield 'checksum-capital-again', journal([' '.join(POINTER), 'P 6 ' + ' '.join(POINTER[2:-1] + [SUM.upper()])])
    yield 'checksum-other-letter', journal([' '.join(POINTER[:-1] + [SUM[:-1] + 'g'])])
    yield 'checksum-twice', journal([' '.join(POINTER + [SUM])])
    yield 'high-bytes', journal(['F \xb5'])
    refused = [f'F {n}' for n in range(1, 7)] + ['F 6', 'F 8', 'broken', 'F 9']
    yield 'malformed-behind-refused', journal(refused)
    yield 'malformed-before-refused', journal(['F 1', 'broken', 'F 1'])
    yield 'too-many-behind-refused', journal(['F 5', 'F 5'], more='F 6\n')
    yield 'missing-behind-refused', 'commands 0\nrecords 5\nF 5\nF 5\n'


def refusals():
    """A journal for each number that an observation can answer, but 1."""
    def entry(lsn, index, term, command=1):
        return f'E {lsn} 1 1 1 {index} {term} N {command}'
    def hard(lsn, term, vote, commit):
        return f'H {lsn} 1 1 1 {term} {vote} {commit}'
    def point(lsn, index, term, size=9, applied=None, ident=7):
        return f'P {lsn} 1 1 1 {ident} {index} {term} {index if applied is None else applied} {size} 3 {SUM}'
    bad = lambda line, i, value: ' '.join(x if k != i else value for k, x in enumerate(line.split()))
    change = 'E 1 1 1 1 1 1 A 1 2'
    five = [entry(n, n, 2) for n in range(1, 6)]
    yield 2, ['F 5', 'F 5']
    yield 3, [bad(change, 9, '0')]
    yield 4, [bad(change, 8, '0')]
    for number, field, value in (5, 2, '2'), (6, 3, '0'), (7, 4, '0'), (8, 5, '0'), (9, 6, '0'):
        yield number, [bad(entry(1, 1, 1), field, value)]
    yield 10, [entry(1, 1, 1, 3)]
    for number, field, value in (11, 3, '0'), (12, 4, '0'), (13, 6, '0'), (14, 2, '0'), (15, 5, '0'):
        yield number, [bad(hard(1, 1, 3, 0), field, value)]
    for number, field, value in (16, 3, '0'), (17, 4, '0'), (18, 2, '3'), (19, 5, '0'), (20, 7, '0'), (21, 8, '4'), (22, 9, '0'):
        yield number, [bad(point(1, 5, 2), field, value)]
    yield 23, [f'E {n} 1 {n} 1 1 1 N 1' for n in range(1, 10)]
    yield 24, [point(1, 5, 2), entry(2, 5, 2)]
    yield 26, [entry(1, 1, 1, 1), entry(2, 1, 1, 2)]
    yield 27, [entry(1, 1, 1), entry(2, 2, 1), hard(3, 1, '-', 1), entry(4, 1, 2)]
    yield 28, [entry(1, 2, 1)]
    yield 30, [entry(1, 1, 1), entry(2, 3, 1)]
    yield 31, [point(1, 5, 2), entry(2, 6, 1)]
    yield 32, [entry(n, n, 1) for n in range(1, 66)]
    yield 33, [hard(1, 2, '-', 0), hard(2, 1, '-', 0)]
    yield 34, [entry(1, 1, 1), hard(2, 1, '-', 1), hard(3, 1, '-', 0)]
    yield 35, [hard(1, 1, 3, 0), hard(2, 1, 4, 0)]
    yield 36, [hard(1, 1, 3, 0), hard(2, 1, '-', 0)]
    yield 37, [hard(1, 1, '-', 1)]
    yield 38, [*five, hard(6, 1, '-', 5), point(7, 3, 2), hard(8, 2, '-', 4)]
    yield 39, [point(1, 5, 2), point(2, 4, 2)]
    yield 40, [point(1, 5, 2), point(2, 5, 2, size=10)]
    yield 41, [point(1, 5, 2), point(2, 6, 1)]
    yield 42, [*five, point(6, 3, 1)]


def escaped(data):
    out = ''
    for byte in data:
        if byte == 10:
            out += '\\n'
        elif byte == 92 or byte < 32 or byte > 126:
            out += f'\\0{byte:03o}'
        else:
            out += chr(byte)
    return out or '\\c'


def plain(text):
    """The bytes that were escaped."""
    return b'' if text == '\\c' else re.sub(r'\\(n|0[0-7]{3})', lambda m: '\n' if m[1] == 'n' else chr(int(m[1], 8)), text).encode('latin-1')


def main():
    oracle, cases = sys.argv[1], sys.argv[2]
    texts = [(f'case-{f}', open(os.path.join(cases, f), 'rb').read()) for f in sorted(os.listdir(cases)) if not f.endswith('.expected')]
    for part in each_field, ranges, shapes:
        texts += [(name, text.encode('latin-1')) for name, text in part()]
    texts += [(f'refused-{n}', journal(records, ('41', '42', '43' * 65)).encode()) for n, records in refusals()]
    for name, text in texts:
        answer = subprocess.run([oracle], input=text, capture_output=True, check=True).stdout
        if name.startswith('refused-'):
            assert answer.split()[0] == b'refused' and answer.split()[2].decode() == name[8:], (name, answer)
        print(name, escaped(text), escaped(answer), sep='\t')
    with open('tests/recover/long.tsv', 'w') as out:
        for name in subprocess.run(['bash', 'tests/recover/long.sh'], capture_output=True, check=True, text=True).stdout.split():
            text = subprocess.run(['bash', 'tests/recover/long.sh', name], capture_output=True, check=True).stdout
            answer = subprocess.run([oracle], input=text, capture_output=True, check=True).stdout
            print(name, escaped(answer), sep='\t', file=out)


if __name__ == '__main__':
    main()
