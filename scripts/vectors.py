#!/usr/bin/env python3
"""Writes tests/PROGRAM/vectors.tsv for recover, steps, batch and checks: a fixed sample of generated inputs with the answers of the Rust
original.

    scripts/vectors.py ORACLE

ORACLE is the folder of the oracle's built programs. Its gen-journals makes POOL inputs of each kind from SEED, and document 01's cases.
Kept are the cases, the first FIRST of each kind, the first long ones, and, the shortest first, each input with a refusal number that
stands in the program's answers to fewer than OFTEN of those kept so far. A line is a name, the input and the answer, as in texts.tsv. No
clock and no other seed comes in: the same oracle writes the same files.
"""
import collections, glob, os, re, subprocess, sys, tempfile
from texts import escaped

SEED, POOL, FIRST, OFTEN, LONG = 11, 3000, 8, 3, 1
KINDS = {
    'recover': ['cases', 'long', 'healthy', 'edges', 'damaged'],
    'steps': ['cases', 'long', 'healthy', 'edges', 'damaged', 'steps'],
    'batch': ['batches'],
}


def generate(oracle, kind, folder):
    """The inputs of a kind, by name."""
    seed, count = (0, 0) if kind == 'cases' else (SEED, {'long': LONG, 'checks': 1}.get(kind, POOL))
    path = os.path.join(folder, kind)
    if not os.path.exists(path):
        subprocess.run([f'{oracle}/gen-journals', str(seed), str(count), kind, path], stdout=subprocess.DEVNULL, check=True)
    return {os.path.basename(f)[:-4]: open(f, 'rb').read() for f in sorted(glob.glob(f'{path}/*.txt'))}


def numbers(answer):
    """The refusal numbers of an answer: the last word of each line with `refused`."""
    return [int(n) for n in re.findall(rb'(?m)^.*\brefused\b.* (\d+)$', answer)]


def chosen(oracle, program, folder):
    ask = lambda text: subprocess.run([f'{oracle}/oracle-{program}'], input=text, capture_output=True, check=True).stdout
    kept, seen = {}, collections.Counter()

    def keep(name, text, answer):
        kept[name] = (text, answer)
        seen.update(set(numbers(answer)))

    rest = []
    for kind in KINDS[program]:
        inputs = list(generate(oracle, kind, folder).items())
        few = len(inputs) if kind in ('cases', 'long') else FIRST
        for name, text in inputs[:few]:
            keep(name, text, ask(text))
        rest += inputs[few:]
    for name, text in sorted(rest, key=lambda item: (len(item[1]), item[0])):
        answer = ask(text)
        if any(seen[n] < OFTEN for n in numbers(answer)):
            keep(name, text, answer)
    return kept


def questions(oracle, folder):
    """One file of `checks`, its questions by their first word."""
    (text,) = generate(oracle, 'checks', folder).values()
    words = collections.defaultdict(list)
    for line in text.splitlines(keepends=True):
        words[line.split()[0].decode()].append(line)
    ask = lambda text: subprocess.run([f'{oracle}/oracle-checks'], input=text, capture_output=True, check=True).stdout
    return {word: (b''.join(lines), ask(b''.join(lines))) for word, lines in words.items()}


def main():
    oracle = sys.argv[1]
    with tempfile.TemporaryDirectory() as folder:
        for program in [*KINDS, 'checks']:
            kept = questions(oracle, folder) if program == 'checks' else chosen(oracle, program, folder)
            os.makedirs(f'tests/{program}', exist_ok=True)
            with open(f'tests/{program}/vectors.tsv', 'w') as out:
                for name in sorted(kept):
                    print(name, *map(escaped, kept[name]), sep='\t', file=out)
            seen = collections.Counter(n for _, answer in kept.values() for n in numbers(answer))
            print(f'{program}: {len(kept)} inputs;', ', '.join(f'{n}: {seen[n]}' for n in sorted(seen)))


if __name__ == '__main__':
    main()
