#!/usr/bin/env python3
"""Writes tests/steps/texts.tsv: texts for `steps`, with the answers of the Rust original.

    scripts/steps_texts.py ORACLE-STEPS JOURNALS > tests/steps/texts.tsv

ORACLE-STEPS answers as `steps` does; JOURNALS is a folder of journals, as the oracle's `gen-journals SEED COUNT steps JOURNALS` writes.
The texts are those of tests/recover/texts.tsv and these journals. A line is a name, the text and the answer, separated by tabs, text and
answer escaped for `printf %b` (`\\c` for the empty text).
"""
import os, subprocess, sys
from texts import escaped, plain


def texts():
    here = os.path.dirname(os.path.abspath(__file__))
    with open(os.path.join(here, '..', 'tests', 'recover', 'texts.tsv')) as lines:
        for line in lines:
            name, text, _ = line.rstrip('\n').split('\t')
            assert escaped(plain(text)) == text, name
            yield name, plain(text)
    for name in sorted(os.listdir(sys.argv[2])):
        with open(os.path.join(sys.argv[2], name), 'rb') as file:
            yield name.removesuffix('.txt'), file.read()


def main():
    for name, data in texts():
        answer = subprocess.run([sys.argv[1]], input=data, capture_output=True, check=True).stdout
        print(name, escaped(data), escaped(answer), sep='\t')


if __name__ == '__main__':
    main()
