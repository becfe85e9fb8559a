#!/usr/bin/env python3
"""Draws sentences at random from the pages that people write, for the reader test (docs/gate.md): somebody who has seen no code reads them.

usage: checks/pages/drawn.py [SEED [NUMBER]]

It prints 60 sentences with the file and the line of each, or NUMBER of them. One seed draws the same sentences as long as the pages stay. A sentence has six
words, names of code aside, or more. Headings, blocks of code, the names of columns and the lists of standards that were read are left out.
"""
import random
import re
import sys
from pathlib import Path

sys.dont_write_bytecode = True
sys.path[:0] = [str(Path(__file__).resolve().parent), str(Path(__file__).resolve().parent.parent / "gate.d")]
import pages  # noqa: E402

SEED, NUMBER, WORDS = 2012, 60, 6
# Names of code say nothing to a reader who has seen no code, and are there for those who have. A list of standards is no sentence.
NAMES, STANDARDS = re.compile(r"`[^`]*`"), re.compile(r"Read: ")


def sentences():
    """Each sentence of each page by hand, with its page and its line."""
    for file in pages.all_pages():
        text = pages.text_of(file)
        page = re.sub(r"^#.*$", "", pages.COLUMNS.sub("", pages.by_hand(text)), flags=re.M)
        at = 0
        for sentence in pages.sentences(page):
            found = text.find(sentence, at)
            at = found if found >= 0 else at
            if pages.words_in(NAMES.sub("", sentence)) >= WORDS and not STANDARDS.match(sentence):
                yield pages.name_of(file), text.count("\n", 0, at) + 1, " ".join(sentence.split())


def main(words):
    seed, number = [*map(int, words), SEED, NUMBER][:2] if len(words) != 1 else (int(words[0]), NUMBER)
    every = [*sentences()]
    drawn = sorted(random.Random(seed).sample(every, number))
    print(f"{number} of {len(every):,} sentences, seed {seed}")
    for name, line, sentence in drawn:
        print(f"{name}:{line}: {sentence}")


if __name__ == "__main__":
    main(sys.argv[1:])
