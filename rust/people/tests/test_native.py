"""Compares rust/people with the functions in Python, on random and hostile answers."""

import unicodedata
import unittest
from typing import Callable, List, NamedTuple, Sequence

from lldpa.agent.show import ShowFault, read_show, unescaped
from lldpa.texts import is_shown, wrapped
from made_answers import Made
from people import Answers, Question, asked, is_made
from texts_shown import readable, shown_text, width_of

SEEDS = range(200)


class Wanted(NamedTuple):
    """A question, and what the functions in Python say about it."""
    question: Question
    answer: str


def by_python(words: str, answers: Answers, says: Callable[[], Sequence[str]]) -> Wanted:
    question = Question(words, answers)
    try:
        lines = says()
    except (ShowFault, ValueError) as fault:
        return Wanted(question, f"fault: {fault}\n")
    return Wanted(question, "".join(f"{line}\n" for line in [f"={len(lines)}", *lines]))


def readings(seed: int, spoils: bool) -> List[Wanted]:
    """Returns readings of random answers, of which one line may be spoiled."""
    made = Made(seed)
    answers = made.shows()
    if spoils:
        answers = [made.spoiled(answer) for answer in answers]
    whole = [line for answer in answers for line in answer]
    return [by_python("read", [answer], lambda lines=answer: read(lines))
            for answer in (*answers, whole)]


def read(lines: Sequence[str]) -> List[str]:
    """Reads an answer, and returns the names of its ports."""
    show = read_show(lines)
    return list(dict.fromkeys([*(port.name for port in show.ports), *show.counters]))


def is_compared(letter: str) -> bool:
    """Returns whether Rust and Python must agree: not on what may get a meaning, and not on marks
    with a width of their own, some of which Rust takes for marks without one."""
    is_unassigned = unicodedata.category(letter) == "Cn" and ord(letter) & 0xFFFE != 0xFFFE
    return not is_unassigned and unicodedata.category(letter) != "Mc"


def is_of_newer_unicode(letter: str, line: str) -> bool:
    """Returns whether another version of Unicode may be why a letter is escaped, or has another
    width: it is newer than 3.2, and Rust shows nothing that Python hides."""
    is_newer = unicodedata.ucd_3_2_0.category(letter) == "Cn"
    return is_newer and (is_shown(letter) or line.startswith("a\\x"))


def cut(text: str, width: int) -> str:
    """Returns the text, or its beginning and an ellipsis if it is wider than `width`."""
    if width_of(text) <= width:
        return text
    ends = (end for end in range(len(text), -1, -1) if width_of(text[:end]) < max(width, 1))
    return text[:next(ends)] + "…"


@is_made
class Native(unittest.TestCase):
    maxDiff = 3000

    def compare(self, all_wanted: Sequence[Wanted]) -> None:
        told = asked([one.question for one in all_wanted])
        self.assertEqual(len(told), len(all_wanted))
        for wanted, answer in zip(all_wanted, told):
            self.assertEqual(answer, wanted.answer, wanted.question)

    def test_random_answers(self) -> None:
        self.compare([one for seed in SEEDS for one in readings(seed, False)])

    def test_spoiled_answers(self) -> None:
        self.compare([one for seed in SEEDS for one in readings(seed, True)])

    def test_every_character(self) -> None:
        numbers = (*range(0xD800), *range(0xE000, 0x30000), *range(0xE0000, 0xE0200), 0x10FFFF)
        letters = [letter for letter in map(chr, numbers) if is_compared(letter)]
        shown = [shown_text(f"a{letter}b".encode()) for letter in letters]
        question, wanted = self.texts(3, shown)
        told, = asked([question])
        odd = [f"{letter!a}: {line}, not {text}" for letter, line, text
               in zip(letters, told.splitlines()[1:], wanted.splitlines()[1:])
               if line != text and not is_of_newer_unicode(letter, line)]
        self.assertEqual((odd, len(told.splitlines())), ([], 1 + len(letters)))
        self.assertGreater(len({readable(text) for text in shown}), 130_000)

    def texts(self, width: int, shown: Sequence[str]) -> Wanted:
        lines = []
        for text in map(readable, shown):
            pieces = "|".join(wrapped(text, max(width, 1)))
            lines.append(f"{text}|{width_of(text)}|{cut(text, width)}|{pieces}")
        return by_python(f"texts {width}", [shown], lambda: lines)

    def test_random_texts(self) -> None:
        for seed in SEEDS:
            made = Made(seed)
            shown = [made.text() for _ in range(20)]
            shown += [made.text().replace("x", "X") for _ in range(5)]
            letters = [unescaped(text).decode(errors="surrogateescape") for text in shown]
            known = [text for text, said in zip(shown, letters) if all(map(is_compared, said))]
            self.compare([self.texts(made.random.randrange(12), known)])


if __name__ == "__main__":
    unittest.main()
