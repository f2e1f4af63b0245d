#!/usr/bin/env python3
"""Writes what the program `batch` is run on and what it must answer: crates/batch/stdin and crates/batch/stdout. Run at the top of the repository.

No answer is taken from the program. Those of the rows of tests/*.tsv and of the records of tests/requests/*.tsv stand there; the places of refusal 2 in document 01's texts and in texts that
are cut short or hold a byte from 128 up stand in tools/each_rule.py; for all others, and for what is listed, the second opinion (second/) is asked.
Whatever the source of an answer, the account of tools/account.py has to agree with it, with the warnings of a list, and with what is told of a symbol. Each flat file is flattened again, in a room that just holds it.
"""
import os
import sys

sys.dont_write_bytecode = True
sys.path.append(os.path.join(os.path.dirname(os.path.dirname(os.path.abspath(__file__))), "second"))
import account  # noqa: E402
import each_rule  # noqa: E402
import listing  # noqa: E402
import reader  # noqa: E402
import records  # noqa: E402

STDIN, STDOUT = "crates/batch/stdin", "crates/batch/stdout"
ROWS = ["tests/base.tsv", "tests/digits.tsv", "tests/document.tsv", "tests/drawing.tsv", "tests/positions.tsv", "tests/scaling.tsv"]
ROOM = 4096  # of a text that has none of its own


def rows():
    """The rows of tests/*.tsv: room, text and answer."""
    for path in ROWS:
        for line in open(path):
            if not line.startswith("#"):
                _, room, text, *numbers, chain, flat = line.rstrip("\n").split("\t")
                yield int(room), bytes.fromhex(text), reader.Answer(*map(int, numbers), tuple(map(int, chain.split())), bytes.fromhex(flat))


def texts():
    """The texts for each rule, with the second opinion's answers; where the place of refusal 2 is known, the account has to find it."""
    for text, known in each_rule.texts():
        text = text.encode() if isinstance(text, str) else text
        if known is not each_rule.UNKNOWN and known != account.place(text):
            sys.exit(f"no agreement on {text!r}: {known} is written, the account says {account.place(text)}")
        yield ROOM, text, reader.flatten(text, ROOM)


def each_once(asked):
    seen = set()
    for room, text, answer in asked:
        if (room, text) not in seen:
            seen.add((room, text))
            yield room, text, answer


def flattened(asked):
    """Task 0: each text, and its flat file again."""
    for room, text, answer in asked:
        account.agree(text, account.place(text), answer)
        yield records.record(records.FLATTEN, text, room), records.flattened(answer)
        if answer.number == 0:
            again = answer._replace(calls=0, redefinitions=0, rounded=0)  # on success line, column and chain are none
            yield records.record(records.FLATTEN, answer.flat, answer.length), records.flattened(again)


def drawn(text, answer):
    """What the reader says of a text in a room that suffices: an answer from a smaller one tells it, unless that room was too small."""
    return reader.draw(text) if answer is None or answer.number == 18 else answer


def listed(asked):
    """Task 2: what the list program prints."""
    for text, answer in asked.items():
        lines = listing.lines_of(text, drawn(text, answer))
        account.agree_list(text, lines)
        yield records.record(records.LIST, text), records.listed(lines)


def requests():
    """The records of tests/requests, on which the second opinion has to agree."""
    for one in records.written():
        if one.told != records.told(one.task, one.text, one.room, one.words, one.argument):
            sys.exit(f"no agreement on {one.label}: {one.told!r} is written")
        if one.task == records.FLATTEN:
            answer = reader.flatten(one.text, one.room, None if one.words == records.LARGEST else one.words)
            account.agree(one.text, account.place(one.text), answer, None if one.words == records.LARGEST else one.words)
        if one.task == records.LIST:
            account.agree_list(one.text, one.told.split(b"\n", 1)[1])
        if one.task == records.SUMMARISE:
            account.agree_symbol(one.text, account.place(one.text), one.argument, one.told)
        yield one.record, one.told


def empty_answers():
    """Tasks that are still to come, and tasks that there are not."""
    for task in (*records.TO_COME, 10, 255, 256, 65_536, 16_777_216, records.LARGEST):
        yield records.record(task, b"LA;R1 0 0;E", 64, b"E"), records.NOTHING


def words_lent():
    """Words that just suffice for each text of the rows, and one too few: the second opinion says what they need, but for the texts that take it long."""
    for room, text, answer in each_once(rows()):
        quick = answer.number not in (2, 15, 17) and answer.calls < 1_000 and answer.shapes < 1_000 and len(text) < 10_000
        need = reader.most_needed(text) if quick else 0
        if need:
            for words in (need, need - 1):
                answer = reader.flatten(text, room, words)
                account.agree(text, account.IN_GRAMMAR, answer, words)
                yield records.record(records.FLATTEN, text, room, words=words), records.flattened(answer)
    # the list program lends enough; a second text lends task 0 what it has bytes; and nothing is left of the words of the record before
    body, end = b"DS1;LA;R1 0 0;DF;E", records.flattened(reader.flatten(b"E", 2))
    short = records.flattened(reader.flatten(body, 2, 7))
    for words, told in ((8, end), (7, short), (records.MOST_WORDS, end), (0, short), (records.LARGEST, end)):
        for second in (b"", b"E", b"LA;R1 0 0;E"):
            yield records.record(records.FLATTEN, body, 2, second, words=words), told
            yield records.record(records.LIST, body, 2, second, words=words), records.listed(listing.listing(body))


def ignored_numbers():
    """What a task does not look at: a second text, records and the argument; and words where nothing is defined."""
    answer = reader.flatten(b"LA;R1 0 0;E", 64)
    for words in (0, 1, records.MOST_WORDS, records.LARGEST):
        for others in (dict(records=0), dict(argument=1), dict(argument=records.LARGEST), dict(second=b"E"), dict(second=b"\n" * 5_000)):
            yield records.record(records.FLATTEN, b"LA;R1 0 0;E", 64, words=words, **others), records.flattened(answer)
            yield records.record(records.LIST, b" E", words=words, **others), records.listed(listing.listing(b" E"))


def cases():
    written = list(each_once(rows()))
    to_list = {text: answer for _, text, answer in written}
    to_list.update((text.encode(), None) for text in each_rule.LISTED)
    yield from flattened(each_once([*written, *texts()]))
    yield from listed(to_list)
    yield from requests()
    yield from words_lent()
    yield from empty_answers()
    yield from ignored_numbers()
    yield records.head(records.FLATTEN, 2, room=2) + b"E", b"cut short\n"


def main():
    sys.setrecursionlimit(20000)
    sys.set_int_max_str_digits(0)
    asked, told = zip(*cases())
    open(STDIN, "wb").write(b"".join(asked))
    open(STDOUT, "wb").write(b"".join(told))
    refused = sum(t.startswith(b"2\t") for t in told)
    print(len(asked), "records,", refused, "refused by the grammar,", sum(t.count(b"\t") == 8 and t.startswith(b"0\t") for t in told), "flat files")


if __name__ == "__main__":
    main()
