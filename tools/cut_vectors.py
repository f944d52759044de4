#!/usr/bin/env python3
"""Cuts tables of test data to what the program `vectors` reads and must write.

usage: tools/cut_vectors.py [DIR]

The questions go to crates/vectors/stdin, the wanted answers to crates/vectors/stdout. DIR holds checks.tsv,
values.tsv, framing.tsv, fields.tsv, feedback.tsv, headers.tsv, chains.tsv and forms.tsv, whose first lines
name their columns; a line that begins with # is a comment. Of a long table the first 500 lines are kept, and
each fifth of the others. Without DIR the tables stay as they are in crates/vectors.

The tables were computed by a model that was written from the rules alone, bit by bit and over whole lists,
apart from the crates here. That model and the whole tables aren't in this repository; what is cut from them is.
tools/model is another such model, which makes each answer again, and answers new questions.

At the end of each table stand the rows of tools/part_rows.txt that the table lacks: the worked examples and
the limits of each part. There a line with # and a table's name begins that table, a line that begins with //
is a comment, and a row is a question, ` = ` and its answer. These rows are computed by hand, and not by the
program.
"""

import pathlib
import sys

# The tables, each with the number of columns at its end that are the answer.
TABLES = {
    "checks": 1,
    "values": 2,
    "framing": 1,
    "fields": 1,
    "feedback": 1,
    "headers": 5,
    "chains": 1,
    "forms": 1,
}
KEPT_WHOLE = 500
KEPT_OF_THE_OTHERS = 5
TOP = pathlib.Path(__file__).resolve().parent.parent
QUESTIONS = TOP / "crates" / "vectors" / "stdin"
ANSWERS = TOP / "crates" / "vectors" / "stdout"


def cut(lines):
    """The first lines, and every fifth of the others."""
    return lines[:KEPT_WHOLE] + lines[KEPT_WHOLE::KEPT_OF_THE_OTHERS]


def question_and_answer(line, answer_columns):
    """A line's columns before the answer, and the answer's."""
    columns = line.split("\t")
    if columns[0].startswith("write "):
        # A value that is written has no number of octets after it.
        return columns[0], columns[1]
    return "\t".join(columns[:-answer_columns]), "\t".join(columns[-answer_columns:])


def lines_of(file):
    """The lines of a file."""
    try:
        return file.read_text().splitlines()
    except (OSError, UnicodeDecodeError) as fault:
        sys.exit(f"cut_vectors.py: {file} can't be read: {getattr(fault, 'strerror', None) or 'it is no text'}")


def tables_from(folder):
    """The rows of each table that are kept of the files in a folder."""
    tables = {}
    for name, answer_columns in TABLES.items():
        # The first line names the columns.
        lines = [line for line in lines_of(folder / f"{name}.tsv")[1:] if not line.startswith("#")]
        tables[name] = [question_and_answer(line, answer_columns) for line in cut(lines)]
    return tables


def tables_of(rows):
    """The rows of each table, from rows among which a table's name begins it."""
    tables = {name: [] for name in TABLES}
    for question, answer in rows:
        if question.startswith("# "):
            table = tables[question[2:]]
        else:
            table.append((question, answer))
    return tables


def part_rows():
    """The rows of each table in tools/part_rows.txt."""
    lines = lines_of(TOP / "tools" / "part_rows.txt")
    return tables_of(line.partition(" = ")[::2] for line in lines if not line.startswith("//"))


def main():
    if sys.argv[1:] == ["--help"]:
        print(__doc__.strip())
        return
    if len(sys.argv) > 2:
        sys.exit(__doc__)
    if len(sys.argv) == 2:
        tables = tables_from(pathlib.Path(sys.argv[1]))
    else:
        tables = tables_of(zip(lines_of(QUESTIONS), lines_of(ANSWERS)))
    questions, answers = [], []
    for name, more in part_rows().items():
        known = dict(tables[name])
        for question, answer in more:
            if known.setdefault(question, answer) != answer:
                sys.exit(f"cut_vectors.py: {question} has two answers: {known[question]} and {answer}")
        rows = tables[name] + [row for row in dict.fromkeys(more) if row not in tables[name]]
        questions += [f"# {name}", *(question for question, _ in rows)]
        answers += [f"# {name}", *(answer for _, answer in rows)]
    QUESTIONS.write_text("\n".join(questions) + "\n")
    ANSWERS.write_text("\n".join(answers) + "\n")


if __name__ == "__main__":
    main()
