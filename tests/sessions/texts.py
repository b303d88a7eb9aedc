"""The texts and clues that a session keeps."""
from steps import answers, run


def keeps(*steps):
    """Runs lines, and checks the answers and the texts after each step."""
    lines = b"".join(lines + b"texts\n" for lines, answered, texts in steps)
    output = b"".join(answered + texts + b"ok\n" for lines, answered, texts in steps)
    return [answers(lines, output)]


CASES = {
    # A text is the rest of its line without spaces and tabs at its ends. A refused text leaves the old one.
    "texts_kept": keeps(
        (
            b"title \t two  words \t\r\nauthor #me\ncopyright \xA9 1\nnotes n\nnotes a\x00b\nsize 2 2\ncopyright\n",
            b"ok\nok\nok\nok\nno NulByte\nok\nok\n",
            b"title two  words\nauthor #me\nnotes n\n",
        )
    ),
    "clue_kept": keeps(
        (
            b"size 3 1\nclue 9 across x\nclue 1 across two words\n",
            b"ok\nno NoLight\nok\n",
            b"clue 1 across two words\n",
        ),
        (b"clue 1 across\n", b"ok\n", b""),
    ),
    # A clue belongs to the start and direction of its light, so a longer or shorter light there has it too. A new size
    # removes it, and a refused one does not.
    "clue_of_a_start": keeps(
        (
            b"size 4 1\nclue 1 across x\nbar 1 2 right\nsize 0 1\n",
            b"ok\nok\nok\nno Size\n",
            b"clue 1 across x\n",
        ),
        (b"size 4 1\n", b"ok\n", b""),
    ),
    # Only spaces and tabs are trimmed.
    "text_of_odd_ends": keeps(
        (b"title \x0B a\xA0\nnotes \ra\r \r\n", b"ok\nok\n", b"title \x0B a\xA0\nnotes \\ra\\r\n")
    ),
    # A line of 4,096 bytes is executed. Longer lines leave the title unchanged.
    "longest_title": keeps(
        (
            b"title " + b"a" * 4090 + b"\ntitle " + b"a" * 4090 + b"\r\n" + b"b" * 5000 + b"\n",
            b"ok\nno LineTooLong\nno LineTooLong\n",
            b"title " + b"a" * 4090 + b"\n",
        )
    ),
    # A session opened on a file has the puzzle of the session that wrote it. The watch starts off.
    "opened_with_a_puzzle": [
        run(
            "edit --to made.puz",
            b"size 2 2\nplace 1 across at\nplace 3 across so\ntitle t\ncircle 1 2\nclue 1 down d\nwatch on\n",
            output=b"ok\n" * 7,
        ),
        run("edit --from made.puz", b"circles\nclear 1 1\ntexts\n", output=b"1 2\nok\nok\ntitle t\nclue 1 down d\nok\n"),
    ],
}
