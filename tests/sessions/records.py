"""Records of sessions, and sessions rebuilt from them."""
from steps import call, compare, write

# The queries that a session and its copy must answer alike.
QUESTIONS = b"show\nlights\ncells\ncounts\ntexts\ncircles\nstats\nmatch ..\nmatch ...\nunlisted\ngrades\nunmatched\nrecord\n"

# The state of the copy before the record is replayed. None of it may remain.
ELSEWHERE = (
    b"size 4 3\nsym leftright\nset 1 1 Q\nblock 2 4\nbar 3 1 right\ncircle 1 1\n"
    b"text clue 1 2 down gone\ntitle old\nauthor old\ncopyright old\nnotes old\nwatch on\n"
)


def told(room, program, before, lines):
    """Runs `before` and then `lines` in a session with four words, and returns the answers to `lines`. No line may be refused."""
    # a file that a call does not read is kept
    (room / "saved.xw").unlink(missing_ok=True)
    counted = call(room, program, "edit --dict words --save saved.xw", before + lines)
    compare("messages and status", (counted.stderr, counted.returncode), (b"xw: words: 4 added, 0 skipped\n", 0))
    begun = call(room, program, "edit --dict words", before)
    assert counted.stdout.startswith(begun.stdout)
    return counted.stdout[len(begun.stdout) :]


def is_made_again(lines):
    """Checks that the record of a session rebuilds it in another session."""

    def step(room, program):
        wanted = told(room, program, lines, QUESTIONS)
        told(room, program, b"", lines)
        record = (room / "saved.xw").read_bytes()
        compare("what is told elsewhere", told(room, program, b"size 2 2\n" + ELSEWHERE + record, QUESTIONS), wanted)

    return [write("words", b"as\nat\ntea\nso\n"), step]


def more(field, count):
    """Returns a line that appends this many backslashes to a field."""
    return b"more " + field + b"\\\\" * count + b"\n"


CASES = {
    "sessions_made_again: nothing": is_made_again(b"size 5 5\n"),
    "sessions_made_again: words that came later, words that were struck, and one that came back": is_made_again(
        b"size 5 5\nadd it\nstrike at\nadd tee\nstrike it\nadd on\nstrike tea\nadd tea\nadd it\nstrike so\n"
    ),
    "sessions_made_again: words with grades, words that came back with others, and words that are left out": is_made_again(
        b"size 2 2\nadd it 20\nadd on 100\nadd in 100\nstrike in\nadd in 30\nstrike at\nadd at 90\nstrike as\nadd as 10\nstrike as\n"
        b"least 60\nadd tea\nstrike so\nadd ot 5\nplace 1 across at\nplace 1 down as\nplace 3 across so\n"
    ),
    "sessions_made_again: all words left out": is_made_again(b"size 3 1\nadd on 99\nleast 100\n"),
    "sessions_made_again: a least grade that ended": is_made_again(b"size 2 1\nleast 51\nadd at\nleast 0\nset 1 1 a\nset 1 2 t\n"),
    "sessions_made_again: circles and clues that are hidden, and bars beside blocks": is_made_again(
        b"size 5 4\ncircle 1 1\ncircle 2 5\nsym half\nblock 1 1\nbar 1 1 right\nbar 2 2 below\nset 2 2 z\n"
        b"text clue 1 1 down Under a block\ntext clue 4 4 across  a \\\\ b\\s\nclue 1 across Seen\ncircle 3 3\n"
    ),
    "sessions_made_again: a quarter turn over blocks that have no symmetry": is_made_again(
        b"size 3 3\nblock 1 2\nset 3 3 q\nset 1 1 a\nsym quarter\nwatch on\nbar 2 1 right\n"
    ),
    "sessions_made_again: a light that was filled": is_made_again(b"size 2 2\nset 1 2 s\nautofill 1000 0 1 across\n"),
    "sessions_made_again: a best fill of a light": is_made_again(b"size 2 2\nleast 40\nset 1 2 s\nbest 1000 0 1 across\n"),
    "sessions_made_again: a light that was explained": is_made_again(b"size 2 2\nset 1 2 x\nwhy 1 across\n"),
    "sessions_made_again: a light that was emptied, but for a letter of a complete word": is_made_again(
        b"size 2 2\nplace 1 across at\nplace 1 down as\nerase 1 across\n"
    ),
    "sessions_made_again: one cell": is_made_again(
        b"size 1 1\ncircle 1 1\nblock 1 1\nsym updown\ntext notes \\sone\\n\\ntwo\\t\n"
    ),
    "sessions_made_again: one long row": is_made_again(b"size 255 1\nblock 1 255\nbar 1 1 right\nset 1 254 e\n"),
    # Texts longer than a line, in which each byte takes two in its spelling.
    "long_texts_made_again": is_made_again(
        b"size 2 2\n"
        + b"".join(more(b"notes \\s", count) + more(b"clue 2 2 across \\n", count) for count in [1999, 2, 1998])
    ),
}
