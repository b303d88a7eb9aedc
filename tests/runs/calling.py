"""The command line: word lists, the version, help and wrong usage."""
from steps import FAILED, REFUSED, USAGE, holds, link, remove, run, write

EXAMPLE = b"""
Example:
  $ xw edit --dict words.txt --to mine.puz
  size 3 1
  ok
  add cat
  ok
  words 1 across
  1
  CAT
  ok
  fill 10
  filled
  ok
  clue 1 across It purrs
  ok
"""

HELP = (
    b"""A crossword construction engine

Usage: xw <COMMAND>

Commands:
  edit     Answer commands from standard input, one per line
  convert  Convert a puzzle file to another format
  check    Read puzzle files and print their format, size and number of lights
  help     Print this message or the help of the given subcommand(s)

Options:
  -h, --help     Print help
  -V, --version  Print version
"""
    + EXAMPLE
)

EDIT_HELP = (
    b"""Answer commands from standard input, one per line

Usage: xw edit [OPTIONS]

Options:
      --dict <FILE>     Load a word list, one word per line
      --from <FILE>     Start with this puzzle, .puz or text [default: an empty grid of 15 by 15]
      --resume <FILE>   Run the commands of this file first, without answers, as --save wrote them
      --to <FILE>       Write the puzzle here at the end: as .puz if the name ends in .puz, otherwise as text
      --save <FILE>     Write the session here at the end, as commands for --resume
      --journal <FILE>  Append every change here, and resume from it
      --sync            Sync each line of the journal to the device before its answer
      --progress        Say on standard error how far a long search is, as on a terminal
      --explain         Say in more lines where a fault of a file is, and what it means
  -h, --help            Print help
"""
    + EXAMPLE
)

CONVERT_HELP = b"""Convert a puzzle file to another format

Usage: xw convert [OPTIONS] <FROM> <TO>

Arguments:
  <FROM>  Puzzle to read, .puz or text
  <TO>    File to write: as .puz if the name ends in .puz, otherwise as text

Options:
      --explain  Say in more lines where a fault of a file is, and what it means
  -h, --help     Print help
"""

CHECK_HELP = b"""Read puzzle files and print their format, size and number of lights

Usage: xw check [OPTIONS] <FILE>...

Arguments:
  <FILE>...  Puzzles to read, .puz or text

Options:
      --explain  Say in more lines where a fault of a file is, and what it means
  -h, --help     Print help
"""

# The help that each call prints on standard output.
HELPS = {
    "-h": HELP,
    "--help": HELP,
    "help": HELP,
    "edit -h": EDIT_HELP,
    "edit --help": EDIT_HELP,
    "help edit": EDIT_HELP,
    "convert -h": CONVERT_HELP,
    "convert --help": CONVERT_HELP,
    "help convert": CONVERT_HELP,
    "check -h": CHECK_HELP,
    "check --help": CHECK_HELP,
    "help check": CHECK_HELP,
    # Help is printed whatever else is on the command line.
    "edit --dict a --help": EDIT_HELP,
}


def wrong(fault, usage):
    """The message for wrong usage: the fault, the usage line if there is one, and where to find help."""
    parts = [f"error: {fault}", *([f"Usage: xw {usage}"] if usage else []), "For more information, try '--help'.\n"]
    return "\n\n".join(parts).encode()


def extra(word, usage):
    return wrong(f"unexpected argument '{word}' found", usage)


def tipped(word, tip):
    """The message for a word of `edit` that is no argument, with what to try in its place."""
    return extra(f"{word}' found\n\n  tip: {tip}", "edit [OPTIONS]").replace(b"' found\n\nUsage", b"\n\nUsage")


# The tip for a file that may be the word list.
LIST = "to load it as the word list, use '--dict {}'"

# The tip for a file that may be a session.
SESSION = "to go on with this session, use '--journal {}'"


def missing(words, usage):
    return wrong("\n  ".join(["the following required arguments were not provided:", *words]), usage)


def twice(option):
    return wrong(f"the argument '{option}' cannot be used multiple times", "edit [OPTIONS]")


def valueless(option):
    return wrong(f"a value is required for '{option} <FILE>' but none was supplied", None)


# The message that each wrong call prints on standard error.
WRONG = {
    "": wrong("'xw' requires a subcommand but one was not provided\n  [subcommands: edit, convert, check, help]", "<COMMAND>"),
    "frob": wrong("unrecognized subcommand 'frob'", "<COMMAND>"),
    "help frob": wrong("unrecognized subcommand 'frob'", "<COMMAND>"),
    "--frob": extra("--frob", "<COMMAND>"),
    "edit words.txt": tipped("words.txt", LIST.format("words.txt")),
    "edit --dict a --sync b": tipped("b", LIST.format("b")),
    "edit mine.puz": tipped("mine.puz", "to start with this puzzle, use '--from mine.puz'"),
    "edit mine.xw": tipped("mine.xw", SESSION.format("mine.xw")),
    "edit --dict words.txt old/mine.xw": tipped("old/mine.xw", SESSION.format("old/mine.xw")),
    "edit xw": tipped("xw", LIST.format("xw")),
    "edit -dict words.txt": tipped("-d", "a similar argument exists: '--dict'"),
    "edit --dict words.txt -journal mine.xw": tipped("-j", "a similar argument exists: '--journal'"),
    # The tip is that of the word that the error names, and of no word behind it.
    "edit --dict a -x b": extra("-x", "edit [OPTIONS]"),
    "edit --dict a b -x": tipped("b", LIST.format("b")),
    "edit --dict=a --sync b -dict": tipped("b", LIST.format("b")),
    "edit --dict -x b": extra("-x", "edit [OPTIONS]"),
    "edit --frob b": wrong("unexpected argument '--frob' found\n\n  tip: a similar argument exists: '--from'", "edit --from <FILE>"),
    "edit --dict - b": tipped("b", LIST.format("b")),
    "edit --frob": wrong("unexpected argument '--frob' found\n\n  tip: a similar argument exists: '--from'", "edit --from <FILE>"),
    "edit -x": extra("-x", "edit [OPTIONS]"),
    "edit --version": extra("--version", "edit [OPTIONS]"),
    "edit --dict": valueless("--dict"),
    "edit --from": valueless("--from"),
    "edit --resume": valueless("--resume"),
    "edit --to": valueless("--to"),
    "edit --save": valueless("--save"),
    "edit --journal": valueless("--journal"),
    "edit --dict a --dict b": twice("--dict <FILE>"),
    "edit --from a --from b": twice("--from <FILE>"),
    "edit --resume a --resume b": twice("--resume <FILE>"),
    "edit --to a --to b": twice("--to <FILE>"),
    "edit --save a --save b": twice("--save <FILE>"),
    "edit --journal a --journal b": twice("--journal <FILE>"),
    "edit --journal a --sync --sync": twice("--sync"),
    "edit --explain --explain": twice("--explain"),
    "edit --from a --resume b": b"xw: --from and --resume cannot be given together\n",
    "edit --journal a --resume b": b"xw: --journal cannot be given with --from or --resume\n",
    "edit --journal a --from b --sync": b"xw: --journal cannot be given with --from or --resume\n",
    "edit --sync": b"xw: --sync needs --journal\n",
    "check - -": b"xw: -: standard input can be read only once\n",
    "check --explain - mine.puz -": b"xw: -: standard input can be read only once\n",
    "convert": missing(["<FROM>", "<TO>"], "convert <FROM> <TO>"),
    "convert a": missing(["<TO>"], "convert <FROM> <TO>"),
    "convert a b c": extra("c", "convert [OPTIONS] <FROM> <TO>"),
    "check": missing(["<FILE>..."], "check <FILE>..."),
    "check --frob a b": wrong(
        "unexpected argument '--frob' found\n\n  tip: to pass '--frob' as a value, use '-- --frob'", "check [OPTIONS] <FILE>..."
    ),
}

# Calls with a file that has no name.
NAMELESS = [
    ["check", ""],
    ["check", "mine.puz", ""],
    ["convert", "", "mine.txt"],
    ["convert", "mine.puz", ""],
    *(["edit", option, ""] for option in ("--dict", "--from", "--resume", "--to", "--save", "--journal")),
]


class Words(list):
    """The words of a call, of which some may be empty."""

    def split(self):
        return self


CASES = {
    "word_list_of_five_lines": [
        write("five.txt", b"CAT;50\r\nco-t\n\nx\ncat\n"),
        run(
            "edit --dict five.txt",
            b"match C.T\nadd CAT\n",
            output=b"CAT\nCOT\nok\nno Known\n",
            errors=b"xw: five.txt: 2 added, 3 skipped\n",
            status=REFUSED,
        ),
        run(
            "edit --dict=five.txt",
            b"match CO.\n",
            output=b"COT\nok\n",
            errors=b"xw: five.txt: 2 added, 3 skipped\n",
        ),
        remove("five.txt"),
        run("edit --dict five.txt", b"add CAT\n", errors=b"xw: five.txt: cannot read\n", status=FAILED),
    ],
    "version_told": [
        run("--version", output=b"xw 0.3.0 (protocol 1)\n"),
        run("-V", output=b"xw 0.3.0 (protocol 1)\n"),
    ],
    # The word list is not replaced by the puzzle, whatever its name; nothing is read before that is told.
    "word_list_kept_apart": [
        write("apart.txt", b"cat\n"),
        link("apart.link", "apart.txt"),
        run(
            "edit --dict apart.txt --to apart.txt",
            b"add DOG\n",
            errors=b"xw: apart.txt: the word list cannot be the file to write\n",
            status=USAGE,
        ),
        run(
            "edit --dict apart.txt --to ./apart.txt",
            b"add DOG\n",
            errors=b"xw: ./apart.txt: the word list cannot be the file to write\n",
            status=USAGE,
        ),
        run(
            "edit --dict apart.txt --to apart.link",
            b"add DOG\n",
            errors=b"xw: apart.link: the word list cannot be the file to write\n",
            status=USAGE,
        ),
        holds("apart.txt", b"cat\n"),
        remove("apart.link"),
        remove("apart.txt"),
        run(
            "edit --dict apart.txt --to apart.txt",
            errors=b"xw: apart.txt: the word list cannot be the file to write\n",
            status=USAGE,
        ),
    ],
    "words_that_name_no_file": [run("edit")],
    # Arguments that are not valid UTF-8 are wrong usage.
    "arguments_that_are_not_utf_8": [run(b"check \xFF", errors=b"xw: arguments are not valid UTF-8\n", status=USAGE)],
    **{f"wrong_words: xw {words}": [run(words, errors=told, status=USAGE)] for words, told in WRONG.items()},
    **{
        f"nameless: xw {words}": [run(Words(words), errors=b"xw: the name of a file is empty\n", status=USAGE)] for words in NAMELESS
    },
    **{f"words_that_ask_for_help: xw {words}": [run(words, output=told)] for words, told in HELPS.items()},
}
