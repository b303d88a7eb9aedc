"""Replacing files: a file is replaced whole, or stays unchanged."""
import os
import resource
import signal
import subprocess

from failing import Failing
from samples import PLAIN, TEXT
from steps import ACCEPTED, FAILED, SECONDS, absent, compare, end, holds, link, run, write

OLD = b"what stood there"


def folder(name):
    return lambda room, program: (room / name).mkdir()


def set_mode(name, mode):
    return lambda room, program: (room / name).chmod(mode)


def has_mode(name, mode):
    return lambda room, program: compare(f"mode of {name}", (room / name).stat().st_mode & 0o777, mode)


def is_link(name):
    return lambda room, program: compare(f"whether {name} is a link", (room / name).is_symlink(), True)


def is_no_file(name):
    """Checks that the name exists and is not a regular file."""
    return lambda room, program: compare(f"{name} is there, a file", ((room / name).exists(), (room / name).is_file()), (True, False))


def is_none(name):
    return lambda room, program: compare(f"whether {name} is there", (room / name).exists(), False)


def replace(name):
    """Writes the text of a puzzle to the file."""
    told = b"" if name.endswith(".txt") else f"xw: {name}: written as text\n".encode()
    return run(f"convert plain.puz {name}", errors=told)


def is_not_replaced(name):
    return run(f"convert plain.puz {name}", errors=f"xw: {name}: cannot write\n".encode(), status=FAILED)


def rights_kept(room, program):
    """Checks that a file, or a folder, without write permission is left alone, unless the user may write everywhere."""
    has_every_right = os.access(room / "closed/shut", os.W_OK)
    replaced = replace if has_every_right else is_not_replaced
    for step in [
        replaced("closed/shut"),
        set_mode("closed", 0o555),
        replaced("closed/open"),
        set_mode("closed", 0o755),
        holds("closed/shut", TEXT if has_every_right else OLD),
        holds("closed/open", TEXT if has_every_right else OLD),
    ]:
        step(room, program)


def names_taken(count):
    """Files with the first names of new files."""

    def step(room, program):
        for number in range(count):
            (room / f".xw-{number}.new").write_bytes(OLD)

    return step


def names_left(count):
    def step(room, program):
        for number in range(count):
            compare(f".xw-{number}.new", (room / f".xw-{number}.new").read_bytes(), OLD)
        compare("names", sorted(path.name for path in room.glob(".xw-*")), sorted(f".xw-{number}.new" for number in range(count)))

    return step


def has_mode_of_the_mask(mask, mode):
    """A file that was not there has the rights that the mask of the user leaves."""

    def step(room, program):
        end(room, program, "convert plain.puz unmasked", input=b"", stdout=subprocess.PIPE, umask=mask)
        has_mode("unmasked", mode)(room, program)
        (room / "unmasked").unlink()

    return step


def is_killed(words, typed=b""):
    """Ends the program in the middle of a file, by the signal of a limit, so that the new file is left."""

    def step(room, program):
        set_limit = lambda: resource.setrlimit(resource.RLIMIT_FSIZE, (20, 20))
        ended = end(room, program, words, input=typed, stdout=subprocess.PIPE, preexec_fn=set_limit)
        compare("status", ended.returncode, -signal.SIGXFSZ)

    return step


def is_synced(words, typed=b""):
    """Checks that the bytes of a file come to the device before it has its name, and then its name."""

    def step(room, program):
        ended = Failing(room, program, words, typed)
        compare("status", ended.status, ACCEPTED)
        order = ["fsync .xw-0.new", "rename .xw-0.new", "fsync ."]
        compare(f"calls of xw {words}", [call for call in ended.calls if call in order], order)

    return step


def writes_what_is_open(open_file, words, wanted, typed=b""):
    """Runs the program with an open file that has no name, which the words name as NAME. It gets the bytes, and no other file is made."""

    def step(room, program):
        file = open_file(room)
        before = sorted(room.iterdir())
        name = f"/dev/fd/{file}"
        how = {"input": typed, "capture_output": True, "timeout": SECONDS, "pass_fds": [file]}
        ended = subprocess.run(["xw", *words.replace("NAME", name).split()], executable=program, cwd=room, env={}, **how)
        told = ended.stderr.replace(f"xw: {name}: written as text\n".encode(), b"")
        compare("messages and status", (told, ended.returncode), (b"", ACCEPTED))
        compare("the open file", os.pread(file, 10_000, 0), wanted)
        compare("files", sorted(room.iterdir()), before)
        os.close(file)

    return step


def deleted_file(room):
    (room / "gone").write_bytes(OLD)
    file = os.open(room / "gone", os.O_RDWR)
    (room / "gone").unlink()
    return file


def memory_file(room):
    file = os.memfd_create("made")
    os.write(file, OLD)
    return file


CASES = {
    # Links are followed: the target is replaced and keeps its mode, and the link stays. A dangling link gets its target
    # created. A loop of links is refused.
    "links_followed": [
        write("plain.puz", PLAIN),
        folder("linked"),
        write("linked/real", OLD),
        set_mode("linked/real", 0o640),
        link("linked/one", "real"),
        link("linked/two", "one"),
        link("linked/none", "new"),
        link("linked/ring", "ring"),
        replace("linked/two"),
        holds("linked/real", TEXT),
        has_mode("linked/real", 0o640),
        replace("linked/none"),
        holds("linked/new", TEXT),
        is_not_replaced("linked/ring"),
        is_link("linked/one"),
        is_link("linked/two"),
        is_link("linked/none"),
        is_link("linked/ring"),
    ],
    # An existing file with the name of the temporary file is left alone.
    "names_of_others_left": [
        write("plain.puz", PLAIN),
        folder("beside"),
        write("beside/.xw-0.new", OLD),
        replace("beside/a"),
        holds("beside/a", TEXT),
        holds("beside/.xw-0.new", OLD),
        is_none("beside/.xw-1.new"),
    ],
    # However many there are.
    "names_of_others_left, a thousand": [
        write("plain.puz", PLAIN),
        names_taken(1000),
        replace("new"),
        holds("new", TEXT),
        run("edit --save mine.xw", b"size 2 1\n", b"ok\n"),
        run("edit --resume mine.xw --save mine.xw", b"set 1 1 A\nshow\n", b"ok\nA -\nok\n"),
        run("edit --journal kept.xw", b"size 2 1\n", b"ok\n"),
        run("edit --resume kept.xw", b"show\n", b"- -\nok\n"),
        names_left(1000),
    ],
    # A new file has no other rights than the old one, at no time.
    "rights_from_the_start": [
        write("plain.puz", PLAIN),
        write("private", OLD),
        set_mode("private", 0o600),
        is_killed("convert plain.puz private"),
        holds("private", OLD),
        has_mode(".xw-0.new", 0o600),
        lambda room, program: (room / ".xw-0.new").unlink(),
        is_killed("edit --save private", b"size 2 1\n"),
        has_mode(".xw-0.new", 0o600),
        lambda room, program: (room / ".xw-0.new").unlink(),
        replace("private"),
        holds("private", TEXT),
        has_mode("private", 0o600),
        absent(".xw-0.new"),
        # Rights that the mask of the user would take away are kept, too.
        set_mode("private", 0o666),
        replace("private"),
        has_mode("private", 0o666),
    ],
    "rights_from_the_start, of a new file": [write("plain.puz", PLAIN), has_mode_of_the_mask(0o077, 0o600), has_mode_of_the_mask(0o022, 0o644)],
    "synced": [
        write("plain.puz", PLAIN),
        is_synced("convert plain.puz new.txt"),
        is_synced("edit --save mine.xw", b"size 2 1\n"),
        is_synced("edit --journal kept.xw", b"size 2 1\n"),
    ],
    "rights_kept": [
        write("plain.puz", PLAIN),
        folder("closed"),
        write("closed/shut", OLD),
        write("closed/open", OLD),
        set_mode("closed/shut", 0o444),
        rights_kept,
    ],
    # A file without a name is written in place: it has all the bytes, and no file gets the text of its link as a name.
    **{
        f"no_name, {kind}": [
            write("plain.puz", PLAIN),
            writes_what_is_open(open_file, "convert plain.puz NAME", TEXT),
            writes_what_is_open(open_file, "edit --from plain.puz --to NAME", TEXT),
        ]
        for kind, open_file in (("a deleted file", deleted_file), ("a file in memory", memory_file))
    },
    # A full device is not a regular file.
    "full_device": [write("plain.puz", PLAIN), is_not_replaced("/dev/full"), is_no_file("/dev/full")],
}
