"""The syntax of lines, with unusual bytes and lengths."""
from steps import answers, run

CASES = {
    # Silent lines, command names, and the number of words.
    "forms_of_lines: silent": [answers(b"\n\r\n \t\r\n# note\n \t# note\n\r", b"")],
    "forms_of_lines: names": [answers(b"frob\nADD CAT\nadd# CAT\n\xEF\xBB\xBFadd CAT\n", b"no Command\n" * 4)],
    "forms_of_lines: count of words": [answers(b"add\nadd CAT DOG\nadd CAT # x\nmatch\nstrike A B\n", b"no Arguments\n" * 5)],
    "forms_of_lines: carriage returns alone": [answers(b"\r\r\n\r \n", b"no Command\n" * 2)],
    "forms_of_lines: blanks and no last line feed": [answers(b" \tadd\t CAT \t\r\nmatch CAT", b"ok\nCAT\nok\n")],
    # The last line has no line feed, and changes the session, which is told.
    "forms_of_lines: carriage return at the end": [run("edit", b"add CAT\r", b"ok\n", errors=b"xw: the last line had no end\n")],
    "forms_of_lines: other white space": [answers(
        b"add C\x00T\nadd\x0BCAT\nadd CAT\x0B\nadd \x85CAT\nad\x00d CAT\nadd CAT\x0C\nadd C\rT\n",
        b"no BadLetter\nno Command\nno BadLetter\nno BadLetter\nno Command\nno BadLetter\nno BadLetter\n",
    )],
    "forms_of_lines: other letters": [answers(b"add C\xC3\x84T\nadd \xC2\xA0CAT\n", b"no BadLetter\n" * 2)],
    # The bytes next to the letters, and the least and the greatest byte.
    "forms_of_lines: bytes that are no letters": [
        *(answers(b"size 2 1\nset 1 1 %c\nadd A%c\nmatch .%c\n" % (byte, byte, byte), b"ok\n" + b"no BadLetter\n" * 3) for byte in b"@[`{\0\xFF"),
    ],
    # A line has at most 4,096 bytes, not counting its LF but counting its CR.
    "long_lines: 4,096 bytes and LF": [answers(b"add " + b"a" * 4092 + b"\n", b"no Length\n")],
    "long_lines: 4,096 bytes": [answers(b"add " + b"a" * 4092, b"no Length\n")],
    "long_lines: 4,095 bytes and CR LF": [answers(b"add " + b"a" * 4091 + b"\r\n", b"no Length\n")],
    "long_lines: 4,096 bytes and CR LF": [answers(b"add " + b"a" * 4092 + b"\r\n", b"no LineTooLong\n")],
    "long_lines: 4,097 bytes and LF": [answers(b"add " + b"a" * 4093 + b"\n", b"no LineTooLong\n")],
    "long_lines: 5,000 bytes": [answers(b"add " + b"a" * 4996, b"no LineTooLong\n")],
    "long_lines: 9,004 bytes before other lines": [answers(
        b"add " + b"a" * 9000 + b"\nadd ok\nmatch ok\n", b"no LineTooLong\nok\nOK\nok\n"
    )],
    "long_lines: note of 4,097 bytes": [answers(b"# a " + b"a" * 4093, b"no LineTooLong\n")],
    "long_lines: note of 4,096 bytes": [answers(b"# a " + b"a" * 4092 + b"\n", b"")],
    # A blank line can be too long as well.
    "long_blank_line: 4,097 bytes": [answers(b" " * 4097 + b"\n", b"no LineTooLong\n")],
    "long_blank_line: 4,096 bytes": [answers(b" " * 4096 + b"\n", b"")],
}
