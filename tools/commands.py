"""Commands of the berth board as text, a line each, and as bytes.

    commands bytes [FILE]    text in, bytes out
    commands text [FILE]     bytes in, text out

Without FILE, or where it is -, the input is standard input. The lines:

    board 2 2          a new board: the slot counts of its calls, 1 to 32 of them
    head 0 2 0 1       a draft of rule 0 with 2 columns, on calls 0 and 1
    row 0 0            a row of the draft: a slot for each column
    put                the draft comes into force
    lift 5             rule 5 leaves force
    before 1 0 2 3     a draft of rule 1: the slot of call 0 is 3 or more before that of call 2
    apart 1 0 2 3      a draft of rule 1: the slots of calls 0 and 2 are 3 or more apart
    same 1 0 2         a draft of rule 1: the slots of calls 0 and 2 are the same
    mark 0             the board is kept under the name 0; the names are 0 and 1
    back 0             the board that is kept under the name 0 is brought back, without a draft, and stays kept
    cancel 3           call 3 is cancelled, until a new board or a back to a mark where it was not
    bytes 10 255 0     these bytes as they stand, whatever they are

A draft by before, apart or same has every pair of slots that fits as a row, and more rows may follow. Left out, counts are 0, calls
and slots 255, and the gap of same is 0. What follows # is a comment. Numbers are 0 to 255: whether a command makes sense is for the
board to say, so that its refusals can be tried. Text is UTF-8.

Ends with 1 where a line is wrong or something can't be read or written, and with 2 where it is called in another way.
"""
import re
import signal
import sys

# word, the bytes that it stands for, how many numbers follow at least and at most, and what stands for those left out
WORDS = {
    "board": ([1], 1, 32, 0),
    "head": ([2], 2, 6, 255),
    "row": ([3], 1, 4, 255),
    "put": ([4], 0, 0, 0),
    "lift": ([5], 1, 1, 0),
    "before": ([6, 1], 4, 4, 0),
    "apart": ([6, 2], 4, 4, 0),
    "same": ([6, 3], 3, 4, 0),
    "mark": ([7], 1, 1, 0),
    "back": ([8], 1, 1, 0),
    "cancel": ([9], 1, 1, 0),
}
# how many bytes a command of each kind has
LENGTHS = {start[0]: len(start) + most for start, _, most, _ in WORDS.values()}
LINE_END = re.compile("\r\n|\r|\n")


class WrongLine(Exception):
    pass


def shown(word):
    """The word in quotes, with what can't be seen in it spelt out, and not endless."""
    return repr(word if len(word) <= 40 else word[:40] + "..")


def number(word):
    digits = word.lstrip("0") or "0"
    if not (word.isascii() and word.isdigit()):
        raise WrongLine(f"{shown(word)} is no number")
    if len(digits) > 3 or int(digits) > 255:
        raise WrongLine(f"{shown(word)} is over 255, and a field is one byte")
    return int(digits)


def line_bytes(line):
    words = line.split("#")[0].split()
    if not words:
        return b""
    word, fields = words[0], words[1:]
    if word == "bytes":
        return bytes(map(number, fields))
    if word not in WORDS:
        raise WrongLine(f"there is no command {shown(word)}, only {', '.join(WORDS)} and bytes")
    start, least, most, spare = WORDS[word]
    if not least <= len(fields) <= most:
        wanted = f"{least} to {most} numbers" if least < most else {0: "no numbers", 1: "1 number"}.get(most, f"{most} numbers")
        raise WrongLine(f"'{word}' takes {wanted}, not {len(fields)}")
    return bytes([*start, *map(number, fields)] + [spare] * (most - len(fields)))


def to_bytes(text):
    found, wrong = [], []
    for place, line in enumerate(LINE_END.split(text), 1):
        try:
            found.append(line_bytes(line))
        except WrongLine as why:
            wrong.append(f"line {place}: {why}")
    return b"".join(found), wrong


def wordless_text(data, why):
    return "bytes " + " ".join(map(str, data)) + f"    # {why}"


def command_text(command):
    """The line of a whole command. A kind 6 whose form has no word is shown by its bytes."""
    for word, (start, least, _, spare) in WORDS.items():
        if command.startswith(bytes(start)):
            fields = list(command[len(start):])
            while len(fields) > least and fields[-1] == spare:
                fields.pop()
            return " ".join([word, *map(str, fields)])
    return wordless_text(command, f"no form {command[1]}")


def to_text(data):
    lines, at = [], 0
    while at < len(data):
        kind = data[at]
        end = at + LENGTHS.get(kind, 0)
        if kind not in LENGTHS or end > len(data):
            why = "a body cut short" if kind in LENGTHS else f"no kind {kind}"
            lines.append(wordless_text(data[at:], f"{why}: no more is read"))
            break
        lines.append(command_text(data[at:end]))
        at = end
    return "".join(line + "\n" for line in lines)


def end(status, text):
    # print would take standard output where standard error is closed
    if sys.stderr:
        sys.stderr.write(text.rstrip("\n") + "\n")
    sys.exit(status)


def read(name):
    # by their numbers, since Python has no object for a standard stream that is closed
    try:
        with open(0 if name == "-" else name, "rb", closefd=name != "-") as file:
            return file.read()
    except OSError as why:
        where = "standard input" if name == "-" else name if name.isprintable() and name else repr(name)
        end(1, f"{where}: {why.strerror}")


def write(data):
    try:
        with open(1, "wb", buffering=0, closefd=False) as file:
            while data:
                data = data[file.write(data):]
    except OSError as why:
        end(1, f"standard output: {why.strerror}")


def main(words):
    # a reader that goes away, or a key, ends this like any other tool
    signal.signal(signal.SIGPIPE, signal.SIG_DFL)
    signal.signal(signal.SIGINT, signal.SIG_DFL)
    if words in (["--help"], ["-h"]):
        return write(__doc__.encode())
    if len(words) not in (1, 2) or words[0] not in ("bytes", "text"):
        end(2, __doc__)
    data = read(words[1] if len(words) == 2 else "-")
    if words[0] == "text":
        return write(to_text(data).encode())
    try:
        text = data.decode("utf-8-sig")
    except UnicodeDecodeError:
        end(1, "this is no text in UTF-8; 'commands text' shows bytes")
    found, wrong = to_bytes(text)
    if wrong:
        end(1, "\n".join(wrong))
    write(found)


if __name__ == "__main__":
    main(sys.argv[1:])
