#!/usr/bin/env python3
"""Word lists made at random, each with the command that it is, by a model of the table of commands that shares no code
with the program. Without words it compares them with those that the tests of uf_words run; with `write` it writes them."""

import sys

FILE = "crates/uf_tests_words/src/words_tests/generated.rt"
ROWS = 520
MOST = 2**64

# The first words, the flags and the options as (short, long, kind), and the arguments; `?` behind an argument: it may be absent.
TABLE = {
    "init": ([], [("", "chunk", "number"), ("", "width", "number"), ("", "threshold", "number")], []),
    "add": ([("r", "recursive"), ("n", "only-hash")], [("", "to-files", "text")], ["text?"]),
    "cat": ([], [], ["text"]),
    "get": ([], [], ["text", "text"]),
    "files mkdir": ([("p", "parents")], [], ["text"]),
    "files ls": ([("l", "long")], [], ["text?"]),
    "files stat": ([], [], ["text"]),
    "files read": ([], [("o", "offset", "number"), ("n", "count", "number")], ["text"]),
    "files write": ([("e", "create"), ("t", "truncate")], [("o", "offset", "number"), ("x", "hex", "hex")], ["text"]),
    "files truncate": ([], [], ["text", "number"]),
    "files cp": ([], [], ["text", "text"]),
    "files mv": ([], [], ["text", "text"]),
    "files rm": ([("r", "recursive")], [], ["text"]),
    "files chmod": ([], [], ["mode", "text"]),
    "files touch": ([], [("", "nanos", "number")], ["number", "text"]),
    "files strip": ([], [], ["text"]),
    "dag export": ([], [], ["text"]),
    "dag same": ([], [], ["text"]),
    "dag import": ([], [], []),
    "pin add": ([], [], ["text"]),
    "pin rm": ([], [], ["text"]),
    "pin ls": ([], [], []),
    "repo gc": ([], [], []),
    "prove": ([("", "absent")], [], ["text"]),
    "check": ([("", "absent")], [], ["text", "text"]),
    "batch": ([], [], []),
    "pull": ([], [], ["text"]),
    "serve": ([], [], []),
    "gen": ([], [], ["number", "number"]),
}

NUMBERS = ["0", "5", "7", "20000", "20001", "18446744073709551615", "18446744073709551616", "00000000000000000001",
           "000000000000000000001", "", "x", "-1", "+1", "1_0"]
HEX = ["00fF", "", "0", "0g", "a1b2", "ABC"]
MODES = ["644", "0755", "7777", "0", "8", "77777", "", "64x", "-1"]
TIMES = ["5", "0", "999999999", "1000000000", "9223372036854775807", "9223372036854775808"]
TEXTS = ["/f", "/a/b", "a=b", "", "-", "/d/", "x", "-f", "--", "=", "/"]


class Refused(Exception):
    """The words are no command."""


class Chance:
    """Numbers that look random and are the same on every machine."""

    def __init__(self, seed):
        self.state = seed

    def below(self, bound):
        self.state = (self.state * 6364136223846793005 + 1442695040888963407) % MOST
        return (self.state >> 33) % bound

    def of(self, values):
        return values[self.below(len(values))]

    def once_in(self, times):
        return self.below(times) == 0


def number(text):
    """The value of a number's text."""
    if not 1 <= len(text) <= 20 or any(letter not in "0123456789" for letter in text) or int(text) >= MOST:
        raise Refused
    return int(text)


def mode(text):
    """The value of one to four octal digits."""
    if not 1 <= len(text) <= 4 or any(letter not in "01234567" for letter in text):
        raise Refused
    return int(text, 8)


def hexadecimal(text):
    """The bytes of a text, in lower case."""
    if len(text) % 2 or any(letter not in "0123456789abcdefABCDEF" for letter in text):
        raise Refused
    return text.lower()


def value_of(kind, text):
    """The value of an option or argument of this kind."""
    return {"number": number, "mode": mode, "hex": hexadecimal, "text": lambda same: same}[kind.rstrip("?")](text)


def parsed(command, words):
    """The flags, options and arguments of the words that follow a command's first ones."""
    flags, options, arguments = TABLE[command]
    given, found, queue, open_ = {}, [], list(words), True

    def put(name, value):
        if name in given:
            raise Refused
        given[name] = value

    def next_value():
        if not queue or (queue[0].startswith("-") and queue[0] != "-"):
            raise Refused
        return queue.pop(0)

    def long_word(body):
        name, equals, value = body.partition("=")
        if any(name == long for _, long in flags) and not equals:
            put(name, True)
        elif any(name == long for _, long, _ in options):
            put(name, value if equals else next_value())
        else:
            raise Refused

    def short_word(body):
        while body:
            letter, body = body[0], body[1:]
            flag = [long for short, long in flags if short == letter]
            option = [long for short, long, _ in options if short and short == letter]
            if flag:
                put(flag[0], True)
            elif option:
                put(option[0], (body[1:] if body.startswith("=") else body) if body else next_value())
                body = ""
            else:
                raise Refused

    while queue:
        word = queue.pop(0)
        if not open_ or word == "-" or not word.startswith("-"):
            found.append(word)
        elif word == "--":
            open_ = False
        elif word.startswith("--"):
            long_word(word[2:])
        else:
            short_word(word[1:])
    least = sum(not kind.endswith("?") for kind in arguments)
    if not least <= len(found) <= len(arguments):
        raise Refused
    values = {long: value_of(kind, given[long]) for _, long, kind in options if long in given}
    values.update({long: True for _, long in flags if long in given})
    return values, [value_of(kind, text) for kind, text in zip(arguments, found)]


def flag_told(values, name):
    """Whether a flag is given, as the tests print it."""
    return "true" if values.get(name) else "false"


def told(command, words):
    """The command that these words are, as the tests print it."""
    values, found = parsed(command, words)
    if command == "init":
        chunk, width, threshold = (values.get(n, d) for n, d in
                                   (("chunk", 262144), ("width", 174), ("threshold", 262144)))
        if not (1 <= chunk <= 1048576 and 2 <= width <= 1024 and threshold <= 1048576):
            raise Refused
        return f"init|{chunk}|{width}|{threshold}"
    if command == "add":
        dest = values.get("to-files")
        if dest is not None and ("only-hash" in values or (dest.endswith("/") and not found)):
            raise Refused
        path = found[0] if found else "."
        dest = "." if dest is None else dest
        return f"add|{flag_told(values, 'recursive')}|{flag_told(values, 'only-hash')}|{dest}|{path}"
    if command == "gen":
        if found[0] > 20000:
            raise Refused
        return f"gen|{found[0]}|{found[1]}"
    if command == "files touch":
        nanos = values.get("nanos", 0)
        if nanos > 999999999 or found[0] >= 2**63:
            raise Refused
        return f"touch|{nanos}|{found[0]}|{found[1]}"
    name = command.replace(" ", "-") if command.startswith("pin ") else command.split(" ")[-1]
    if command == "files ls":
        return f"ls|{flag_told(values, 'long')}|{found[0] if found else '/'}"
    if command == "files read":
        return f"read|{values.get('offset', 0)}|{values.get('count', MOST - 1)}|{found[0]}"
    if command == "files write":
        return (f"write|{values.get('offset', 0)}|{flag_told(values, 'create')}|{flag_told(values, 'truncate')}"
                f"|{values.get('hex', '.')}|{found[0]}")
    flags = "".join(f"{flag_told(values, long)}|" for _, long in TABLE[command][0])
    return "|".join([name, flags + "|".join(str(value) for value in found)]) if found else name


def pieces(chance, command):
    """Runs of words, each of which an option, a flag, some flags together or an argument makes."""
    flags, options, arguments = TABLE[command]
    made = []
    chosen = [flag for flag in flags if not chance.once_in(3)]
    if len(chosen) > 1 and not chance.once_in(4):
        made.append(["-" + "".join(short for short, _ in reversed(chosen))])
        chosen = []
    for short, long in chosen:
        shapes = ["-" + short, "--" + long] if short else ["--" + long]
        made.append([chance.of(shapes)])
        if chance.once_in(12):
            made.append([chance.of(shapes + [f"--{long}=1"])])
    for short, long, kind in options:
        for _ in range(chance.of([0, 0, 1, 1, 1, 1, 1, 2 if chance.once_in(3) else 1])):
            value = chance.of({"number": NUMBERS, "hex": HEX, "text": TEXTS}[kind])
            if command == "files touch":
                value = chance.of(TIMES)
            elif kind == "number" and chance.once_in(2):
                value = chance.of(NUMBERS[1:5])
            shapes = [["--" + long, value], [f"--{long}={value}"]]
            if short:
                shapes += [["-" + short, value], [f"-{short}{value}"], [f"-{short}={value}"]]
            made.append(chance.of(shapes))
    count = len(arguments) if not chance.once_in(6) else chance.below(len(arguments) + 2)
    for place in range(count):
        kind = arguments[place] if place < len(arguments) else "text"
        if kind == "mode":
            made.append([chance.of(MODES)])
            continue
        numbers = TIMES if command == "files touch" else NUMBERS[:6]
        likely = numbers if kind == "number" and not chance.once_in(4) else TEXTS[:7]
        made.append([chance.of(likely if not chance.once_in(6) else TEXTS + NUMBERS)])
    return made


def word_list(chance):
    """A command's first words and words that may follow them."""
    command = chance.of(sorted(TABLE) + ["add", "files read", "files write", "init"])
    left, runs = pieces(chance, command), []
    while left:
        runs.append(left.pop(chance.below(len(left))))
    words = [word for run in runs for word in run]
    if chance.once_in(4):
        words.insert(chance.below(len(words) + 1), "--")
    return command, words


def rows():
    """Different rows, of which at least two in five are commands."""
    chance, made, refused = Chance(20), {}, 0
    while len(made) < ROWS:
        command, words = word_list(chance)
        line = " ".join([command] + words)
        try:
            answer = told(command, words)
        except Refused:
            if refused * 5 >= ROWS * 3 or line in made:
                continue
            answer, refused = "usage", refused + 1
        made[line] = answer
    return made


def main():
    made = rows()
    text = "//! Rows of words, made by checks/word_lists.py.\n\n// Words, each of which ends at one space, and the command that they are.\n"
    text += 'pub const GENERATED: &str = "\\\n' + "".join(f"{line} => {answer}\\n\\\n" for line, answer in made.items()) + '";\n'
    if sys.argv[1:] == ["write"]:
        with open(FILE, "w", encoding="utf-8") as out:
            out.write(text)
    with open(FILE, encoding="utf-8") as kept:
        if kept.read() != text:
            sys.exit(f"word lists: {FILE} is not what this script makes")
    usage = sum(answer == "usage" for answer in made.values())
    print(f"word lists: {len(made)} rows, {usage} of them refused")


main()
