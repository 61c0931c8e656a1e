"""Runs the examples of documents and compares what they print.

    examples.py FILE..

An example is a fenced block marked `console`, one session of sh in an empty folder of its own, with the program `unixfs` on
the path: the repository's own, or what PROGRAM names. Each line that begins with `$ ` is a command, whose variables and
folder the next one has too; the lines below it, up to the next such line, are what it must print on standard output and
standard error together. A last line `[N]` is the exit status, where it isn't 0.
"""

import os
import re
import subprocess
import sys
import tempfile

TOP = os.path.dirname(os.path.dirname(os.path.abspath(__file__)))


def examples(text):
    """The fenced blocks marked `console`, each as a list of lines."""
    return [block.splitlines() for block in re.findall(r"^```console\n(.*?)^```", text, re.M | re.S)]


def steps(lines):
    """Pairs of a command and the lines that it must print."""
    found = []
    for line in lines:
        if line.startswith("$ "):
            found.append((line[2:], []))
        elif found:
            found[-1][1].append(line)
    return found


def session(commands, program):
    """What each command of a session prints, and its status where that isn't 0."""
    with tempfile.TemporaryDirectory() as folder:
        work, told = os.path.join(folder, "work"), os.path.join(folder, "told")
        for it in (work, told, os.path.join(folder, "bin")):
            os.mkdir(it)
        os.symlink(program, os.path.join(folder, "bin", "unixfs"))
        script = ""
        for number, command in enumerate(commands):
            with open(os.path.join(told, f"{number}.sh"), "w", encoding="utf-8") as file:
                file.write(command + "\n")
            script += f". {told}/{number}.sh > {told}/{number} 2>&1 < /dev/null\necho $? > {told}/{number}.status\n"
        environment = dict(os.environ, PATH=os.path.join(folder, "bin") + os.pathsep + os.environ["PATH"])
        subprocess.run(["sh", "-c", script], cwd=work, env=environment, stdin=subprocess.DEVNULL, timeout=600, check=False)
        return [printed(os.path.join(told, str(number))) for number in range(len(commands))]


def printed(path):
    """The lines that a command printed, with its status where that isn't 0."""
    try:
        with open(path, encoding="utf-8", errors="replace") as out, open(path + ".status", encoding="utf-8") as status:
            number = status.read().strip()
            return out.read().splitlines() + ([f"[{number}]"] if number != "0" else [])
    except OSError:
        return ["(not run)"]


def the_program():
    """The program to run: the repository's own, built where it isn't there."""
    program = os.environ.get("PROGRAM")
    if not program:
        program = os.path.join(TOP, "unixfs")
        subprocess.run([program, "add", "-n"], stdin=subprocess.DEVNULL, stdout=subprocess.DEVNULL, check=True)
    return os.path.abspath(program)


def main():
    """Checks the examples of the files that the words name."""
    program = the_program()
    wrong = count = 0
    for name in sys.argv[1:]:
        with open(name, encoding="utf-8") as manual:
            blocks = [steps(block) for block in examples(manual.read())]
        if not blocks:
            wrong += 1
            print(f"examples: {name} has none")
        for block in blocks:
            for (command, wanted), got in zip(block, session([command for command, _ in block], program)):
                count += 1
                if got != wanted:
                    wrong += 1
                    print(f"examples: {name}: $ {command}\n  wanted: {wanted}\n  got:    {got}")
    print(f"examples: {count - wrong} passed, {wrong} failed")
    sys.exit(1 if wrong or not count else 0)


if __name__ == "__main__":
    main()
