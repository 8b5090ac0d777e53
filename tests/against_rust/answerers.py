"""The programs that answer questions: Rust's standard library behind std_answers.rs, one that is wrong on purpose, and the one that is tested."""
import os
import re
import subprocess
import tempfile

HERE = os.path.dirname(os.path.abspath(__file__))
ROOT = os.path.dirname(os.path.dirname(HERE))
SOURCE = os.path.join(HERE, "std_answers.rs")
INTEGERS = os.path.join(HERE, "of_integers.rs")
BUILT = os.path.join(ROOT, "target", "against_rust")
LEAST_RUSTC = (1, 90)
SECONDS = 300


class Fault(Exception):
    pass


def rustc_version():
    """What rustc says of itself, or None where there is none, or only one that lacks some of the operations."""
    try:
        said = subprocess.run(["rustc", "--version"], capture_output=True, text=True, check=True).stdout.strip()
    except (OSError, subprocess.CalledProcessError):
        return None
    number = re.match(r"rustc (\d+)\.(\d+)", said)
    return said if number and tuple(map(int, number.groups())) >= LEAST_RUSTC else None


def built(name, version, *flags):
    """The program built from std_answers.rs, again only where the source, the compiler or the flags have changed."""
    os.makedirs(BUILT, exist_ok=True)
    program, stamp = os.path.join(BUILT, name), os.path.join(BUILT, name + ".stamp")
    now = "\n".join([version, *flags])
    for source in (SOURCE, INTEGERS):
        with open(source, encoding="utf-8") as file:
            now += "\n" + file.read()
    if os.path.exists(program) and os.path.exists(stamp):
        with open(stamp, encoding="utf-8") as file:
            if file.read() == now:
                return program
    if subprocess.run(["rustc", "--edition", "2021", "-O", *flags, "-o", program, SOURCE], check=False).returncode != 0:
        raise Fault("rustc does not compile %s" % SOURCE)
    with open(stamp, "w", encoding="utf-8") as file:
        file.write(now)
    return program


def started(command, given, said):
    try:
        return subprocess.Popen(command, stdin=given, stdout=said, bufsize=0)
    except OSError as error:
        raise Fault("%s cannot be run: %s" % (command[0], error)) from error


def what_was_said(command, program, said):
    """What a program has written when it ends. A Fault where it ends badly, or takes too long."""
    try:
        status = program.wait(SECONDS)
    except subprocess.TimeoutExpired as error:
        program.kill()
        program.wait()
        raise Fault("%s has not ended after %d s" % (command[0], SECONDS)) from error
    said.seek(0)
    found = said.read()
    if status != 0:
        raise Fault("%s ended with status %d after %d answers" % (command[0], status, found.count(b"\n")))
    return found


def answers(command, questions):
    """What a program answers when it is fed these bytes from a file."""
    with tempfile.TemporaryFile() as given, tempfile.TemporaryFile() as said:
        given.write(questions)
        given.seek(0)
        return what_was_said(command, started(command, given, said), said)


def answers_to_pieces(command, pieces):
    """What a program answers when these pieces come one by one through a pipe, cut where they are."""
    with tempfile.TemporaryFile() as said, started(command, subprocess.PIPE, said) as program:
        try:
            for piece in pieces:
                program.stdin.write(piece)
            program.stdin.close()
        except BrokenPipeError as error:
            raise Fault("%s stops reading" % command[0]) from error
        return what_was_said(command, program, said)
