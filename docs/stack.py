#!/usr/bin/env python3
"""How many bytes of stack a call of each export takes, from the machine code: docs/STACK.md.

    python3 docs/stack.py ARCHIVE            writes the page anew
    python3 docs/stack.py ARCHIVE --check    exit status 1 where the page says otherwise than the code

Every way through a function is followed, with what it has pushed so far; a call adds its return address and what the function takes that is called. Code that
is not understood (a stack pointer that is moved by something else than a number, a jump or call whose target stands in a register, functions that call each
other in a circle) is a fault, not a guess. Needs objdump."""
import os
import re
import subprocess
import sys
import textwrap

PAGE = os.path.join(os.path.dirname(os.path.abspath(__file__)), "STACK.md")
WIDTH = 160
RETURN = 8  # bytes of a return address


class Fault(Exception):
    pass


def disassembled(archive):
    """{(object, function): [(place, operation, operands, the function that it leads to)]}"""
    command = ["objdump", "-dr", "--no-show-raw-insn", "-M", "intel", archive]
    functions, own, member = {}, None, None
    for line in subprocess.run(command, capture_output=True, text=True, check=True).stdout.split("\n"):
        head, code, linked = (
            re.match(pattern, line)
            for pattern in (r"(\S+\.o):\s+file format|[0-9a-f]+ <(.+)>:$", r" *([0-9a-f]+):\t(\S+) *(.*)$", r"\s+[0-9a-f]+: R_X86_64_\w+\s+(\S+)")
        )
        if head and head.group(1):
            member = head.group(1)
        elif head:
            own = functions.setdefault((member, head.group(2)), [])
        elif code:
            own.append((int(code.group(1), 16), code.group(2), code.group(3), None))
        elif linked:
            own[-1] = own[-1][:3] + (re.sub(r"^\.text\.|[-+]0x[0-9a-f]+$", "", linked.group(1)),)
    return functions


def moved(operation, operands):
    """By how many bytes an instruction lowers the stack pointer."""
    if operation in ("push", "pop"):
        return 8 if operation == "push" else -8
    match = re.match(r"rsp,(0x[0-9a-f]+)$", operands)
    if operation in ("sub", "add") and match:
        return int(match.group(1), 16) * (1 if operation == "sub" else -1)
    if re.match(r"[er]?spl?\b", operands) and operation not in ("cmp", "test") or operation in ("leave", "enter", "xchg") and "rsp" in operands:
        raise Fault("%s %s" % (operation, operands))
    return 0


def jumps(operation, operands, linked):
    """Where an instruction leads to within its function, whether it goes on behind it, and the function that it calls or goes over to."""
    target = re.match(r"([0-9a-f]+) <", operands)
    if operation in ("ret", "ud2"):
        return None, False, None
    if operation == "call" or operation.startswith("j"):
        if not target and not linked:
            raise Fault("%s %s" % (operation, operands))
        inside = None if linked else int(target.group(1), 16)
        return inside, operation != "jmp", linked
    return None, True, None


def taken(function, functions, above=()):
    """The bytes below the return address that a function takes at most, and whether it writes below its stack pointer."""
    if function in above:
        raise Fault("%s calls itself" % function[1])
    code = functions[function]
    places = {line[0]: number for number, line in enumerate(code)}
    most, below, depths, ahead = 0, False, {}, [(0, 0)]
    while ahead:
        number, depth = ahead.pop()
        if number in depths:
            if depths[number] != depth:
                raise Fault("two depths at %x" % code[number][0])
            continue
        depths[number] = depth
        _, operation, operands, linked = code[number]
        inside, on, called = jumps(operation, operands, linked if operation == "call" or operation.startswith("j") else None)
        if operation == "ret" and depth:
            raise Fault("it returns with %d bytes pushed" % depth)
        depth += moved(operation, operands)
        most = max(most, depth)
        for distance in re.findall(r"\[rsp[^\]]*-(0x[0-9a-f]+)\]", operands):
            most, below = max(most, depth + int(distance, 16)), True
        if called:
            inner, inner_below = taken((function[0], called), functions, (*above, function))
            most, below = max(most, depth + inner + (RETURN if operation == "call" else 0)), below or inner_below
        if inside is not None:
            ahead.append((places[inside], depth))
        if on:
            ahead.append((number + 1, depth))
    return most, below


def bounds(archive):
    """{export: (bytes, whether it writes below its stack pointer)}"""
    functions, found = disassembled(archive), {}
    for function in functions:
        if function[1].startswith("pb_"):
            try:
                most, below = taken(function, functions)
            except Fault as fault:
                sys.exit("stack: %s: not understood: %s" % (function[1], fault))
            found[function[1]] = RETURN + most, below
    return found


def listed(names):
    """Names under one another's types: `pb_i8_write_decimal` and `pb_u8_write_decimal` are `write_decimal` of i8, u8."""
    groups = {}
    for name in names:
        group, operation = re.match(r"pb_([a-z0-9]+)_(\w+)$", name).groups()
        groups.setdefault(operation, []).append(group)
    of_types = {}
    for operation, types in groups.items():
        of_types.setdefault(tuple(types), []).append(operation)
    return "; ".join("%s: %s" % (", ".join(types), ", ".join("`%s`" % name for name in sorted(operations))) for types, operations in sorted(of_types.items()))


def page(found):
    by_size = {}
    for name, (size, _) in sorted(found.items()):
        by_size.setdefault(size, []).append(name)
    least = min(by_size)
    sizes = sorted(by_size.items(), reverse=True)
    rows = ["| %d | %s |" % (size, listed(names) if size > least else "the other %d functions" % len(names)) for size, names in sizes]
    below = sorted(name for name, (_, writes) in found.items() if writes)
    paragraphs = (TEXT % (max(by_size), listed(below) if below else "none")).strip().split("\n\n")
    filled = [textwrap.fill(" ".join(text.split()), WIDTH, break_on_hyphens=False, break_long_words=False) for text in paragraphs]
    return "\n\n".join(filled + ["\n".join(["| bytes | functions |", "|---|---|", *rows])]) + "\n"


TEXT = """
# Stack

A call takes at most %d bytes of stack. The table has of each function how many bytes below the caller's stack pointer it uses, with its return address and with
what it calls. They hold for all arguments: no function calls itself, none is called by an address, and no array grows with an argument.

docs/stack.py reads them from the machine code of the archive, on every way through it, and the test of the bindings compares them anew. Of code that was
inlined into a program (bindings/README.md) they say nothing: that uses the stack of the function which it became part of. Nearly all of the largest is a table
of 2048 bytes by which text is tested.

As the convention of x86-64 allows (System V, the red zone), a function may use up to 128 bytes below its stack pointer, which count here. What interrupts such
a function on the same stack must leave these bytes alone, as signal handlers do. The functions that do so: %s.
"""


def main():
    if len(sys.argv) not in (2, 3) or sys.argv[2:] not in ([], ["--check"]):
        sys.exit(__doc__)
    text = page(bounds(sys.argv[1]))
    if sys.argv[2:]:
        with open(PAGE, encoding="utf-8") as file:
            if file.read() != text:
                sys.exit("stack: docs/STACK.md says otherwise than the code: python3 docs/stack.py %s writes it" % sys.argv[1])
        return
    with open(PAGE, "w", encoding="utf-8") as file:
        file.write(text)


if __name__ == "__main__":
    main()
