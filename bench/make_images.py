#!/usr/bin/env python3
"""Writes images/fib.image and images/count.image.

A program is a list of instructions by name, each with its operand, and of labels. An operand is a number, an operation's
name or a label, which stands for its place in the image.
"""

import pathlib

INSTRUCTIONS = ["halt", "push", "arg", "load", "store", "operate", "jump-if-zero", "jump", "call", "set-frame", "return",
                "out", "next", "pop", "reserve", "release", "count"]
OPERATIONS = ["add", "sub", "mul", "div", "less", "same"]


def assemble(text):
    """The code's words. A line is a label with a colon, or an instruction and its operand (0 if there is none)."""
    lines = [line.split("#")[0].split() for line in text.splitlines()]
    lines = [line for line in lines if line]
    places, size = {}, 0
    for line in lines:
        if line[0].endswith(":"):
            places[line[0][:-1]] = size
        else:
            size += 2
    code = []
    for line in lines:
        if line[0].endswith(":"):
            continue
        operand = line[1] if len(line) > 1 else "0"
        if operand in OPERATIONS:
            value = OPERATIONS.index(operand)
        elif operand in places:
            value = places[operand]
        else:
            value = int(operand)
        code += [INSTRUCTIONS.index(line[0]), value]
    return code


# An image begins with a call of the first unit's procedure 0 and a halt.
START = """
    call main
    halt 1
"""


def fib(callee, name):
    """A procedure name(n) = if n < 2 then n else callee(n - 1) + callee(n - 2), as the compiler writes it.

    Frame: 4, 1 argument, and the body's height 3 (a sum whose second operand is a call with a difference as its argument).
    """
    return f"""
{name}:
    count
    reserve 8
    set-frame 1
    arg 0               # n < 2
    push 2
    operate less
    jump-if-zero {name}-else
    arg 0               # then n
    jump {name}-end
{name}-else:
    arg 0               # callee(n - 1)
    push 1
    operate sub
    call {callee}
    arg 0               # callee(n - 2)
    push 2
    operate sub
    call {callee}
    operate add
{name}-end:
    release 8
    return 1
"""


# Unit 1 offers main and f, unit 2 offers g; f and g call each other. Frame of main: 4, no argument, height 1.
FIB = START + """
main:                   # out f(32)
    count
    reserve 5
    set-frame 0
    push 32
    call f
    out
    release 5
    return 0
""" + fib("g", "f") + fib("f", "g")

# One unit with two words: word 0 counts to 5,555,555, word 1 becomes word 1 * 5 + word 0 - 7 in each turn.
COUNT = START + """
main:
    count
    reserve 6
    set-frame 0
loop:
    load 1
    push 5
    operate mul
    load 0
    operate add
    push 7
    operate sub
    store 1
    pop
    load 0
    push 1
    operate add
    store 0
    pop
    push 5555554        # again unless 5,555,554 < word 0
    load 0
    operate less
    jump-if-zero loop
    load 1
    out
    release 6
    return 0
"""


def write(name, text, words):
    """Two lines: the code's words, and the number of words of all units."""
    path = pathlib.Path(__file__).parent / "images" / f"{name}.image"
    path.parent.mkdir(exist_ok=True)
    path.write_text(" ".join(map(str, assemble(text))) + f"\n{words}\n")


write("fib", FIB, 0)
write("count", COUNT, 2)
