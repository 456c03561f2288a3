"""Documents that the benches generate, and the time and memory of runs on them."""
import os
import random
import subprocess
import sys
import time

TOP = os.path.dirname(os.path.dirname(os.path.abspath(__file__)))
LAUNCHER = os.path.join(TOP, "qmlstage")
PROGRAM = os.path.join(TOP, "crates", "qmlstage", "out", "qmlstage")
LETTERS = list("abcdefghij  ") + [r"\n", r"\t"]


def expression(chance, depth):
    """An expression with so many levels at most."""
    if depth == 0 or chance.random() < 0.2:
        return chance.choice(["width", "height", "parent.width", "gauge.value", "12", "0x1f", "'text'", "true"])
    left, right = expression(chance, depth - 1), expression(chance, depth - 1)
    forms = [f"{left} + {right}", f"({left} - {right}) * 2", f"-{left}" if left[0] != "-" else left]
    forms += [f"Math.max({left}, {right})", f"{left} < {right} ? {left} : {right}", f"{left} && !({right})"]
    return chance.choice(forms)


def deep(chance):
    """An expression within sixty parentheses."""
    return "(" * 60 + "1" + "".join(f" + {chance.randrange(100)})" for _ in range(60))


def an_object(chance, number):
    """An object with a bit of everything that documents have."""
    text = "".join(chance.choice(LETTERS) for _ in range(chance.randrange(20, 400)))
    return f"""
    // object {number}
    Rectangle {{
        id: item{number}
        property int value{number}: {expression(chance, 3)}
        property string text{number}: "{text}"
        x: {expression(chance, 2)}; y: {number % 480}
        width: {expression(chance, 3)}
        color: "#{number % 2**24:06x}"
        anchors {{ left: parent.left; leftMargin: {number % 7} }}
        onXChanged: {{ if (x > {number}) total += x; else {{ var old = total; total = old - 1 }} }}
        {"z: " + deep(chance) if number % 20 == 0 else ""}
    }}
"""


def document(size, an_object=an_object):
    """A document of exactly so many bytes, whose root is an Item with as many objects as fit."""
    chance, parts, left, number = random.Random(7), [], size - len("Item {\n}\n"), 0
    while True:
        part = an_object(chance, number)
        if len(part) > left:
            return "Item {\n" + "".join(parts) + " " * left + "}\n"
        parts.append(part)
        left -= len(part)
        number += 1


def write(folder, texts):
    """Writes files, given by their names, into the folder."""
    for name, text in texts.items():
        with open(os.path.join(folder, name), "w") as file:
            file.write(text)


def build(folder):
    """Runs the launcher once, which builds the program where it is missing or old, and says so."""
    write(folder, {"script.txt": "", "Main.qml": "Item { }"})
    if subprocess.run([LAUNCHER, "Main.qml", "script.txt"], cwd=folder).returncode != 0:
        sys.exit(f"{sys.argv[0]}: the program does not run")


def started(folder, name):
    return subprocess.Popen([PROGRAM, name, "script.txt"], cwd=folder, stderr=subprocess.PIPE)


def seconds(folder, name, expected):
    """Seconds of one run, which is to say on standard error what is expected."""
    began = time.monotonic()
    line = started(folder, name).communicate()[1].decode()
    took = time.monotonic() - began
    if line != expected:
        sys.exit(f"{name} ended otherwise: {line}")
    return took


def least_seconds(folder, said, runs):
    """The least seconds of so many runs of each document, which is to say just that on standard error.

    The documents take turns, so that a while in which the machine has other work doesn't fall on one of them alone.
    """
    turns = [{name: seconds(folder, name, line) for name, line in said.items()} for _ in range(runs)]
    return {name: min(turn[name] for turn in turns) for name in said}


def peak_memory(folder, name):
    """The program's peak memory in bytes, as the system told it last before the program ended.

    What the system tells of a child that has ended counts in the memory that this script had when it started it.
    """
    peak = 0
    with started(folder, name) as child:
        while child.poll() is None:
            with open(f"/proc/{child.pid}/status") as file:
                peak = max([peak] + [1024 * int(line.split()[1]) for line in file if line.startswith("VmHWM")])
    return peak
