#!/usr/bin/env python3
"""Times the built programs on inputs of two sizes, and prints how the times grow.

Run ./run once before, and `rt run <stdin` in crates/bench_formulas, crates/bench_lines and
crates/bench_bytes, so that the programs are built. The second input of each pair is ten times as long; the aim is that it takes at
most 25 times as long, and 30 times where lines are edited by themselves.
The memory is the greatest resident set of the run.
"""

import os
import resource
import subprocess
import sys
import time

TOP = os.path.dirname(os.path.dirname(os.path.abspath(__file__)))
EDITOR = os.path.join(TOP, "crates", "edit_script", "out", "edit_script")
PRINTER = os.path.join(TOP, "crates", "bench_formulas", "out", "bench_formulas")
LINES = os.path.join(TOP, "crates", "bench_lines", "out", "bench_lines")
BYTES = os.path.join(TOP, "crates", "bench_bytes", "out", "bench_bytes")
SMALL, LARGE = 10_000, 100_000
FEW, MANY = 1_000, 10_000
ROUNDS = 200
READS = 20
AIM = 25
LINE_ROUNDS = 5
RECORDED_ROUNDS = 20
LINE_AIM = 30
BYTE_ROUNDS = 20
CLEARINGS = ("clear", "clear-contents", "clear-formatting")
BYTE_TASKS = ("encode-numbers", "decode-numbers", "encode-formulas", "decode-formulas")
LINE_EDITS = ("insert-rows", "insert-columns", "move-rows", "move-columns")


FORMULA = "=A1+$B$2*SUM(C3:D9)"
COLUMNS = [chr(65 + n) if n < 26 else chr(64 + n // 26) + chr(65 + n % 26) for n in range(100)]


def cells(count):
    """The names of as many distinct cells, over 100 columns."""
    return [f"{COLUMNS[n % 100]}{n // 100 + 1}" for n in range(count)]


def sets(count):
    """Sets as many cells to numbers."""
    return [f"set 0 {cell} {n}" for n, cell in enumerate(cells(count))]


def formulas(count):
    """Sets as many cells to a formula."""
    return [f"set 0 {cell} {FORMULA}" for cell in cells(count)]


def texts(count):
    """Sets as many cells to a text as long as the formula."""
    return [f"set 0 {cell} {'x' * len(FORMULA)}" for cell in cells(count)]


def formulas_asked(count):
    """Sets as many cells to a formula, and asks for each."""
    return [line for cell in cells(count) for line in (f"set 0 {cell} {FORMULA}", f"get 0 {cell}")]


def texts_asked(count):
    return [line for cell in cells(count) for line in (f"set 0 {cell} {'x' * len(FORMULA)}", f"get 0 {cell}")]


def long_formula(length):
    """Sets one cell so often to a call whose text has that many bytes."""
    text = "=SUM(" + "1," * ((length - 8) // 2) + "11)"
    return [f"set 0 A1 {text}"] * READS


def all_and_back(count):
    return sets(count) + ["undo"] * count + ["redo"] * count


def synced_each(count):
    return [line for edit in sets(count) for line in (edit, "sync")]


def last_place(count):
    """The last of as many cells that fill a rectangle from A1 on."""
    return f"{COLUMNS[99]}{count // 100}"


def styled(count):
    """Changes the styles of as many empty cells."""
    return [f"style 0 A1:{last_place(count)} font.b true"]


def styled_and_cleared(count):
    """Sets as many cells, changes the styles of their columns, and takes contents and styles away."""
    columns = f"0 A1:{COLUMNS[99]}1048576"
    return sets(count) + [f"style {columns} font.i true", f"clear-contents 0 A1:{last_place(count)}", f"clear-formatting {columns}"]


def cleared(count):
    """Sets as many cells, and clears a small rectangle as often in each way."""
    return sets(count) + [f"{edit} 0 A1:B2" for edit in CLEARINGS] * count


def filled(count):
    """Goes on from two numbers in as many cells below them."""
    return ["set 0 A1 1", "set 0 A2 3", f"fill-rows 0 A1:A2 {count + 2}"]


def drawn(count):
    """Draws as many commands from a seed."""
    return [f"make 7 {count}"]


def printed_call(count):
    """Asks for a call of as many arguments in each form, so often."""
    return [str(count), str(ROUNDS), "0", "0"]


def printed_names(count):
    """Asks for a LET of as many names, each used once, in the form of Excel, so often."""
    return ["0", "0", str(count), str(ROUNDS)]


def run(program, lines):
    """The seconds of the best of three runs, the output's bytes, and the greatest memory in bytes."""
    script = ("\n".join(lines) + "\n").encode()
    best = None
    for _ in range(3):
        began = time.perf_counter()
        process = subprocess.Popen([program], stdin=subprocess.PIPE, stdout=subprocess.PIPE)
        output, _ = process.communicate(script)
        seconds = time.perf_counter() - began
        if process.returncode != 0:
            sys.exit(f"bench: {program} ended with status {process.returncode}")
        best = seconds if best is None else min(best, seconds)
    memory = resource.getrusage(resource.RUSAGE_CHILDREN).ru_maxrss * 1024
    return best, output, memory


def pair(name, script, program=EDITOR, sizes=(SMALL, LARGE)):
    short, long = sizes
    small, _, _ = run(program, script(short))
    large, output, memory = run(program, script(long))
    ratio = large / small
    state = "ok" if ratio <= AIM else "TOO SLOW"
    print(f"{name}: {short} in {small:.3f} s, {long} in {large:.3f} s, ratio {ratio:.1f} (at most {AIM}: {state})")
    return large, output, memory, ratio <= AIM


def line_seconds(edit, count, edits, returns):
    """The seconds of so many edits of lines of a workbook of so many formulas, or of so many ways back."""
    seconds, _, _ = run(LINES, [edit, str(count), str(edits), str(returns)])
    return seconds


def edit_times(edit, count):
    """The seconds of an edit, and of going back, each by itself."""
    built = line_seconds(edit, count, 0, 0)
    edited = line_seconds(edit, count, LINE_ROUNDS, 0) - built
    back = line_seconds(edit, count, 0, LINE_ROUNDS) - built - edited / LINE_ROUNDS
    return edited, back


def recorded_times(edit, count):
    """The same through the user model: an edit with its record, and an undo, in scripts of the program."""
    script = formulas(count)
    edits = [f"{edit} 0 3 1" + (" 1" if edit.startswith("move") else "")] * RECORDED_ROUNDS
    built, _, _ = run(EDITOR, script)
    edited = run(EDITOR, script + edits)[0] - built
    back = run(EDITOR, script + edits + ["undo"] * RECORDED_ROUNDS)[0] - built - edited
    return edited, back


def line_edits(times, rounds, what, aim):
    """How the time of each edit of lines grows, and of going back."""
    fast = True
    for edit in LINE_EDITS:
        for name, small, large in zip((edit, f"{edit}, taken back"), times(edit, SMALL), times(edit, LARGE)):
            ratio = large / small
            state = "ok" if ratio <= aim else "TOO SLOW"
            print(f"{name}, {what}: {SMALL} and {LARGE} formulas, ratio {ratio:.1f} (at most {aim}: {state})")
            print(f"  {large / rounds / LARGE * 1e9:.0f} ns a formula")
            fast = fast and ratio <= aim
    return fast


def byte_times(task, count):
    """The seconds in which the bytes of a workbook of so many cells are written once, or opened, and how many they are."""
    built, _, _ = run(BYTES, [f"{task} {count} 0"])
    seconds, output, _ = run(BYTES, [f"{task} {count} {BYTE_ROUNDS}"])
    return (seconds - built) / BYTE_ROUNDS, int(output)


def workbook_bytes():
    """How the times of writing and of opening the bytes of a workbook grow."""
    fast = True
    for task in BYTE_TASKS:
        (small, _), (large, length) = byte_times(task, SMALL), byte_times(task, LARGE)
        ratio = large / small
        state = "ok" if ratio <= AIM else "TOO SLOW"
        print(f"{task}: {SMALL} cells in {small:.4f} s, {LARGE} in {large:.4f} s, ratio {ratio:.1f} (at most {AIM}: {state})")
        print(f"  {length / large / 1e6:.1f} million bytes a second, {length / LARGE:.0f} bytes a cell")
        fast = fast and ratio <= AIM
    return fast


def shares(formula_seconds):
    """How the time of a set and a get of a formula is shared out, against a text of the same length."""
    text_seconds, _, _ = run(EDITOR, texts(LARGE))
    asked, _, _ = run(EDITOR, formulas_asked(LARGE))
    text_asked, _, _ = run(EDITOR, texts_asked(LARGE))
    reading = formula_seconds - text_seconds
    printing = (asked - formula_seconds) - (text_asked - text_seconds)
    storing = asked - reading - printing
    for name, seconds in (("reading", reading), ("printing", printing), ("storing and the rest", storing)):
        print(f"  {name}: {seconds / asked * 100:.0f} % of a set and a get")


RANGES = (
    ("styles of a rectangle", styled),
    ("cells set, and columns styled and cleared", styled_and_cleared),
    ("cells set, and a small rectangle cleared as often", cleared),
    ("a fill", filled),
)


def main():
    if not os.path.exists(EDITOR):
        sys.exit("bench: build the program first, by ./run examples/first.script")
    if not os.path.exists(PRINTER):
        sys.exit("bench: build the printing program first, by `rt run <stdin` in crates/bench_formulas")
    if not os.path.exists(LINES):
        sys.exit("bench: build the program of line edits first, by `rt run <stdin` in crates/bench_lines")
    if not os.path.exists(BYTES):
        sys.exit("bench: build the program of bytes first, by `rt run <stdin` in crates/bench_bytes")
    seconds, _, memory, fast = pair("sets", sets)
    print(f"  {seconds / LARGE * 1e9:.0f} ns an edit, at most {memory / LARGE:.0f} bytes a set cell in all")
    _, _, _, fast_back = pair("sets, undos and redos", all_and_back)
    seconds, output, _, fast_sync = pair("edits with a sync after each", synced_each)
    synced = sum(len(line) - 5 for line in output.split(b"\n") if line.startswith(b"sync ")) // 2
    print(f"  {synced / seconds / 1e6:.1f} million bytes of sync a second")
    seconds, _, memory, fast_set = pair("sets of a formula", formulas)
    print(f"  {seconds / LARGE * 1e9:.0f} ns an edit, at most {memory / LARGE:.0f} bytes a set cell in all")
    shares(seconds)
    fast_ranges = [pair(name, script)[3] for name, script in RANGES]
    _, _, _, fast_drawn = pair("drawn commands", drawn)
    _, _, _, fast_read = pair(f"bytes of a formula, read {READS} times", long_formula)
    _, _, _, fast_print = pair("arguments printed in five forms", printed_call, PRINTER, (FEW, MANY))
    _, _, _, fast_names = pair("bound names printed for Excel", printed_names, PRINTER, (FEW, MANY))
    # (last, as the memory told above is that of the greatest run so far)
    fast_lines = line_edits(edit_times, LINE_ROUNDS, "by itself", LINE_AIM)
    fast_records = line_edits(recorded_times, RECORDED_ROUNDS, "through the user model", AIM)
    fast_bytes = workbook_bytes()
    scripts = [fast, fast_back, fast_sync, fast_set, fast_drawn, fast_read, fast_records]
    programs = [fast_print, fast_names, fast_lines, fast_bytes]
    sys.exit(0 if all(scripts + programs + fast_ranges) else 1)


if __name__ == "__main__":
    main()
