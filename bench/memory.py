#!/usr/bin/env python3
"""Refuses each allocation in turn: of runs of the built program `zv`, and of the tests that the gate has built.

    bench/memory.py [CRATE..]    the program and all crates of tests that are built, or these (`zv` is the program)

Build first: `./zv --prove`, `.ci/run`, or `rt test` in a crate of tests. It needs a C compiler.

A run of the program has to end with status 6 and write nothing. A test has to end with an error that says that memory was
refused, or to pass: tests that change an object look at it first. zv_memory_tests is made for this; a test of another
crate may also take a refused call for a wrong answer and stop, which is counted apart and is no failure of the code.
The last line says how many allocations were refused. The status is 1 where a run or a test ended otherwise.
"""
import collections
import concurrent.futures
import os
import re
import subprocess
import sys
import tempfile
import time

import model

TOP = os.path.dirname(os.path.dirname(os.path.abspath(__file__)))
MADE_FOR_THIS = "zv_memory_tests"
MOST = 400  # allocations of a run or a test that are refused in turn, and then one in each STEP
STEP = 97
SECONDS = 60  # and no more are refused of a run or a test after these
WITHOUT_MEMORY = re.compile(rb"error: (AllocError|AllocFailed|NoMemory|Memory|OutOfMemory)\b")


# The frozen image of the three pairs of docs/FORMATS.md.
FROZEN = model.framed(
    [
        bytes.fromhex("0000000002000000 0000000002000000 0000000001000000"),
        model.encoded([bytes([2, 0, 0, 0]) + b"ab", bytes([1, 0, 0, 0]) + b"ab", bytes(4) + b"ab"], 2),
        model.encoded([b"\3", b"\2", b"\1"], 2),
    ]
)


def field(data):
    return model.spelled(data).decode()


def table_row(first, last, value):
    """A row of a table of code points."""
    return first.to_bytes(4, "little") + last.to_bytes(4, "little") + value.to_bytes(2, "little")


def forms():
    """Runs of each form: words and an input."""
    locales = {}
    scripts = "ar Nbat Palm,az Arab,cu Glag,en Shaw,ff Adlm,fr Latn,kk Arab,ku Arab Yezi,sd Deva Khoj Sind,zh Bopo Hans Hant"
    for row in scripts.split(","):
        language, *names = row.split()
        locales[language.encode()] = {name.encode(): b"IN" for name in names}
    edit = field(model.canonical(locales)) + "\nget x7364 x4b686f6a\nrow x6b75\ndel x7a68 x426f706f\nput x656e x4c61746e x5553\n"
    names = {b"data of a long name": {b"en": b"\1", b"en-GB": b"\2", b"und": b"\3"}}
    asks = f"\nask {field(b'data of a long name')} {field(b'en-GB-oxendict')}\nask x64 x6672\n"
    wide = {b"a": {b"b": bytes(70_000)}}
    puts = field(model.canonical({})) + "\nput x61 x62 x01\n"
    splits = {b"": {b"ab": b"\1"}, b"a": {b"b": b"\2"}, b"ab": {b"": b"\3"}}
    stuck = {b"a": {b"b": b"\1", b"c": b"\2"}, b"b": {b"": b"\3"}}
    return [
        (["edit"], puts),
        (["edit"], edit),
        (["edit"], field(model.canonical(wide)) + "\nput x61 x62 x" + "22" * 70_001 + "\nput x63 x64 x01\n"),
        (["edit"], puts + "find x61\n"),
        (["edit"], "x00\nget x61 x62\n"),
        (["look", "x7364", "x4b686f6a"], field(model.canonical(locales)) + "\n"),
        (["look", field(b"a key of more than twelve bytes"), "x62"], field(model.canonical(wide)) + "\n"),
        (["locale"], field(model.canonical(names)) + asks),
        (["layers"], field(model.canonical(locales)) + "\n" + field(model.canonical(names)) + "\n" + field(model.canonical(wide)) + "\n"),
        (["layers"], field(model.canonical(locales)) + "\nx00\n"),
        (["props"], "x\nset 65 90 1\nset 97 122 1\nat 66\nset 91 96 1\nset 70 80 2\n"),
        (["props"], "x00\nat 65\n"),
        (["props"], field(b"".join(table_row(65 + 3 * i, 66 + 3 * i, 1 + i % 7) for i in range(49))) + "\nset 70 80 2\nat 66\n"),
        (["make", "65"], ""),
        (["make", "4001"], ""),
        (["freeze"], field(model.canonical(splits)) + "\n"),
        (["freeze"], field(model.canonical(stuck)) + "\n"),
        (["ask", "x6162", field(b"a key of more than twelve bytes")], field(FROZEN) + "\n"),
        (["thaw"], field(FROZEN) + "\n"),
    ]


def build(folder):
    library = os.path.join(folder, "refuse.so")
    source = os.path.join(TOP, "bench", "refuse.c")
    subprocess.run(["cc", "-O2", "-shared", "-fPIC", "-o", library, source], check=True)
    return library


def run(library, command, text, number):
    """A run whose allocation with a number is refused, and whether it came to that one."""
    reader, writer = os.pipe()
    env = {"LD_PRELOAD": library, "REFUSE": str(number), "REFUSE_TELL": str(writer)}
    done = subprocess.run(command, input=text, capture_output=True, check=False, env=env, pass_fds=[writer])
    os.close(writer)
    came = os.read(reader, 1) == b"r"
    os.close(reader)
    return done, came


def numbers():
    """The allocations that are refused: the first ones each, and then some."""
    yield from range(1, MOST + 1)
    yield from range(MOST + STEP, 1_000_000, STEP)


def each_refusal(library, command, text, judge):
    """Counts what the judge says of each refusal, until a run has fewer allocations."""
    count, end = collections.Counter(), time.monotonic() + SECONDS
    for number in numbers():
        if time.monotonic() > end:
            print(f"{' '.join(command[1:])}: only the allocations up to {number - 1}")
            break
        done, came = run(library, command, text, number)
        if not came:
            break
        said = judge(done)
        count[said] += 1
        if said == "bad":
            print(f"{' '.join(command[1:])}: allocation {number}: status {done.returncode}: {(done.stdout + done.stderr)[-200:]}")
    return count


def judge_program(done):
    return "refused" if done.returncode == 6 and not done.stdout and not done.stderr else "bad"


def judge_test(is_made_for_this):
    def judge(done):
        said = done.stdout + done.stderr
        if done.returncode == 0:
            return "passed"
        if WITHOUT_MEMORY.search(said) and done.returncode > 0:
            return "refused"
        is_stop = done.returncode == -6 and not is_made_for_this
        return "stopped" if is_stop else "bad"

    return judge


def tests_of(program):
    listed = subprocess.run([program, "--list"], capture_output=True, check=True).stdout.decode()
    return re.findall(r"(?m)^(\S+): test$", listed)


def jobs(names):
    """What is run: a name, a command, its input, and a judge."""
    program = os.path.join(TOP, "crates", "zv", "out", "zv")
    if os.path.exists(program) and (not names or "zv" in names):
        for words, text in forms():
            yield f"zv {' '.join(words)}", [program, *words], text.encode(), judge_program
    for crate in sorted(os.listdir(os.path.join(TOP, "crates"))):
        tests = os.path.join(TOP, "crates", crate, "out", f"{crate}_tests")
        if os.path.exists(tests) and (not names or crate in names):
            for test in tests_of(tests):
                yield f"{crate} {test}", [tests, test], b"", judge_test(crate == MADE_FOR_THIS)


def main():
    if sys.argv[1:2] in (["-h"], ["--help"]):
        print(__doc__)
        return
    total, runs = collections.Counter(), 0
    with tempfile.TemporaryDirectory() as folder, concurrent.futures.ThreadPoolExecutor(os.cpu_count()) as pool:
        library = build(folder)
        found = [(name, pool.submit(each_refusal, library, command, text, judge)) for name, command, text, judge in jobs(sys.argv[1:])]
        for name, future in found:
            count = future.result()
            if "bad" in count:
                print(f"{name}: {count['bad']} of {sum(count.values())} refusals end otherwise")
            total += count
            runs += 1
    if not runs:
        sys.exit("nothing is built: ./zv --prove, .ci/run, or rt test in a crate of tests")
    print(
        f"{sum(total.values())} allocations were refused in {runs} runs and tests: {total['refused']} told, "
        f"{total['passed']} not needed, {total['stopped']} taken for a wrong answer by a test, {total['bad']} ended otherwise"
    )
    sys.exit(1 if total["bad"] else 0)


if __name__ == "__main__":
    main()
