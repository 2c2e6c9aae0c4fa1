#!/usr/bin/env python3
"""Times the built programs on inputs of growing size: the best of several runs counts.

usage: bench/bench.py NAME..    NAME: lexer, parser, stack, modules, load, groups, types, arena, prims, lines, sessions, reactor

The programs are those that `rt run` leaves in crates/NAME/out. Each row has the input, the best time and the greatest
memory of a run. Figures of a machine that is busy with other work are worth little.
"""
import os
import resource
import shutil
import subprocess
import sys
import tempfile
import time

TOP = os.path.dirname(os.path.dirname(os.path.abspath(__file__)))
RUNS = 5


def program(name):
    return os.path.join(TOP, "crates", name, "out", name)


def run(words, path, limit=None):
    """The seconds, the greatest memory in bytes, what was written and the status of one run over a file."""
    keep = (lambda: resource.setrlimit(resource.RLIMIT_STACK, (limit, limit))) if limit else None
    with open(path, "rb") as text, tempfile.TemporaryFile() as screen:
        begun = time.perf_counter()
        child = subprocess.Popen(words, stdin=text, stdout=screen, cwd=TOP, preexec_fn=keep)
        _, status, usage = os.wait4(child.pid, 0)
        spent = time.perf_counter() - begun
        size = os.fstat(screen.fileno()).st_size
        screen.seek(0)
        return spent, usage.ru_maxrss * 1024, size, screen.read(200).decode(), os.waitstatus_to_exitcode(status)


def best(words, path, runs=RUNS):
    return min(run(words, path) for _ in range(runs))


def row(said, spent, memory, rounds=1, size=None):
    rate = f", {size * rounds / spent / 1e6:.0f} MB/s" if size else ""
    print(f"{said.strip()}: {spent * 1000 / rounds:.2f} ms{rate}, {memory / 1e6:.1f} MB")


def written(folder, text):
    path = os.path.join(folder, "input")
    with open(path, "wb") as out:
        for piece in text if isinstance(text, list) else [text]:
            out.write(piece)
    return path


def lexer(folder):
    import texts
    for size in [131072, 262144, 524288]:
        spent, memory, _, said, _ = best([program("lexer_bench")], written(folder, texts.names(size).encode()))
        row(said, spent, memory, rounds=64, size=size)


def parser(folder):
    import texts
    for size in [131072, 262144, 524288, 1048576]:
        spent, memory, _, said, _ = best([program("parser_bench")], written(folder, texts.one_let(size).encode()))
        row(said, spent, memory, rounds=16, size=size)


def stack(folder):
    """How much stack the deepest accepted tree of each form takes, in steps of 64 KiB."""
    import texts
    for form, text in texts.deep_forms().items():
        path = written(folder, text.encode())
        low, high = 64, 8192
        while high - low > 64:
            middle = (low + high) // 128 * 64
            if run([program("parser_bench")], path, middle * 1024)[4] == 0:
                high = middle
            else:
                low = middle
        print(f"{form}: {high} KiB of stack")


def modules(folder):
    import texts
    for text in [texts.module(size) for size in [65536, 131072, 262144]] + [texts.chains(count) for count in [1250, 2500, 5000]]:
        spent, memory, _, said, _ = best([program("module_bench")], written(folder, text.encode()))
        row(said, spent, memory, rounds=16, size=len(text))


def by_numbers(name, rows):
    """Programs that read numbers, less the time of a run with nothing to do."""
    def words(numbers):
        return (" ".join(map(str, numbers)) + "\n").encode()

    def timed(folder):
        start = best([program(name)], written(folder, words([0] * len(rows[0]))))[0]
        for numbers in rows:
            spent, memory, _, said, _ = best([program(name)], written(folder, words(numbers)))
            row(said.replace("\n", "; "), spent - start, memory)
    return timed


def lines(folder):
    short = [b"input Mouse.clicks ()\n", b"goto 15\n", b"show\n", b"deliver 0\n", b"# a comment\n", b"latest\n"]
    block = b"".join(short) * 1000
    for size in [50_000_000, 100_000_000]:
        path = written(folder, [block] * (size // len(block)))
        spent, memory, _, said, _ = best([program("lines_bench")], path)
        row(f"{os.path.getsize(path)} bytes of short lines, {said}", spent, memory, size=size)
    path = written(folder, [b"x" * 1_000_000] * 1000)
    spent, memory, _, said, _ = best([program("lines_bench")], path, 2)
    row(f"one line of 1000000000 bytes, {said}", spent, memory, size=1_000_000_000)


NODE = """
const text = require("fs").readFileSync(process.argv[1], "utf8");
const best = work => {
  const times = [];
  for (let run = 0; run < 5; run++) {
    const begun = process.cpuUsage();
    work();
    const spent = process.cpuUsage(begun);
    times.push((spent.user + spent.system) / 1e6);
  }
  return Math.min(...times);
};
const value = JSON.parse(text);
console.log(best(() => JSON.parse(text)), best(() => JSON.stringify(value)));
"""


def node(path):
    """The least seconds of processor of JSON.parse and of JSON.stringify over a file, in one process; none without Node."""
    if not shutil.which("node"):
        return None
    done = subprocess.run(["node", "-e", NODE, path], capture_output=True, text=True, check=True)
    return [float(word) for word in done.stdout.split()]


def processor(words, path):
    """The least seconds of processor and the greatest memory of several runs over a file, and what was written."""
    def one():
        with open(path, "rb") as text, tempfile.TemporaryFile() as screen:
            child = subprocess.Popen(words, stdin=text, stdout=screen, cwd=TOP)
            _, _, usage = os.wait4(child.pid, 0)
            screen.seek(0)
            return usage.ru_utime + usage.ru_stime, usage.ru_maxrss * 1024, screen.read().decode()
    return min(one() for _ in range(RUNS))


def sessions(folder):
    """Reading and writing, each less what stands before it, beside Node's JSON.parse and JSON.stringify of the same text.
    All in seconds of processor."""
    import texts
    for make in [texts.deliveries, texts.input_events]:
        for count in [250_000, 500_000, 1_000_000]:
            text = make(count).encode()
            seconds = []
            for rounds in [b"0 0\n", b"1 0\n", b"0 1\n"]:
                spent, memory, said = processor([program("session_bench")], written(folder, [rounds, text]))
                seconds.append(spent)
            assert said.strip() == f"0 events read, {len(text)} bytes written"
            what = f"{make.__doc__}: {count}, {len(text)} bytes"
            row(f"{what}, read", seconds[1] - seconds[0], memory, size=len(text))
            row(f"{what}, written", seconds[2] - seconds[1], memory, size=len(text))
            if of_node := node(written(folder, text)):
                print(f"Node: parsed {of_node[0] * 1000:.2f} ms, printed {of_node[1] * 1000:.2f} ms")


def reactor(folder):
    words = [program("reactor"), "run", "examples/first"]
    for count in [250_000, 500_000, 1_000_000]:
        path = written(folder, "".join(f"input p {number}\n" for number in range(count)).encode())
        spent, memory, size, _, status = best(words, path, 3)
        assert status == 0
        row(f"{count} lines, {size} bytes written", spent, memory)
    line = b"-" * 65535 + b"\n"
    for extra, wanted in [(b"\n", 7), (b"", 0)]:
        path = written(folder, [line] * 16384 + [extra])
        spent, memory, _, _, status = best(words, path, 1)
        assert status == wanted
        row(f"{os.path.getsize(path)} bytes, status {status}", spent, memory)


BENCHES = {
    "lexer": lexer,
    "parser": parser,
    "stack": stack,
    "modules": modules,
    "load": by_numbers("load_bench", [(50, 2000), (100, 2000), (100, 4000)]),
    "groups": by_numbers("groups_bench", [(2500, 0), (5000, 0), (0, 2500), (0, 5000)]),
    "types": by_numbers("types_bench", [(500, 0), (1000, 0), (2000, 0), (0, 10000), (0, 20000)]),
    "prims": by_numbers("prims_bench", [(100000, 0), (200000, 0), (1000000, 0), (0, 1000000), (0, 2000000), (0, 4000000)]),
    "arena": by_numbers("arena_bench", [(50000, 0), (100000, 0), (0, 500000), (0, 1000000)]),
    "lines": lines,
    "sessions": sessions,
    "reactor": reactor,
}

if __name__ == "__main__":
    names = sys.argv[1:]
    if not names or any(name not in BENCHES for name in names):
        sys.exit(__doc__.strip())
    sys.path.insert(0, os.path.dirname(os.path.abspath(__file__)))
    for name in names:
        print(f"{name}:")
        with tempfile.TemporaryDirectory() as folder:
            BENCHES[name](folder)
