#!/usr/bin/env python3
"""What calls answer where one allocation fails.

failing_memory.py tests [--from N] [--to N] [CRATE..]     runs `rt try --test --fail-alloc N` in these crates of rows for each N in turn, and counts how
                                                          each test ended. It needs no proof, and builds the tests anew for each N: a minute for a
                                                          small crate, several for one that stands on much. It stops where every test passes
failing_memory.py built [--every K] [CRATE[:WORD]..]      the same over the tests that `rt ci` or `rt test` left in crates/CRATE/out, or those of them
                                                          whose names begin with WORD. They are built once: malloc is replaced by one whose Nth
                                                          call fails, for each N (or each Kth) until a test makes no Nth call
failing_memory.py program [--program P] [--every K] M S   runs `P check M S` with that malloc for each N in turn, and compares what it writes with
                                                          what it writes where nothing fails
failing_memory.py desk [--program P] [--every K] M S      serves a desk by `P serve` with that malloc for each N in turn, sends it requests, one a
                                                          connection, and compares the replies, and what the desk holds afterwards, with those where
                                                          nothing fails

A test passes where the allocation that failed is none of the calls', or where its call took the want of memory into an answer that the test expects. It is
refused where it ended with an error that tells want of memory, or an assertion met that answer. Where another assertion of its own stopped it, a call gave
another answer than with ample memory: a reply 507, say. All else, as a fault or a hang, is 'other'. Both are told below the table. Which tests make which
calls:

    read_modules                  test_verilog:modules
    read_set                      test_sets:sets, test_sets:lines, test_sets:windows
    read_steps                    test_deciding:records
    settle                        test_deciding:settling
    check                         none: `program` runs it
    act, serve_one                none but test_desk:connections, which has those of the connection below them; `desk` runs both
"""
import argparse
import collections
import itertools
import os
import re
import socket
import subprocess
import tempfile
import time

TOP = os.path.dirname(os.path.dirname(os.path.abspath(__file__)))
CRATES = ["test_verilog", "test_sets", "test_deciding", "test_signoff", "test_desk"]
CALLS = ["test_verilog:modules", "test_sets:sets", "test_deciding:records", "test_deciding:settling", "test_desk:connections"]
OUTCOME = re.compile(r"^test (\S+) \.\.\. (ok|FAILED)$")
READS = [("GET", it, b"") for it in ("/blocks", "/blocks/b/report", "/signoffs")]
HOWS = ("refused", "passed", "another answer", "other")
SAYINGS = {
    "refused": re.compile(r"^error: .*(AllocError|AllocFailed|Memory)|^ *left: (\"Memory\"|\[77, 101, 109, 111, 114, 121\])$", re.M),
    "another answer": re.compile(r"^test stopped at src/\S+:\d+:\d+$", re.M),
}
FAILING = r"""
#define _GNU_SOURCE
#include <errno.h>
#include <fcntl.h>
#include <stdlib.h>
#include <unistd.h>
extern void *__libc_malloc(size_t);
extern void *__libc_calloc(size_t, size_t);
extern void *__libc_realloc(void *, size_t);
static unsigned long calls, nth;
static int fails(void) {
    if (!nth) { const char *text = getenv("FAIL_ALLOC"); nth = text ? strtoul(text, 0, 10) : ~0ul; }
    if (__atomic_add_fetch(&calls, 1, __ATOMIC_RELAXED) != nth) return 0;
    const char *file = getenv("FAILED_FILE");
    if (file) close(open(file, O_CREAT | O_WRONLY, 0600));
    errno = ENOMEM;
    return 1;
}
void *malloc(size_t n) { return fails() ? 0 : __libc_malloc(n); }
void *calloc(size_t n, size_t m) { return fails() ? 0 : __libc_calloc(n, m); }
void *realloc(void *p, size_t n) { return fails() ? 0 : __libc_realloc(p, n); }
"""


def outcomes(text):
    """Of what `rt try --test` writes: each test, whether it passed, and what was said of it."""
    found, name = {}, None
    for line in text.splitlines():
        outcome = OUTCOME.match(line)
        if outcome:
            name = outcome[1]
            found[name] = [outcome[2] == "ok", []]
        elif name and line.startswith("    "):
            found[name][1].append(line.strip())
    return {name: (passed, "\n".join(said)) for name, (passed, said) in found.items()}


def stretches(numbers):
    """Ascending numbers as text, those in a row as one stretch."""
    rows = []
    for n in numbers:
        if rows and rows[-1][1] == n - 1:
            rows[-1][1] = n
        else:
            rows.append([n, n])
    return ", ".join(str(first) if first == last else f"{first} to {last}" for first, last in rows)


class Ends:
    """How tests ended, and what was said where one neither passed nor was refused."""

    def __init__(self):
        self.counts = collections.defaultdict(collections.Counter)
        self.others = collections.defaultdict(list)

    def add(self, name, n, passed, said):
        how = "passed" if passed else next((it for it, words in SAYINGS.items() if words.search(said)), "other")
        self.counts[name][how] += 1
        if how in HOWS[2:]:
            self.others[name, said].append(n)

    def put(self):
        print(f"| test | {' | '.join(HOWS)} |\n|---|---|---|---|---|")
        for name, counts in sorted(self.counts.items()):
            print(f"| {name} | {' | '.join(str(counts[it]) for it in HOWS)} |")
        for (name, said), numbers in sorted(self.others.items()):
            print(f"\n{name}, where allocation {stretches(numbers)} fails:\n" + "\n".join(it[:120] for it in said.splitlines()))


def tests(crates, first, last):
    ends = Ends()
    for crate in crates:
        for n in range(first, last + 1):
            words = ["rt", "try", "--test", "--fail-alloc", str(n)]
            run = subprocess.run(words, cwd=f"{TOP}/crates/{crate}", capture_output=True, text=True, errors="replace", check=False)
            found = outcomes(run.stdout + run.stderr)
            if not found:
                print(f"{crate}, allocation {n}: no test ran: {run.stderr[-200:]!r}")
                break
            for test, (passed, said) in found.items():
                ends.add(f"{crate}: {test}", n, passed, said)
            if all(passed for passed, _ in found.values()):
                break
    ends.put()


def shim(folder):
    """The library that is loaded before a program, and whose Nth allocation fails."""
    source, library = f"{folder}/failing.c", f"{folder}/failing.so"
    with open(source, "w", encoding="ascii") as it:
        it.write(FAILING)
    subprocess.run(["cc", "-O2", "-shared", "-fPIC", "-o", library, source], check=True)
    return library


def run_failing(words, n, folder):
    """Runs a program whose Nth allocation fails: whether it made so many, its status, and what it wrote."""
    mark = f"{folder}/failed"
    if os.path.exists(mark):
        os.remove(mark)
    env = {"LD_PRELOAD": f"{folder}/failing.so", "FAIL_ALLOC": str(n), "FAILED_FILE": mark}
    try:
        run = subprocess.run(words, env=env, cwd=folder, stdin=subprocess.DEVNULL, capture_output=True, timeout=60, check=False)
    except subprocess.TimeoutExpired:
        return True, None, b"", b"no end within 60 s"
    return os.path.exists(mark), run.returncode, run.stdout, run.stderr


def built(asked, every):
    ends = Ends()
    with tempfile.TemporaryDirectory() as folder:
        shim(folder)
        for crate, _, word in (it.partition(":") for it in asked):
            path = f"{TOP}/crates/{crate}/out/{crate}_tests"
            if not os.path.exists(path):
                print(f"{crate}: no tests are built there; `rt test` in its folder makes them")
                continue
            listed = subprocess.run([path, "--list"], capture_output=True, text=True, check=False).stdout
            for test in re.findall(r"^(\S+): test$", listed, re.M):
                if test.startswith(word):
                    each_failing(ends, crate, [path, test], every, folder)
    ends.put()


def each_failing(ends, crate, words, every, folder):
    for n in itertools.count(1, every):
        reached, status, out, err = run_failing(words, n, folder)
        if not reached:
            return
        said = (out + err).decode(errors="replace").strip() or f"status {status}"
        ends.add(f"{crate}: {words[1]}", n, status == 0, said)


def program(path, every, module, properties):
    words = [os.path.abspath(path), "check", os.path.abspath(module), os.path.abspath(properties)]
    whole = subprocess.run(words, stdin=subprocess.DEVNULL, capture_output=True, check=False)
    ends = collections.Counter()
    with tempfile.TemporaryDirectory() as folder:
        shim(folder)
        for n in itertools.count(1, every):
            reached, status, out, err = run_failing(words, n, folder)
            if not reached:
                break
            ends[how_ended(n, status, out, err, whole)] += 1
    print(f"{sum(ends.values())} runs, in each of which one allocation failed:")
    for how, times in ends.most_common():
        print(f"  {times} {how}")


def how_ended(n, status, out, err, whole):
    """How a program ended one of whose allocations failed. What it put before it ran out must be the first lines of what it puts where none fails."""
    if (status, out) == (whole.returncode, whole.stdout):
        return f"as where none fails (status {status})"
    if status == 70 and whole.stdout.startswith(out):
        return "refused for memory (status 70)"
    print(f"allocation {n}: status {status}, {out[-80:]!r} {err[-80:]!r}", flush=True)
    return f"otherwise (status {status})"


def requests_of(module, properties):
    """Requests that make, check and sign a block off, and read all that a desk holds."""
    puts = [("PUT", "/blocks/b/module", module), ("PUT", "/blocks/b/set", properties)]
    posts = [("POST", "/blocks/b/check", b""), ("POST", "/blocks/b/sign", b"")]
    return puts + posts + READS


def asked(port, method, path, body):
    """The reply to one request, as bytes; none where the connection is cut, or not taken."""
    head = f"{method} {path} HTTP/1.1\r\nHost: desk\r\nContent-Length: {len(body)}\r\n\r\n".encode()
    reply = b""
    try:
        with socket.create_connection(("127.0.0.1", port), timeout=20) as peer:
            peer.sendall(head + body)
            while piece := peer.recv(65536):
                reply += piece
    except OSError:
        pass
    return reply


def served(path, port, file, requests, env):
    """The replies of a desk to requests, and the status with which it ends."""
    desk = subprocess.Popen([path, "serve", str(port), str(len(requests)), file], env=env, stdin=subprocess.DEVNULL, stdout=subprocess.DEVNULL, stderr=subprocess.DEVNULL)
    for _ in range(200):
        if desk.poll() is not None or is_open(port):
            break
        time.sleep(0.01)
    replies = [asked(port, *it) if desk.poll() is None else b"" for it in requests]
    try:
        return replies, desk.wait(10)
    except subprocess.TimeoutExpired:
        desk.kill()
        return replies, None


def is_open(port):
    """Whether something listens at a port of this machine, told without a connection."""
    with open("/proc/net/tcp", encoding="ascii") as lines:
        return any(it.split()[1].endswith(f":{port:04X}") and it.split()[3] == "0A" for it in list(lines)[1:])


def reply_told(reply, right):
    """How a reply is beside the one where nothing fails: the same, want of memory, none, or another."""
    if reply == right:
        return "as where none fails"
    if reply.startswith(b"HTTP/1.1 507 "):
        return "507"
    return "cut" if right.startswith(reply) else "another"


def desk(path, every, module, properties, port=18087):
    texts = [open(it, "rb").read() for it in (module, properties)]
    requests = requests_of(*texts)
    ends, path = collections.Counter(), os.path.abspath(path)
    with tempfile.TemporaryDirectory() as folder:
        shim(folder)
        whole, _ = served(path, port, f"{folder}/whole.db", requests, {})
        for n in itertools.count(1, every):
            file, mark = f"{folder}/{n}.db", f"{folder}/failed{n}"
            env = {"LD_PRELOAD": f"{folder}/failing.so", "FAIL_ALLOC": str(n), "FAILED_FILE": mark}
            replies, status = served(path, port, file, requests, env)
            if not os.path.exists(mark):
                break
            again, _ = served(path, port, file, requests, {})
            told = [reply_told(*it) for it in zip(replies, whole)]
            first = next((it for it in told if it != "as where none fails"), "as where none fails")
            healed = again[2] == whole[2] and b'"block":"b"' in again[-1]
            ends[first, status, "afterwards all is served" if healed else "AFTERWARDS IT ISN'T"] += 1
            # what comes after the reply that differs follows from it: no sign-off without a report, say
            if first == "another" or not healed:
                print(f"allocation {n}: status {status}, {told}, {[it[:60] for it in replies]}", flush=True)
    print(f"{sum(ends.values())} desks, in each of which one allocation failed: the first reply that differs, the status, and what a second desk over its file serves")
    for (first, status, then), times in ends.most_common():
        print(f"  {times}: {first}, status {status}, {then}")


def main():
    words = argparse.ArgumentParser()
    kinds = words.add_subparsers(dest="kind", required=True)
    of_tests, of_built, of_program, of_desk = (kinds.add_parser(it) for it in ("tests", "built", "program", "desk"))
    of_tests.add_argument("--from", dest="first", type=int, default=1)
    of_tests.add_argument("--to", dest="last", type=int, default=1000)
    of_built.add_argument("--every", type=int, default=1)
    of_tests.add_argument("crates", nargs="*")
    of_built.add_argument("crates", nargs="*")
    for it in (of_program, of_desk):
        it.add_argument("--every", type=int, default=1)
        it.add_argument("--program", default=f"{TOP}/crates/signoff/out/signoff")
        it.add_argument("module")
        it.add_argument("properties")
    given = words.parse_args()
    if given.kind == "tests":
        tests(given.crates or CRATES, given.first, given.last)
    elif given.kind == "built":
        built(given.crates or CALLS, given.every)
    elif given.kind == "desk":
        desk(given.program, given.every, given.module, given.properties)
    else:
        program(given.program, given.every, given.module, given.properties)


if __name__ == "__main__":
    main()
