"""python3 -m unittest: calls on threads with small stacks, which are made on threads of their own, whatever calls in the midst of them."""

import os
import shutil
import subprocess
import sys
import unittest

import yamlcanon

# A command finds the module where these tests have found it.
ENVIRONMENT = {**os.environ, "PYTHONPATH": os.path.dirname(os.path.dirname(os.path.realpath(yamlcanon.__file__)))}

# Of each program. On a stack of 1 MiB a call on this input is made on a thread of its own. A program that hangs ends with a traceback.
START = """
import atexit, faulthandler, gc, os, signal, sys, threading, time, yamlcanon
faulthandler.dump_traceback_later(500, exit=True)
data = b"- a\\n" * 200
want = yamlcanon.canonical(data)
counts = {"finalizer": 0, "handler": 0}
def call(name):
    counts[name] += yamlcanon.canonical(data) == want
class Finalized:
    def __init__(self):
        self.own = self
    def __del__(self):
        call("finalizer")
signal.signal(signal.SIGALRM, lambda *_: call("handler"))
"""

# 10,000 calls, and in the midst of each a finalizer, and a signal's handler if the signal comes in time.
IN_THE_MIDST = """
for number in range(10_000):
    gc.set_threshold(1 + number % 60, 1000, 1000)
    Finalized()
    signal.setitimer(signal.ITIMER_REAL, (1 + number % 100) * 1e-6)
    assert yamlcanon.canonical(data) == want
    signal.setitimer(signal.ITIMER_REAL, 0)
gc.set_threshold(0)
gc.collect()
print(counts["finalizer"], counts["handler"] > 100)
"""

# The same on threads that call for the first time.
FIRST = """
def run(number):
    Finalized()
    gc.set_threshold(number, 1000, 1000)
    assert yamlcanon.canonical(data) == want
    gc.set_threshold(0)
for number in range(1, 61):
    thread = threading.Thread(target=run, args=(number,))
    thread.start()
    thread.join()
gc.collect()
print(counts["finalizer"])
"""

# A handler that raises, 1,000 times. Threads that were left would keep 8 MiB each.
RAISED = """
class Stop(Exception):
    pass
def stop(*_):
    raise Stop
def size():
    with open("/proc/self/statm") as file:
        return int(file.read().split()[0]) * os.sysconf("SC_PAGE_SIZE")
signal.signal(signal.SIGALRM, stop)
before, stops = size(), 0
for number in range(1000):
    try:
        signal.setitimer(signal.ITIMER_REAL, (1 + number % 100) * 1e-6)
        for _ in range(100):
            yamlcanon.canonical(data)
    except Stop:
        stops += 1
print(stops, size() - before < 1 << 28)
"""

# Calls at each depth of Python's own calls, up to the greatest.
DEEP = """
def answer(levels):
    if levels:
        return answer(levels - 1)
    try:
        return yamlcanon.canonical(data) == want
    except RecursionError as fault:
        return type(fault).__name__
sys.setrecursionlimit(200)
found = []
for levels in range(100, 200):
    try:
        found.append(answer(levels))
    except RecursionError:
        found.append("RecursionError")
print(*sorted(set(map(str, found))))
"""

# The last calls of a program: one that still has a thread, and one that has none.
AT_THE_END = """
class Last:
    def __del__(self, canonical=yamlcanon.canonical, data=data, print=print):
        try:
            print("an answer" if canonical(data) else "")
        except MemoryError as fault:
            print(fault)
gc.disable()
last = Last()
last.own = last
atexit.register(lambda: print(yamlcanon.canonical(data) == want))
"""

# Forks while other threads call, and a call in each child.
FORKS = """
is_on = True
def run():
    while is_on:
        yamlcanon.canonical(data)
def end(child):
    for _ in range(10_000):
        done, status = os.waitpid(child, os.WNOHANG)
        if done:
            return status
        time.sleep(0.002)
    os.kill(child, signal.SIGKILL)
    return os.waitpid(child, 0)[1]
threads = [threading.Thread(target=run) for _ in range(4)]
for thread in threads:
    thread.start()
statuses = set()
for _ in range(100):
    child = os.fork()
    if child == 0:
        os._exit(yamlcanon.canonical(data) != want)
    statuses.add(end(child))
is_on = False
for thread in threads:
    thread.join()
print(statuses)
"""

# A call of an interpreter beside the main one.
BESIDE = """
import _xxsubinterpreters
beside = _xxsubinterpreters.create(isolated=False)
_xxsubinterpreters.run_string(beside, '''
import yamlcanon
data = b"- a\\\\n" * 200
print(yamlcanon.canonical(data) == yamlcanon.canonical(data, memory=1 << 30))
''')
_xxsubinterpreters.destroy(beside)
"""


@unittest.skipUnless(shutil.which("sh"), "no shell is installed")
class Stack(unittest.TestCase):
    def run_on(self, program):
        """What a program prints with a stack of 1 MiB."""
        words = ["sh", "-c", 'ulimit -S -s 1024 && exec "$@"', "sh", sys.executable, "-W", "ignore", "-c", START + program]
        done = subprocess.run(words, capture_output=True, env=ENVIRONMENT, timeout=600)
        self.assertEqual((done.returncode, done.stderr), (0, b""))
        return done.stdout.decode()

    def test_a_finalizer_and_a_handler_call_in_the_midst_of_calls(self):
        self.assertEqual(self.run_on(IN_THE_MIDST), "10000 True\n")

    def test_a_finalizer_calls_while_a_thread_calls_for_the_first_time(self):
        self.assertEqual(self.run_on(FIRST), "60\n")

    def test_a_handler_raises_in_the_midst_of_calls(self):
        self.assertEqual(self.run_on(RAISED), "1000 True\n")

    def test_a_recursion_error_is_told_as_one(self):
        self.assertEqual(self.run_on(DEEP), "RecursionError True\n")

    def test_calls_while_python_ends(self):
        lack = "yamlcanon: 21 OutOfMemory, since no thread can be had for the call"
        self.assertEqual(self.run_on(AT_THE_END), f"True\n{lack}\n")

    def test_children_of_forks_call(self):
        self.assertEqual(self.run_on(FORKS), "{0}\n")

    @unittest.skipUnless((3, 9) <= sys.version_info < (3, 13), "not the interpreters that this is for")
    def test_an_interpreter_beside_the_main_one_calls(self):
        self.assertEqual(self.run_on(BESIDE), "True\n")


if __name__ == "__main__":
    unittest.main()
