"""program.py: many runs of the built program, each with one of its calls failing, without starting it anew (shim.c).

    with Program(path) as program:
        program.give("in", b"a")
        got = program.run(["canon"], kind="memory", at=3)
        got.status, got.out, got.err, got.calls

A status below zero is a signal. Files stand in a folder of their own, in which the program runs. Needs cc.
"""
import collections
import os
import shutil
import struct
import subprocess
import tempfile

HERE = os.path.dirname(os.path.abspath(__file__))
JOBS, ANSWERS = 198, 199
JOB, ANSWER = struct.Struct("=IIIIQQcBB5x"), struct.Struct("=iIQQ")
KINDS = {"memory": b"m", "read": b"r", "write": b"w", "open": b"o", None: b"\0"}

# how a run ended: its status, standard output and error, and how many calls of the kind it made
Got = collections.namedtuple("Got", "status out err calls")


class Program:
    def __init__(self, path):
        self.top = tempfile.mkdtemp(dir="/dev/shm" if os.path.isdir("/dev/shm") else None)
        self.room, shim = f"{self.top}/room", f"{self.top}/shim.so"
        os.mkdir(self.room)
        subprocess.check_call(["cc", "-O2", "-shared", "-fPIC", "-o", shim, f"{HERE}/shim.c", "-ldl"])
        self.streams = {name: os.open(f"{self.room}/{name}", os.O_RDWR | os.O_CREAT) for name in ("in", "out", "err")}
        jobs, self.jobs = os.pipe()
        self.answers, answers = os.pipe()

        def move():
            os.dup2(jobs, JOBS)
            os.dup2(answers, ANSWERS)

        env = {"LD_PRELOAD": shim, "FAILING_ROOM": self.room}
        self.process = subprocess.Popen([os.path.abspath(path)], env=env, preexec_fn=move, close_fds=False, stdin=subprocess.DEVNULL)
        os.close(jobs)
        os.close(answers)

    def __enter__(self):
        return self

    def __exit__(self, *_):
        os.close(self.jobs)
        self.process.wait()
        for stream in (*self.streams.values(), self.answers):
            os.close(stream)
        shutil.rmtree(self.top, ignore_errors=True)

    def give(self, name, data):
        """A file in the folder of the runs; `in` is the standard input."""
        with open(f"{self.room}/{name}", "wb") as file:
            file.write(data)

    def taken(self, name):
        size = os.fstat(self.streams[name]).st_size
        return os.pread(self.streams[name], size, 0) if size else b""

    def answer(self):
        got = b""
        while len(got) < ANSWER.size:
            piece = os.read(self.answers, ANSWER.size - len(got))
            if not piece:
                raise RuntimeError("the program could not be run")
            got += piece
        return ANSWER.unpack(got)

    def run(self, words, kind=None, at=0, lasting=False, error=5, most=0):
        """Runs the program on the files that were given. The `at`th call of the kind fails with the error number `error`, or
        gives or takes no byte where that is 0; `lasting`: so do all later ones."""
        said = b"".join(word.encode() + b"\0" for word in words)
        os.write(self.jobs, JOB.pack(len(said), at, error, most, 0, 0, KINDS[kind], lasting, len(words)) + said)
        status, calls, _, _ = self.answer()
        code = -os.WTERMSIG(status) if os.WIFSIGNALED(status) else os.WEXITSTATUS(status)
        return Got(code, self.taken("out"), self.taken("err"), calls)
