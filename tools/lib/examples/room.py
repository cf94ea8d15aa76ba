"""What was found of a page of examples, and where commands of a page are run: the programs on the path, and no settings of the user's."""
import os
import shutil
import subprocess

from lib.paths import EXAMPLES, PROGRAM, REVIEW, TOP, write

PROGRAMS = {"yamlcanon": PROGRAM, "yamlreview": REVIEW}
SIGNING = ("yamlreview-sign", "yamlreview-verify")
ADDRESS = "https://example.org/yamlcanon"
SETTINGS = "[user]\n\tname = you\n\temail = you@example.org\n[init]\n\tdefaultBranch = main\n"


class Checked:
    """The examples of one page: how many were run, which ended otherwise, and what was left out. `text` is the page with what its
    examples printed, if they print into it."""

    def __init__(self, page):
        self.page, self.count, self.wrong, self.left_out, self.text = page, 0, [], [], None

    def want(self, is_so, what):
        """Counts an example, and notes what it did if that is not as it should be; whether it is."""
        self.count += 1
        if not is_so:
            self.wrong.append(what)
        return is_so


def is_there(program):
    """Whether a program can be run here; `systemd` is there if it runs."""
    if program in PROGRAMS:
        return os.access(PROGRAMS[program], os.X_OK)
    return os.path.isdir("/run/systemd/system") if program == "systemd" else shutil.which(program) is not None


def environment(folder):
    """An environment with the programs in `bin` of a folder, which is the home of a user `you`."""
    os.mkdir(f"{folder}/bin")
    paths = {name: os.path.realpath(path) for name, path in PROGRAMS.items() if os.access(path, os.X_OK)}
    for name, path in {**paths, **dict.fromkeys(SIGNING, f"{TOP}/packages/signing/yamlreview-sign")}.items():
        os.symlink(path, f"{folder}/bin/{name}")
    write(f"{folder}/.gitconfig", SETTINGS)
    git = {"GIT_CONFIG_NOSYSTEM": "1", "PRE_COMMIT_HOME": f"{folder}/kept", "PRE_COMMIT_COLOR": "never"}
    return {"PATH": f"{folder}/bin:{os.environ['PATH']}", "HOME": folder, "LC_ALL": "C.UTF-8", "TERM": "dumb", **git}


class Room:
    """A repository with the two services of examples/, as GUIDE.md has it, and one with our hooks at ADDRESS."""

    def __init__(self, folder):
        self.here, self.hooks, self.env = f"{folder}/here", f"{folder}/hooks", environment(folder)
        for place, names in (
            (self.here, ("examples/service.yaml", "examples/service_as_json.yaml")),
            (self.hooks, (".pre-commit-hooks.yaml",)),
        ):
            os.mkdir(place)
            for name in names:
                shutil.copy(f"{TOP}/{name}", place)
        for place in (self.here, self.hooks):
            self.run(f"git init -q {place} && cd {place} && git add . && git commit -q -m first && git tag TAG")

    def run(self, text):
        """The status of what a shell was given, and all that was printed."""
        streams = {"stdin": subprocess.DEVNULL, "stdout": subprocess.PIPE, "stderr": subprocess.STDOUT}
        ran = subprocess.run(["sh", "-c", text], cwd=self.here, env=self.env, check=False, **streams)
        return ran.returncode, ran.stdout.decode("utf-8", "replace").replace(self.hooks, ADDRESS)

    def put(self, name, text):
        write(f"{self.here}/{name}", text.replace(ADDRESS, self.hooks))


def copied_examples(room):
    """Puts examples/ and a launcher next to where commands are run."""
    shutil.copytree(EXAMPLES, f"{room.here}/examples")
    os.symlink(f"{room.env['HOME']}/bin/yamlcanon", f"{room.here}/yamlcanon")
