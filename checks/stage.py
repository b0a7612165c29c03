"""A folder in which a program is run, and what came of it."""

import hashlib
import pathlib
import subprocess

ROOT = pathlib.Path(__file__).resolve().parent.parent
PROGRAM = ROOT / "crates/terrain_tool/out/terrain_tool"


class NotBuilt(Exception):
    """The program has no such command yet."""


def commands_of(program):
    """The words of the commands that a program has, by its usage line."""
    usage = subprocess.run([str(word) for word in program], stdout=subprocess.PIPE, check=False).stdout.decode()
    return {form.split()[0] for form in usage.split(" DIR ", 1)[1].split(" | ")}


def said_by(words, **named):
    """The status of a tool, its output, and as text what it says beside it."""
    streams = {"stdout": subprocess.PIPE, "stderr": subprocess.PIPE}
    done = subprocess.run([str(word) for word in words], check=False, timeout=110, **streams, **named)
    return done.returncode, done.stdout, done.stderr.decode("utf-8", "replace").strip()


class Stage:
    """Runs a program's words over the database `db` of a folder, and keeps what it said and left."""

    def __init__(self, program, folder):
        self.program = [str(word) for word in program]
        self.folder = pathlib.Path(folder)
        self.database = self.folder / "db"
        self.database.mkdir(exist_ok=True)
        self.said = []
        self.commands = commands_of(program)

    def write(self, name, content):
        path = self.folder / name
        path.parent.mkdir(parents=True, exist_ok=True)
        path.write_bytes(content)

    def remove(self, name):
        (self.folder / name).unlink()

    def call(self, *words):
        """One command, of which nothing is kept."""
        if words[0] not in self.commands:
            raise NotBuilt(words[0])
        return subprocess.run([*self.program, "db", *words], cwd=self.folder, stdout=subprocess.PIPE, timeout=110, check=False)

    def run(self, *words):
        """One command: its words, its status and what it printed are kept."""
        done = self.call(*words)
        self.said.append([" ".join(words), done.returncode, done.stdout.decode("utf-8", "replace")])
        return done

    def ask(self, *words):
        """One command, of whose bytes only the status, the length and the SHA-256 are kept."""
        done = self.call(*words)
        digest = hashlib.sha256(done.stdout).hexdigest()
        self.said.append([" ".join(words), done.returncode, f"{len(done.stdout)} bytes {digest}"])
        return done

    def answer(self, *words):
        """One command: as with `run`, but of a long text its first line, its length and its SHA-256 are kept."""
        done = self.call(*words)
        text = done.stdout.decode("utf-8", "replace")
        if len(text) > 300:
            text = f"{text.splitlines()[0]}, {len(text)} bytes {hashlib.sha256(done.stdout).hexdigest()}"
        self.said.append([" ".join(words), done.returncode, text])
        return done

    def files(self):
        """The files of the database: names, lengths and SHA-256, in the order of names."""
        paths = sorted(path for path in self.database.rglob("*") if path.is_file())
        return [[str(path.relative_to(self.database)), path.stat().st_size, hashlib.sha256(path.read_bytes()).hexdigest()]
                for path in paths]

    def keep(self, title):
        """Keeps one hash of all files there are now."""
        files = self.files()
        text = "".join(f"{name} {length} {digest}\n" for name, length, digest in files)
        self.said.append([title, len(files), hashlib.sha256(text.encode()).hexdigest()])
