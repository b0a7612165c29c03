#!/usr/bin/env python3
"""Publishes a database by tools that are not the project's, with the lines of docs/GUIDE.md as they stand there.

usage: checks/served.py

- rsync sends the files that a `replace` changed and no others, and the copy is then the same; the copy for viewers has
  the layer and the tiles
- nginx serves the layer and the tiles with their types, plain and compressed, and tells an unchanged file by its tag

What is not installed is skipped with a line.
"""

import contextlib
import gzip
import os
import shlex
import shutil
import socket
import subprocess
import sys
import tempfile
import time
import urllib.error
import urllib.request

import cells
import stage

SQUARE = "n46e007"
TYPES = {".terrain": "application/vnd.quantized-mesh", ".json": "application/json"}
ALIAS = "/srv/terrain/db/"
# a remote shell to a folder beside: its first word is the host
SHELL = "#!/bin/sh\ncd \"$(dirname \"$0\")/server\" && shift && exec sh -c \"$*\"\n"
CONFIGURATION = """
daemon off; master_process off; pid nginx.pid; error_log errors;
events {{}}
http {{
  access_log off;
  client_body_temp_path t; proxy_temp_path t; fastcgi_temp_path t; uwsgi_temp_path t; scgi_temp_path t;
  server {{
    listen 127.0.0.1:{port};
    {location}
  }}
}}
"""


def guide():
    return (stage.ROOT / "docs/GUIDE.md").read_text(encoding="utf-8")


def guide_line(beginning, end):
    """The words of the one command line of the guide with this beginning and end."""
    lines = [line for part in guide().split("```")[1::2] for line in part.splitlines() if line.startswith(beginning)]
    [found] = [line for line in lines if line.endswith(end)]
    return shlex.split(found)


def guide_location():
    """The lines of the guide for nginx."""
    return "location " + guide().split("```\nlocation ")[1].split("```")[0]


def made(folder):
    """A database of one cell, which a new one with one other post is to replace."""
    at = stage.Stage([stage.PROGRAM], folder)
    at.write("cell.dt0", cells.flat(100, SQUARE))
    at.write("new.dt0", cells.flat(100, SQUARE, changes=[(60, 60, 900)]))
    at.run("init", "9", "0")
    at.run("add", "cell.dt0")
    return at


def listed(folder):
    """The files of a folder, with their bytes."""
    return {str(path.relative_to(folder)): path.read_bytes() for path in folder.rglob("*") if path.is_file()}


def wrong_copies(at):
    """What a copy by rsync has otherwise, or what is sent in vain."""
    at.write("shell", SHELL.encode())
    (at.folder / "shell").chmod(0o755)
    (at.folder / "server").mkdir()
    named = {"cwd": at.folder, "env": dict(os.environ, RSYNC_RSH="./shell")}
    whole = guide_line("rsync -rc --delete", "server:db/")
    copy = at.folder / "server/db"
    stage.said_by(whole, **named)
    before = listed(at.database)
    if listed(copy) != before:
        yield "rsync: the copy is not the same"
    at.run("replace", "new.dt0")
    after = listed(at.database)
    changed = sorted(name for name in after if after[name] != before.get(name))
    _, output, _ = stage.said_by([whole[0], "--out-format=%n", *whole[1:]], **named)
    sent = sorted(name for name in output.decode().splitlines() if not name.endswith("/"))
    if listed(copy) != after or sent != changed:
        yield f"rsync: {len(sent)} files are sent where {len(changed)} changed"
    for_viewers = guide_line("rsync -rc --delete", "server:public/")
    status, _, said = stage.said_by(for_viewers, **named)
    wanted = {name: content for name, content in after.items() if name.endswith(tuple(TYPES))}
    if status != 0 or listed(at.folder / "server/public") != wanted:
        yield f"rsync: the copy for viewers is not the layer and the tiles {said}"


def answers(port):
    """Whether something listens at a port, soon."""
    with socket.socket() as reached:
        there = reached.connect_ex(("127.0.0.1", port)) == 0
    if not there:
        time.sleep(0.05)
    return there


@contextlib.contextmanager
def serving(at, program):
    """Runs nginx over the database, and gives the address of the folder, or None where it does not start."""
    with socket.socket() as free:
        free.bind(("127.0.0.1", 0))
        port = free.getsockname()[1]
    location = guide_location().replace(ALIAS, f"{at.database}/")
    at.write("nginx.conf", CONFIGURATION.format(port=port, location=location).encode())
    words = [program, "-p", at.folder, "-c", at.folder / "nginx.conf", "-e", "errors"]
    with subprocess.Popen([str(word) for word in words], stderr=subprocess.DEVNULL) as process:
        try:
            reached = any(answers(port) for _ in range(100))
            yield f"http://127.0.0.1:{port}/db/" if reached else None
        finally:
            process.terminate()


def asked(address, **headers):
    """The status, the headers and the bytes of an answer."""
    request = urllib.request.Request(address, headers={name.replace("_", "-"): text for name, text in headers.items()})
    try:
        with urllib.request.urlopen(request, timeout=10) as answer:
            return answer.status, answer.headers, answer.read()
    except urllib.error.HTTPError as other:
        return other.code, other.headers, b""


def wrong_answers(at, address):
    """What nginx answers otherwise than a viewer needs."""
    for name, content in listed(at.database).items():
        kind = TYPES.get(os.path.splitext(name)[1])
        if kind is None:
            continue
        status, headers, plain = asked(address + name)
        told = (headers["Content-Type"], headers["Access-Control-Allow-Origin"], headers["Content-Encoding"])
        if (status, told, plain) != (200, (kind, "*", None), content):
            yield f"nginx: {name}: status {status}, {told}, {len(plain)} bytes"
        _, packed_headers, packed = asked(address + name, Accept_Encoding="gzip")
        if packed_headers["Content-Encoding"] != "gzip" or gzip.decompress(packed) != content:
            yield f"nginx: {name} is not the same compressed"
        status, _, _ = asked(address + name, If_None_Match=headers["ETag"])
        if status != 304:
            yield f"nginx: {name}: status {status} for a file that did not change"
    status, _, _ = asked(address + "9/0/0.terrain")
    if status != 404:
        yield f"nginx: status {status} for a tile that does not exist"


def main():
    nginx = shutil.which("nginx", path=os.pathsep.join((os.environ.get("PATH", ""), "/usr/sbin")))
    wrong = []
    with tempfile.TemporaryDirectory() as folder:
        at = made(folder)
        if shutil.which("rsync"):
            wrong += wrong_copies(at)
        else:
            print("served: rsync is skipped, it is not installed")
        if nginx:
            with serving(at, nginx) as address:
                wrong += wrong_answers(at, address) if address else ["nginx does not start"]
        else:
            print("served: nginx is skipped, it is not installed")
    for line in wrong[:20]:
        print(f"served: {line}")
    print(f"served: {'wrong' if wrong else 'as expected'}")
    return 1 if wrong else 0


if __name__ == "__main__":
    sys.exit(main())
