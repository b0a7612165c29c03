#!/usr/bin/env python3
"""Has readers that are not the project's read the layers of databases.

usage: checks/layers.py

- jsonschema judges `layer.json` by the keys of TileJSON 2.1.0 and by those of a terrain layer, as written down in
  tilejson.schema.json and layer.schema.json; and it finds fault with layers that break a rule
- `tilejson`, a library of Node, tells where each available tile lies, and the folder has these tiles and no others
- QGIS opens the layer, where it has the provider `quantizedmesh`

What is not installed, Debian's python3-jsonschema, node-tilejson or python3-qgis, is skipped with a line.
"""

import functools
import http.server
import json
import os
import pathlib
import shutil
import sys
import tempfile
import threading

import cells
import stage

HERE = pathlib.Path(__file__).resolve().parent
RULES = ("tilejson.schema.json", "layer.schema.json")
PYTHONS = ("python3", "/usr/bin/python3")
# databases: the cap, and the cells that are added
DATABASES = {
    "no cells": (8, ()),
    "cells on both sides of the antimeridian and at a pole": (9, (("n10w180", 0), ("n10e179", 0), ("s90e000", 0))),
    "cells of two levels": (11, (("n46e007", 1), ("n45e007", 0))),
}
# changes of a layer that break a rule: a key, and what it becomes, or None where it goes
FAULTS = (
    (0, "tilejson", "2.1"), (0, "tilejson", None), (0, "tiles", []), (0, "scheme", "up"), (0, "maxzoom", 23),
    (0, "minzoom", "0"), (0, "bounds", [-180, -90, 180]),
    (1, "format", "heightmap-1.0"), (1, "tiles", ["{z}/{x}.terrain"]), (1, "projection", None),
    (1, "available", [[{"startX": 0, "startY": 0, "endX": 1}]]), (1, "available", [[]]),
)
NODE_READER = """
const Layer = require("tilejson");
new Layer(process.argv[1], (error, layer) => {
  if (error) throw error;
  layer.getInfo((error, info) => {
    if (error) throw error;
    const paths = [];
    info.available.forEach((runs, z) => runs.forEach((run) => {
      for (let y = run.startY; y <= run.endY; y++)
        for (let x = run.startX; x <= run.endX; x++)
          for (const endpoint of info.tiles) paths.push(layer._prepareURL(endpoint, z, x, (1 << z) - 1 - y));
    }));
    console.log(JSON.stringify({ deepest: info.maxzoom, levels: info.available.length, paths }));
  });
});
"""
QGIS_READER = """
import sys
from qgis.core import Qgis, QgsApplication, QgsProviderRegistry
application = QgsApplication([], False)
application.initQgis()
if "quantizedmesh" not in QgsProviderRegistry.instance().providerList():
    print("skipped, QGIS", Qgis.QGIS_VERSION.split("-")[0], "has no provider quantizedmesh")
else:
    from qgis.core import QgsTiledSceneLayer
    layer = QgsTiledSceneLayer("url=" + sys.argv[1], "terrain", "quantizedmesh")
    print("as expected" if layer.isValid() else "not opened: " + layer.error().summary())
"""


def output_of(words, **named):
    """The status of a tool, and its text."""
    status, output, _ = stage.said_by(words, **named)
    return status, output.decode().strip()


def made(folder, cap, squares):
    """A database of flat cells in a folder of its own."""
    folder.mkdir()
    at = stage.Stage([stage.PROGRAM], folder)
    at.run("init", str(cap), "0")
    for square, level in squares:
        at.write(f"{square}.dt{level}", cells.flat(100, square, level))
        at.run("add", f"{square}.dt{level}")
    return at


def accepted(rules, layers):
    """The layers in which jsonschema finds no fault by some rules."""
    words = [word for layer in layers for word in ("-i", layer)]
    _, text = output_of(["jsonschema", "--output", "pretty", *words, HERE / rules])
    return [layer for layer in layers if f"[SUCCESS]===({layer})" in text]


def spoilt(layer, number):
    """Copies of a layer with faults by the rules of a number, and what each fault is."""
    whole = json.loads(layer.read_text(encoding="utf-8"))
    for place, (_, key, value) in enumerate(fault for fault in FAULTS if fault[0] == number):
        other = {name: content for name, content in whole.items() if name != key}
        if value is not None:
            other[key] = value
        path = layer.with_name(f"fault{number}.{place}.json")
        path.write_text(json.dumps(other), encoding="utf-8")
        yield path, f"{key} {value}"


def wrong_by_rules(databases):
    """Layers that are refused by rules of jsonschema, and faults that are not."""
    layers = [at.database / "layer.json" for at in databases.values()]
    for number, rules in enumerate(RULES):
        faults = dict(spoilt(layers[0], number))
        found = accepted(rules, [*layers, *faults])
        for name, layer in zip(databases, layers):
            if layer not in found:
                yield f"{name}: layer.json is refused by {rules}"
        for path, fault in faults.items():
            path.unlink()
            if path in found:
                yield f"{rules} does not refuse {fault}"


def wrong_by_tilejson(databases):
    """What the library `tilejson` finds otherwise than in a database's folder."""
    for name, at in databases.items():
        status, text = output_of(["node", "-e", NODE_READER, at.database / "layer.json"], env=node_places())
        if status != 0:
            yield f"{name}: tilejson ends with status {status}"
            continue
        found = json.loads(text)
        there = sorted(str(path.relative_to(at.database)) for path in at.database.rglob("*.terrain"))
        if sorted(found["paths"]) != there or found["levels"] != found["deepest"] + 1:
            seen = f"{len(found['paths'])} tiles, {found['levels']} levels"
            yield f"{name}: tilejson sees {seen}, the folder has {len(there)} tiles"


def node_places():
    """The environment in which Node finds Debian's libraries, whoever made it."""
    return dict(os.environ, NODE_PATH=os.pathsep.join(filter(None, (os.environ.get("NODE_PATH"), "/usr/share/nodejs"))))


def has_tilejson():
    return shutil.which("node") and output_of(["node", "-e", "require('tilejson')"], env=node_places())[0] == 0


def said_by_qgis(at):
    """What QGIS says of a database that is served."""
    python = next((word for word in PYTHONS if output_of([word, "-c", "import qgis.core"])[0] == 0), None)
    if python is None:
        return "skipped, python3-qgis is not installed"
    served = functools.partial(Quiet, directory=at.database)
    with http.server.ThreadingHTTPServer(("127.0.0.1", 0), served) as server:
        threading.Thread(target=server.serve_forever, daemon=True).start()
        address = f"http://127.0.0.1:{server.server_port}/layer.json"
        without_screen = dict(os.environ, QT_QPA_PLATFORM="offscreen")
        status, text = output_of([python, "-c", QGIS_READER, address], env=without_screen)
        server.shutdown()
    return text.splitlines()[-1] if status == 0 and text else f"ends with status {status}"


class Quiet(http.server.SimpleHTTPRequestHandler):
    """A server of files that keeps no log."""

    def log_message(self, *_):
        pass


def main():
    wrong = []
    with tempfile.TemporaryDirectory() as folder:
        root = pathlib.Path(folder)
        databases = {name: made(root / str(cap), cap, squares) for name, (cap, squares) in DATABASES.items()}
        for reader, there, wrong_by in (
            ("jsonschema", shutil.which("jsonschema"), wrong_by_rules),
            ("tilejson of Node", has_tilejson(), wrong_by_tilejson),
        ):
            if there:
                wrong += wrong_by(databases)
            else:
                print(f"layers: {reader} is skipped, it is not installed")
        qgis = said_by_qgis(next(iter(databases.values())))
    print(f"layers: QGIS: {qgis}")
    wrong += [] if qgis.startswith(("skipped", "as expected")) else [f"QGIS: {qgis}"]
    for line in wrong:
        print(f"layers: {line}")
    print(f"layers: those of {len(databases)} databases {'wrong' if wrong else 'as expected'}")
    return 1 if wrong else 0


if __name__ == "__main__":
    sys.exit(main())
