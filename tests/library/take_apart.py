"""Puts each worked script into a file NAME.script and its answers into NAME.said, in the folder that is
the first argument. Not proved."""

import os
import sys

sys.path.insert(0, os.path.join(os.path.dirname(os.path.abspath(__file__)), "..", "worked"))

import worked

for name, path in worked.paths(True).items():
    script, said = worked.read(path)
    for ending, text in (("script", script), ("said", said)):
        with open(os.path.join(sys.argv[1], f"{name}.{ending}"), "wb") as file:
            file.write(text)
