"""What all runs of an attack share, and how a behaviour is run as a text.

This file stands alone with attack_text.py, since it is copied to other machines. Nothing of it is proved.
"""
import subprocess

from attack_text import Bad, Interface, written

BOUNDS = {"meaning": ["--turns=20000", "--events=4096"], "run": ["--steps=400000", "--events=1024"],
          "judge": ["--steps=400000", "--events=1024"]}


class Plan:
    """What all runs of an attack share."""

    def __init__(self, data):
        self.data, self.faces = data, {}
        for name, parts in data["faces"].items():
            self.faces[name] = face = Interface()
            face.exports, face.imports, face.main = parts

    def text(self, behaviour, is_marked=False):
        return written(self.data["marked" if is_marked else "plain"], self.faces, behaviour)

    def report(self, command, behaviour, is_marked=False, bounds=None):
        """The lines that a command writes for a behaviour."""
        values = self.data["inputs"][behaviour["input"]]
        words = [self.data["program"], command, *(BOUNDS[command] if bounds is None else bounds)]
        words += [f"--in={values}"] if values else []
        text = self.text(behaviour, is_marked)
        if command == "judge":
            text = self.data["policy"] + text
        ran = subprocess.run(words, input=text.encode("latin-1"), capture_output=True, check=False)
        if ran.returncode:
            said = ran.stderr.decode(errors="replace").strip().split("\n")[0]
            raise Bad(f"status {ran.returncode} of `{command}` for a text made here: {said}")
        return ran.stdout.decode().splitlines()
