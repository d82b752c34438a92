"""What the tests of the tools share: running a tool, and the meaning of statements."""

import importlib.machinery
import importlib.util
import itertools
import os
import re
import subprocess
import sys
import tempfile

FOLDER = os.path.dirname(os.path.abspath(__file__))
SAMPLES = os.path.join(FOLDER, "samples")
sys.dont_write_bytecode = True


def sample(name):
    return os.path.join(SAMPLES, name)


def load(tool):
    """A tool as a module."""
    loader = importlib.machinery.SourceFileLoader(tool.replace("-", "_"), os.path.join(FOLDER, tool))
    module = importlib.util.module_from_spec(importlib.util.spec_from_loader(loader.name, loader))
    loader.exec_module(module)
    return module


def run(tool, *arguments, given=b"", **settings):
    """A tool's exit status, output and errors, as bytes."""
    settings.setdefault("stdout", subprocess.PIPE)
    command = [sys.executable, os.path.join(FOLDER, tool), *arguments]
    done = subprocess.run(command, input=given, stderr=subprocess.PIPE, timeout=60, **settings)
    return done.returncode, done.stdout, done.stderr


def written(module, text, *arguments):
    """The statements that a tool, loaded as a module, makes of an input."""
    with tempfile.TemporaryDirectory() as folder:
        path = os.path.join(folder, "input")
        with open(path, "w", encoding="utf-8") as file:
            file.write(text)
        return module.make_statements(module.parse_options([path, *arguments]))


def closed_pipe(tool, *arguments, given=b""):
    """A tool's exit status and errors when nobody reads its output."""
    reader, writer = os.pipe()
    os.close(reader)
    try:
        status, _, errors = run(tool, *arguments, given=given, stdout=writer)
    finally:
        os.close(writer)
    return status, errors


def real_names(text):
    """The map of a problem from its words to the real ones."""
    return dict(line[3:].split(" ", 1) for line in text.splitlines() if line.startswith("#= "))


def statements(text):
    return [line for line in text.splitlines() if not line.startswith("#")]


def candidates(text):
    """The versions of each package, as numbers in rising order."""
    found = {}
    for line in statements(text):
        words = line.split()
        if words[0] == "package":
            name, version = words[1].split("=")
            found.setdefault(name, []).append(int(version))
    return {name: sorted(versions) for name, versions in found.items()}


def matches(spec, chosen):
    """Whether a version in the range is chosen."""
    name, low, high = re.fullmatch(r"([^@]+)(?:@([0-9]+)\.\.([0-9]+))?", spec).groups()
    return name in chosen and (low is None or int(low) <= chosen[name] < int(high))


def keeps(line, chosen):
    """Whether a choice, a version by name, obeys a statement."""
    keyword, *words = line.split()
    if keyword in ("requires", "constrains", "exclude", "unknown", "lock"):
        name, version = words.pop(0).split("=")
        is_chosen = chosen.get(name) == int(version)
        if keyword == "lock":
            return name not in chosen or is_chosen
        if not is_chosen:
            return True
        if keyword in ("exclude", "unknown"):
            return False
    if keyword == "constrains":
        return words[0].split("@")[0] not in chosen or matches(words[0], chosen)
    if keyword in ("package", "favor", "soft"):
        return True
    assert keyword in ("require", "requires"), line
    union, _, condition = " ".join(words).partition(" if ")
    if condition and not any(matches(spec, chosen) for spec in condition.split(" or ")):
        return True
    return any(matches(spec, chosen) for spec in union.split(" | "))


def choices(text):
    """All choices of at most one version of each package, each with whether it obeys all statements."""
    versions = candidates(text)
    lines = statements(text)
    for picked in itertools.product(*([None] + versions[name] for name in versions)):
        chosen = {name: version for name, version in zip(versions, picked) if version is not None}
        yield chosen, all(keeps(line, chosen) for line in lines)
