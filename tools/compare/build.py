"""Stages the crate's files beside the stand-ins and compiles the oracle."""

import hashlib
import os
import shutil
import subprocess
import sys

HERE = os.path.dirname(os.path.abspath(__file__))
WORK = os.path.join(HERE, "out")

# The crate's files, by their place in the crate.
CRATE_FILES = [
    "iobuf/buf.rs",
    "iobuf/bufs.rs",
    "utils/buffer/mod.rs",
    "utils/buffer/paged/mod.rs",
    "utils/buffer/paged/tip.rs",
    "utils/buffer/paged/writer.rs",
]

# The stand-ins for other crates, each with those that it uses.
STANDINS = [
    ("bytes", []),
    ("futures", []),
    ("tracing", []),
    ("commonware_utils", []),
    ("commonware_codec", ["bytes"]),
    ("commonware_cryptography", ["commonware_codec"]),
]

RUSTC = [
    "rustc",
    "--edition=2024",
    "-Copt-level=1",
    "-Coverflow-checks=on",
    "-Cdebug-assertions=on",
    "--cap-lints=allow",
]


class NotThere(Exception):
    """The crate's files are not where they should be."""


def crate_file(folder, place):
    """The path of a file of the crate: in its own layout, or flat with the place in its name."""
    flat = "src--src--" + place.replace("/", "--") + ".txt"
    for path in (place, os.path.join("src", place), flat):
        full = os.path.join(folder, path)
        if os.path.isfile(full):
            return full
    raise NotThere(
        f"{folder} has no {place} of the crate commonware-runtime 2026.10.0 "
        f"(looked for {place}, src/{place} and {flat})"
    )


def read_crate(folder):
    """The texts of the crate's files."""
    texts = {}
    for place in CRATE_FILES:
        with open(crate_file(folder, place), encoding="utf-8") as file:
            texts[place] = file.read()
    return texts


def rustc(arguments):
    done = subprocess.run(RUSTC + arguments, capture_output=True, text=True)
    if done.returncode != 0:
        raise SystemExit("rustc failed:\n" + done.stderr)


def fingerprint(*texts):
    digest = hashlib.sha256()
    for text in texts:
        digest.update(text.encode())
        digest.update(b"\0")
    return digest.hexdigest()[:16]


def tree(folder):
    """All files of a folder with their texts."""
    found = {}
    for root, _, names in os.walk(folder):
        for name in sorted(names):
            path = os.path.join(root, name)
            with open(path, encoding="utf-8") as file:
                found[os.path.relpath(path, folder)] = file.read()
    return dict(sorted(found.items()))


def build_standins():
    """Compiles the stand-ins for other crates; the answer is the folder that has them."""
    texts = tree(os.path.join(HERE, "standins"))
    out = os.path.join(WORK, "standins-" + fingerprint(*texts.values()))
    if os.path.isfile(os.path.join(out, "done")):
        return out
    os.makedirs(out, exist_ok=True)
    for name, uses in STANDINS:
        externs = [f"--extern={u}={out}/lib{u}.rlib" for u in uses]
        source = os.path.join(HERE, "standins", name + ".rs")
        rustc(["--crate-type=rlib", "--crate-name", name, "-L", out, "-o", f"{out}/lib{name}.rlib", source] + externs)
    with open(os.path.join(out, "done"), "w", encoding="utf-8"):
        pass
    return out


def build_oracle(texts, keep=True):
    """Compiles the oracle with these texts of the crate's files; the answer is its path. Where it is not to be kept, it
    goes to a place that the next one takes."""
    standins = build_standins()
    own = tree(os.path.join(HERE, "oracle"))
    staged = {**own, **texts}
    mark = fingerprint(standins, *(place + staged[place] for place in sorted(staged)))
    out = os.path.join(WORK, "oracle-" + mark if keep else f"mutant-{os.getpid()}")
    binary = os.path.join(out, "oracle")
    if keep and os.path.isfile(binary):
        return binary
    shutil.rmtree(out, ignore_errors=True)
    for place, text in staged.items():
        path = os.path.join(out, "src", place)
        os.makedirs(os.path.dirname(path), exist_ok=True)
        with open(path, "w", encoding="utf-8") as file:
            file.write(text)
    externs = [f"--extern={name}={standins}/lib{name}.rlib" for name, _ in STANDINS]
    rustc(["--crate-name", "oracle", "-L", standins, "-o", binary, os.path.join(out, "src", "main.rs")] + externs)
    return binary


def crate_or_exit(folder):
    try:
        return read_crate(folder)
    except NotThere as problem:
        print(f"The crate's files are not there: {problem}", file=sys.stderr)
        raise SystemExit(2)
