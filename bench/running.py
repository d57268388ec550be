"""The built program, and the files of its runs."""

from __future__ import annotations

import argparse
import os
import pathlib
from collections.abc import Mapping

DESCRIPTION = "machine.toml"


def built_program(path: str) -> pathlib.Path:
    """The built program."""
    found = pathlib.Path(path).resolve()
    if not (found.is_file() and os.access(found, os.X_OK)):
        raise argparse.ArgumentTypeError(f"{path} is no program")
    return found


def write_files(folder: pathlib.Path, description: bytes, files: Mapping[str, bytes]) -> None:
    """A description, and the images and disks that it names."""
    (folder / DESCRIPTION).write_bytes(description)
    for name, content in files.items():
        (folder / name).write_bytes(content)
