#!/usr/bin/env python3
"""Makes disk.img: a tar archive of three files and a folder, the same at each run.

    image.py > disk.img"""

import io
import sys
import tarfile

NUMBERS = "".join(f"{n} squared is {n * n}\n" for n in range(1, 251)).encode()
FILES = (
    ("hello.txt", b"A guest reads this from its disk.\n"),
    ("lists/", None),
    ("lists/squares.txt", NUMBERS),
    ("lists/empty", b""),
    ("last.txt", b"An archive ends with two records of zeros.\n"),
)


def member(name, content):
    info = tarfile.TarInfo(name.rstrip("/"))
    info.type = tarfile.DIRTYPE if content is None else tarfile.REGTYPE
    info.mode = 0o755 if content is None else 0o644
    info.size = len(content or b"")
    return info


def main():
    archive = io.BytesIO()
    with tarfile.open(fileobj=archive, mode="w", format=tarfile.USTAR_FORMAT) as tar:
        for name, content in FILES:
            tar.addfile(member(name, content), io.BytesIO(content or b""))
    sys.stdout.buffer.write(archive.getvalue())


if __name__ == "__main__":
    main()
