"""The programs: of which package, from which files, with which flags, and what they are given to do."""

from __future__ import annotations

import bz2
import pathlib
import shutil
import subprocess
import zlib as own_zlib
from collections.abc import Iterator
from dataclasses import dataclass, field

PACKAGES = ("zlib", "bzip2", "cmark", "mbedtls", "sqlite3")
DRIVERS = pathlib.Path(__file__).resolve().parent / "drivers"
KIT = pathlib.Path(__file__).resolve().parents[2] / "examples" / "c" / "kit"
MOST_STEPS = 16_000_000


@dataclass(frozen=True)
class Program:
    name: str
    sources: list[pathlib.Path]
    flags: list[str]
    heap: int
    words: list[str] = field(default_factory=list)
    files: dict[str, bytes] = field(default_factory=dict)
    disk: bytes | None = None
    optimize: str = "-O1"
    steps: int = MOST_STEPS
    console: bytes | None = None  # where qemu-mips can't tell


def unpacked(sources: pathlib.Path, package: str) -> pathlib.Path:
    """The folder of a package's sources."""
    return next(folder for folder in sorted(sources.glob(f"{package}-*")) if folder.is_dir())


def made(name: str, command: list[str], folder: pathlib.Path) -> bool:
    """Whether a command that a program needs first is there and succeeds; if not, a line tells."""
    if shutil.which(command[0]) is None and not (folder / command[0]).exists():
        print(f"{name}: left out, missing {command[0]}")
        return False
    done = subprocess.run(command, cwd=folder, stdout=subprocess.DEVNULL, stderr=subprocess.DEVNULL)
    if done.returncode != 0:
        print(f"{name}: left out, {' '.join(command)} failed")
    return done.returncode == 0


def files(folder: pathlib.Path, names: str) -> list[pathlib.Path]:
    return [folder / f"{name}.c" for name in names.split()]


def zlib(sources: pathlib.Path) -> Iterator[Program]:
    """zlib's own example, which tests deflate and inflate in all their modes."""
    folder = unpacked(sources, "zlib")
    library = files(folder, "adler32 crc32 deflate trees inflate inftrees inffast zutil compress uncompr infback")
    yield Program("zlib", [folder / "test" / "example.c", *library], ["-DZ_SOLO", "-DHAVE_MEMCPY", f"-I{folder}"], 600_000)


def sent_pages(text: bytes) -> tuple[list[bytes], int]:
    """The text as this computer's zlib compresses it, in pages; and how long that is."""
    deflate = own_zlib.compressobj(1, own_zlib.DEFLATED, 12, 5)
    packed = deflate.compress(text) + deflate.flush()
    return [packed[at:at + 4096] for at in range(0, len(packed), 4096)], len(packed)


def zlib_pair(sources: pathlib.Path) -> list[Program]:
    """A guest that compresses the text of its disk and sends it, and one that takes it. What they print is told by this computer's zlib."""
    folder = unpacked(sources, "zlib")
    library = files(folder, "adler32 crc32 deflate trees inflate inftrees inffast zutil")
    flags = ["-DZ_SOLO", "-DHAVE_MEMCPY", f"-I{folder}"]
    text = (folder / "deflate.c").read_bytes()[:22_000]
    pages, length = sent_pages(text)
    crc = own_zlib.crc32(text)
    sender = "".join(f"page {n}: {len(page)} bytes, {own_zlib.adler32(page):08x} agreed\n" for n, page in enumerate(pages))
    sender += f"{len(text)} bytes read, crc {crc:08x}, {length} sent\n"
    lines = text.count(b"\n")
    receiver = f"inflated {len(text)} bytes, {lines} lines, crc {crc:08x}, whole\n"
    return [
        Program("zlib_send", [DRIVERS / "zlib_send.c", *library], flags, 16_384, disk=text, console=sender.encode()),
        Program("zlib_receive", [DRIVERS / "zlib_receive.c", *library], flags, 16_384, console=receiver.encode()),
    ]


def bzip2(sources: pathlib.Path) -> Iterator[Program]:
    """A text there and back, and what Python's bz2 has compressed, whole and damaged."""
    folder = unpacked(sources, "bzip2")
    library = files(folder, "blocksort huffman crctable randtable compress decompress bzlib")
    manual, sample = (folder / "bzip2.txt").read_bytes(), (folder / "sample1.ref").read_bytes()
    for name, text, packed in (("bzip2", 3000, 16000), ("bzip2_short", 1200, 4000)):
        given = {"text": manual[:text], "packed.bz2": bz2.compress(sample[:packed], 1)}
        yield Program(name, [DRIVERS / "bzip2.c", *library], ["-DBZ_NO_STDIO", f"-I{folder}"], 3_500_000, list(given), given)


def write_cmark_headers(folder: pathlib.Path, own: pathlib.Path) -> None:
    """What cmark's own build makes."""
    own.mkdir(exist_ok=True)
    (own / "config.h").write_text((DRIVERS / "cmark.h").read_text())
    (own / "cmark_export.h").write_text("#define CMARK_EXPORT\n#define CMARK_NO_EXPORT\n#define CMARK_DEPRECATED\n")
    version = (folder / "src" / "cmark_version.h.in").read_text()
    for key, number in (("MAJOR", "0"), ("MINOR", "30"), ("PATCH", "2")):
        version = version.replace(f"@PROJECT_VERSION_{key}@", number)
    (own / "cmark_version.h").write_text(version)


def cmark(sources: pathlib.Path) -> Iterator[Program]:
    """cmark's own main, on Markdown in memory and on the guest's disk."""
    folder = unpacked(sources, "cmark")
    own = sources / "cmark_headers"
    write_cmark_headers(folder, own)
    names = (
        "blocks buffer cmark cmark_ctype commonmark houdini_href_e houdini_html_e houdini_html_u html inlines iterator latex man node"
        " references render scanners utf8 xml main"
    )
    text = (folder / "README.md").read_bytes()[:9000]
    text += b"".join((folder / "test" / "regression.txt").read_bytes().splitlines(keepends=True)[:140])
    flags = [f"-I{own}", f"-I{folder / 'src'}"]
    yield Program("cmark", files(folder / "src", names), flags, 1_500_000, ["text.md"], {"text.md": text})
    yield Program("cmark_disk", files(folder / "src", names), flags, 1_000_000, ["/disk"], disk=text[:11000])


def mbedtls(sources: pathlib.Path) -> Iterator[Program]:
    """Mbed TLS's own selftest, of the suites that end in 16,000,000 steps."""
    folder = unpacked(sources, "mbedtls")
    names = (
        "md2 md4 md5 ripemd160 sha256 chacha20 poly1305 chachapoly base64 bignum aes cipher cipher_wrap gcm ccm cmac nist_kw xtea arc4 platform"
        " platform_util constant_time md oid error"
    )
    own = [folder / "programs" / "test" / "selftest.c", *files(folder / "library", names)]
    flags = ['-DMBEDTLS_CONFIG_FILE="mbedtls.h"', f"-I{DRIVERS}", f"-I{folder / 'include'}", f"-I{folder / 'library'}"]
    suites = "md2 md4 md5 ripemd160 arc4 base64 chacha20 poly1305 chacha20-poly1305 mpi xtea nist_kw cmac".split()
    yield Program("mbedtls", own, flags, 400_000, suites)
    yield Program("mbedtls_short", own, flags, 100_000, "md2 md5 md4 ripemd160 chacha20 poly1305 base64 xtea cmac".split())


SQLITE_FLAGS = [f"-DSQLITE_{option}" for option in (
    "OS_OTHER=1 OMIT_FLOATING_POINT THREADSAFE=0 OMIT_LOAD_EXTENSION OMIT_WAL TEMP_STORE=3 OMIT_DATETIME_FUNCS OMIT_LOCALTIME OMIT_SHARED_CACHE"
    " OMIT_DEPRECATED DEFAULT_LOOKASIDE=0,0 OMIT_UTF16 OMIT_COMPILEOPTION_DIAGS BYTEORDER=4321"
).split()]


def sqlite(sources: pathlib.Path) -> Iterator[Program]:
    """SQLite in memory, in one file as its own build makes it, with a script of statements."""
    folder = unpacked(sources, "sqlite3") / "amalgamation"
    if not (folder / "sqlite3.c").exists():
        folder.mkdir(exist_ok=True)
        commands = (["tclsh", "/dev/null"], ["../configure"], ["make", "sqlite3.c"])
        if not all(made("sqlite", command, folder) for command in commands):
            return
    for name, script, heap in (("sqlite", "long.sql", 2_000_000), ("sqlite_short", "short.sql", 600_000)):
        given = {"script.sql": (DRIVERS / script).read_bytes()}
        yield Program(name, [DRIVERS / "sqlite.c", folder / "sqlite3.c"], [*SQLITE_FLAGS, f"-I{folder}"], heap, [], given, optimize="-Os")


def numbers(sources: pathlib.Path) -> Iterator[Program]:
    """The library's own division, compared with this computer's."""
    driver, program = KIT.parent / "numbers" / "main.c", sources / "numbers"
    parts = [driver, KIT / "print.c", KIT / "outside" / "host.c"]
    if made("numbers", ["cc", "-O1", f"-I{KIT}", *map(str, parts), "-o", str(program)], sources):
        yield Program("numbers", [driver], [], 16_384, console=subprocess.run([program], stdout=subprocess.PIPE).stdout)


def floats(sources: pathlib.Path) -> Iterator[Program]:
    """The library's own floating point, compared with this computer's."""
    driver, program = DRIVERS / "floats.c", sources / "floats"
    if made("floats", ["cc", "-O1", "-ffp-contract=off", str(driver), "-o", str(program)], sources):
        yield Program("floats", [driver], [], 16_384, console=subprocess.run([program], stdout=subprocess.PIPE).stdout)


def programs(sources: pathlib.Path) -> Iterator[Program]:
    for package in (numbers, floats, zlib, bzip2, cmark, mbedtls, sqlite):
        yield from package(sources)
