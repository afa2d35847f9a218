#!/usr/bin/env python3
"""Makes one executable file of the package site/bacsite. Usage: packaging/onefile.py [--compiled] FILE

The same sources give the same octets, whichever Python and machine makes them: the parts are in the order of their
names, with the earliest time and one mode, and are not compressed, since compression depends on the version of zlib.
With --compiled, which the tests use, each part is also there as this Python compiles it: a start takes half as long.
"""
import importlib.util
import marshal
import pathlib
import sys
import zipfile

PACKAGE = pathlib.Path(__file__).resolve().parent.parent / "site" / "bacsite"
PARTS = (".py", ".txt", ".html", ".css", ".js")


def compiled(name, text):
    """A part as Python keeps it, which it does not compare with the text."""
    code = marshal.dumps(compile(text, name, "exec", dont_inherit=True))
    return importlib.util.MAGIC_NUMBER + b"\1\0\0\0" + importlib.util.source_hash(text) + code


def main(target, *options):
    paths = sorted(path for path in PACKAGE.rglob("*.*") if path.suffix in PARTS)
    parts = [(f"bacsite/{path.relative_to(PACKAGE)}", path.read_bytes()) for path in paths]
    if options == ("--compiled",):
        parts += [(f"{name}c", compiled(f"{target}/{name}", text)) for name, text in parts if name.endswith(".py")]
    target.write_bytes(b"#!/usr/bin/env python3\n")
    with zipfile.ZipFile(target, "a") as file:
        for name, text in [("__main__.py", b"import bacsite.__main__\n"), *parts]:
            part = zipfile.ZipInfo(name)
            part.create_system, part.external_attr = 3, 0o100644 << 16  # of Unix
            file.writestr(part, text)
    target.chmod(0o755)


main(pathlib.Path(sys.argv[-1]), *sys.argv[1:-1]) if 2 <= len(sys.argv) <= 3 else sys.exit(__doc__)
