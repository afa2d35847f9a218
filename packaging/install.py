#!/usr/bin/env python3
"""Installs the built program, links with the tools' names, bacsite, manual pages, completions, documents and examples
below PREFIX, or removes them. Usage: packaging/install.py PROGRAM | --remove. From the environment: PREFIX
(/usr/local), DESTDIR, which is put before all paths, and ZSH_COMPLETIONS (PREFIX/share/zsh/site-functions), which must
be below PREFIX.

PREFIX/share/bactool/installed lists the installed files, with a checksum of each. An existing file that is not
unchanged in this list, such as another vendor's bacrp, is not replaced: all of these are named, and nothing is
installed, unless FORCE=1 is set. --remove removes the unchanged files of the list, and nothing outside PREFIX.
"""
import contextlib
import os
import pathlib
import re
import shutil
import subprocess
import sys
import tempfile

TOP = pathlib.Path(__file__).resolve().parent.parent
LIST, DOC = "share/bactool/installed", "share/doc/bactool"
BASH, FISH = "share/bash-completion/completions", "share/fish/vendor_completions.d"
DOCUMENTS = ["*.md", "LICENSE", "docs/**/*.md", "docs/**/*.png", "examples/*"]
TOOLS = ["bacrp", "bacwp", "bacwi", "bacdev", "bacrun", "bactrace"]


def lay_out(program, version, room, prefix, zsh):
    """Makes in a folder the tree of all files below a prefix. A manual page has the version at its foot, and places
    below /usr/local are named below the prefix instead. Documents keep their folders, for their links."""
    subprocess.run([TOP / "packaging/onefile.py", room / "bacsite"], check=True)
    subprocess.run([TOP / "completions/make.py", program, room], check=True)
    sources = {"bin/bactool": program, "bin/bacsite": room / "bacsite"}
    for name in ("bactool", "bacsite"):
        made = {f"{BASH}/{name}": f"{name}.bash", f"{zsh}/_{name}": f"_{name}", f"{FISH}/{name}.fish": f"{name}.fish"}
        sources.update((path, room / file) for path, file in made.items())
    sources.update((f"share/man/man{page.suffix[1:]}/{page.name}", page) for page in TOP.glob("man/*.[17]"))
    sources.update((f"{DOC}/{it.relative_to(TOP)}", it) for place in DOCUMENTS for it in TOP.glob(place))
    for path, source in sources.items():
        target = room / "tree" / path
        target.parent.mkdir(parents=True, exist_ok=True)
        shutil.copyfile(source, target)
        if path.startswith("share/man/") or path.endswith(".service"):
            text = re.sub(r"(?m)^\.Os$", f".Os bactool {version}", source.read_text(encoding="utf-8"))
            target.write_text(re.sub("/usr/local/(share|bin)", rf"{prefix}/\1", text), encoding="utf-8")
        target.chmod(0o755 if os.access(source, os.X_OK) else 0o644)
    for tool in TOOLS:
        for link in (f"bin/{tool}", f"{BASH}/{tool}", f"{FISH}/{tool}.fish"):
            (room / "tree" / link).symlink_to("bactool.fish" if link.endswith(".fish") else "bactool")


def sums(root, paths):
    """Returns for each path that exists the target of a link, or the checksum of a file."""
    there = [path for path in paths if os.path.lexists(root / path)]
    files = [path for path in there if (root / path).is_file() and not (root / path).is_symlink()]
    told = subprocess.check_output(["cksum", "/dev/null", *(root / path for path in files)], text=True).splitlines()[1:]
    found = {path: ":".join(line.split()[:2]) for path, line in zip(files, told)}
    links = {path: f"link:{os.readlink(root / path)}" for path in there if (root / path).is_symlink()}
    return {**dict.fromkeys(there, "other"), **found, **links}


def listed(root):
    """The sums of the list by their paths, without paths that are not below PREFIX or lead out of it."""
    text = (root / LIST).read_text(encoding="utf-8") if (root / LIST).is_file() else ""
    rows = (line.partition(" ")[::2] for line in text.splitlines())
    return {path: found for found, path in rows if not path.startswith("/") and ".." not in path.split("/")}


def remove(root, prefix):
    if not (root / LIST).is_file():
        sys.exit(f"make install put nothing below {prefix}: there is no {prefix}/{LIST}")
    had = listed(root)
    for path, found in sums(root, had).items():
        if found == had[path]:
            (root / path).unlink()
        else:
            print(f"left there, since it is not as it was put: {prefix}/{path}")
    (root / LIST).unlink()
    folders = {str(folder) for path in had for folder in pathlib.Path(path).parents if str(folder).startswith(DOC)}
    for folder in [os.path.dirname(LIST), *sorted(folders, reverse=True)]:
        with contextlib.suppress(OSError):
            (root / folder).rmdir()
    print(f"taken away from {prefix}")


def install(tree, root, prefix):
    paths = sorted(str(path.relative_to(tree)) for path in tree.rglob("*") if path.is_symlink() or path.is_file())
    had = listed(root)
    new, there = sums(tree, paths), sums(root, {*paths, *had})
    foreign = [f"{prefix}/{path}" for path in paths if there.get(path, new[path]) not in (new[path], had.get(path))]
    if foreign and os.environ.get("FORCE") != "1":
        sys.exit("\n  ".join(["make install did not put these there, or not as they are now. Nothing was installed;"
                              " FORCE=1 replaces them:", *foreign]))
    for path in foreign:
        print(f"replaced: {path}")
    for path in had:  # installed by an earlier version, but not by this one
        if path not in new and there.get(path) == had[path]:
            (root / path).unlink()
    for path in paths:
        (root / path).parent.mkdir(parents=True, exist_ok=True)
        (root / path).unlink(missing_ok=True)
        shutil.copy2(tree / path, root / path, follow_symlinks=False)
    (root / LIST).parent.mkdir(parents=True, exist_ok=True)
    (root / LIST).write_text("".join(f"{new[path]} {path}\n" for path in paths), encoding="utf-8")
    return len(paths)


def main(word):
    os.umask(0o022)
    prefix = os.path.abspath(os.path.expanduser(os.environ.get("PREFIX") or "/usr/local"))
    root = pathlib.Path(os.environ.get("DESTDIR", "") + prefix)
    if word == "--remove":
        return remove(root, prefix)
    zsh = os.environ.get("ZSH_COMPLETIONS") or f"{prefix}/share/zsh/site-functions"
    if not zsh.startswith(f"{prefix}/"):
        sys.exit(f"packaging/install.py: ZSH_COMPLETIONS is not below {prefix}: {zsh}")
    version = re.match(r"bactool ([\d.]+\d)", subprocess.check_output([word, "--help"], text=True))[1]
    with tempfile.TemporaryDirectory() as folder:
        lay_out(pathlib.Path(word), version, pathlib.Path(folder), prefix, os.path.relpath(zsh, prefix))
        count = install(pathlib.Path(folder, "tree"), root, prefix)
    print(f"bactool {version} and {count - 1} files and links beside it are below {prefix}")


main(sys.argv[1]) if len(sys.argv) == 2 else sys.exit(__doc__)
