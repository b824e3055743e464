"""Loads the kit's own command `rt` as a module, for tools that do parts of its work."""
import importlib.machinery, importlib.util, os, shutil, sys

sys.dont_write_bytecode = True
loader = importlib.machinery.SourceFileLoader("rt", os.path.realpath(shutil.which("rt")))
rt = importlib.util.module_from_spec(importlib.util.spec_from_loader("rt", loader))
loader.exec_module(rt)

# The kit computes the stamp of a crate once for every path of the graph of libraries; here each stamp is computed once.
summed_up, sums = rt.rtlib.Crate.stamp, {}


def stamp(crate):
    if crate.folder not in sums:
        sums[crate.folder] = summed_up(crate)
    return sums[crate.folder]


rt.rtlib.Crate.stamp = stamp


def keeps():
    """Returns whether this kit's `rt ci` keeps what it proved; some versions do not."""
    return hasattr(rt, "Kept")


def copied(to):
    """Copies the tree of the current folder to a folder, without the files that rt made."""
    for it in ("crates.txt", "HANDLES"):
        shutil.copy(it, to)
    shutil.copytree("crates", f"{to}/crates", symlinks=True, ignore=shutil.ignore_patterns("out"))
    # (rt looks for no tree above this one)
    os.mkdir(f"{to}/.git")


def give(root, is_wanted):
    """Copies the wanted libraries that `rt ci` kept on this machine into a copy of the tree; returns the first that is not kept as it is now, if any."""
    os.chdir(root)
    crates = rt.crates_of(root)
    kept = rt.Kept(crates)
    for crate in [it for it in crates if it.makes_rlib() and is_wanted(it)]:
        os.makedirs(f"{crate.folder}/out", exist_ok=True)
        if not kept.give(crate, False, kept.key(crate)):
            return crate.name
        kept.is_built(crate)
        with open(f"{crate.folder}/out/rlib/stamp", "w", encoding="utf-8") as it:
            it.write(crate.stamp())
    return None
