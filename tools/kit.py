"""What tests/lines/run and oracle/mutate call of the Rattle toolchain past `rt`, and what crates.txt says. Imported by them; no tool.

The toolchain's folder is the one that `rt doc` names.
"""

import os
import re
import subprocess

TOP = os.path.dirname(os.path.dirname(os.path.abspath(__file__)))


class NoKit(Exception):
    pass


def home():
    """The toolchain's folder."""
    try:
        doc = subprocess.run(["rt", "doc"], capture_output=True, text=True)
    except OSError as error:
        raise NoKit(f"rt: {error.strerror}") from error
    if doc.returncode != 0:
        raise NoKit("rt doc does not tell where the Rattle toolchain is")
    return os.path.dirname(doc.stdout.strip())


def crates():
    """What each crate sees, by crates.txt."""
    with open(os.path.join(TOP, "crates.txt"), encoding="utf-8") as source:
        lines = [line.partition("#")[0].partition(":") for line in source]
    return {name.split()[0]: seen.split() for name, colon, seen in lines if colon}


def below(crate):
    """The repository's crates that a crate sees, itself or by others, in the order of crates.txt."""
    seen = crates()
    found, left = set(), [crate]
    while left:
        more = [name for name in seen[left.pop()] if name in seen and name not in found]
        found.update(more)
        left += more
    return [name for name in seen if name in found]


def uses(kit, library):
    """What a library of the toolchain uses."""
    with open(os.path.join(kit, "rlibs", f"{library}.rlib", "format"), encoding="utf-8") as source:
        return re.findall(r"^dep (\w+)$", source.read(), re.M)


def of_kit(crate):
    """The toolchain's libraries that a crate and those below it name."""
    seen = crates()
    return list(dict.fromkeys(["std", *(name for one in (crate, *below(crate)) for name in seen[one] if name not in seen)]))


def sources(crate, folder):
    """The words that pass the crates below a crate as source, which lie in this folder."""
    seen, words = crates(), []
    for name in below(crate):
        words += ["--lib", f"{name}:{','.join(dict.fromkeys(['core', 'std', *seen[name]]))}={folder}/{name}/src/lib.rt"]
    return words


def built(kit, crate):
    """The words that pass the toolchain's libraries that a crate and those below it name, as they are built."""
    words = []
    for name in dict.fromkeys(["core", *of_kit(crate)]):
        words += ["--extern", f"{name}={kit}/rlibs/{name}.rlib"]
    return [*words, "-L", f"dependency={kit}/rlibs"]


def unbuilt(kit, crate):
    """The words that pass the same libraries, and those that they use, as source."""
    names, words = of_kit(crate), []
    for name in names:
        names += [one for one in uses(kit, name) if one not in names]
        words += ["--lib", f"{name}:{','.join(uses(kit, name))}={kit}/rattle/{name}/src/lib.rt"]
    return words


def logic(kit):
    """The words that name the logic that a check goes by."""
    return ["--antt-project", f"{kit}/rattle/logic/antt-project.json", "--logic-built", f"{kit}/logic_built"]
