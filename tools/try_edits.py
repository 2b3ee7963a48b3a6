#!/usr/bin/env python3
"""Tries the edits that lie beside the gate, crates/NAME/edits/*.edit: the prover must refuse each.

    python3 tools/try_edits.py NAME [NAME ..]             the edits of these crates
    python3 tools/try_edits.py --only PATTERN NAME ..     those whose names fit, as `answers_*` or `*text*`
    python3 tools/try_edits.py --anew NAME ..             also those that were tried before, with nothing changed since
    python3 tools/try_edits.py --fits                     of all crates, in must-fail/ too: says which can't be applied, and tries none

An edit has the form of those in must-fail/, which the gate tries. It is tried as the gate would: in a copy of the crates, in a
temporary folder, in which these edits are the must-fail edits, by `rt must-fail`. Libraries that `rt check` or `rt lib` built here
are taken from here (those of `rt ci` can't be). One line an edit says what it came to:

    NAME/EDIT: refused                      the prover refuses it, as it must
    NAME/EDIT: refused for a name           only because a proof file names what the edit took away, which says little of the contract
    NAME/EDIT: refused at a limit           only because the prover stopped at a limit of its own
    NAME/EDIT: not refused                  the crate is still proved with it: its contract is too weak
    NAME/EDIT: bad edit                     it can't be applied, compiled or read
    NAME/EDIT: not tried                    its check came to no end

What it costs: a proof of each crate below that isn't built here, one of the crate itself (unless one edit alone is tried from
nothing), and 5 to 110 seconds an edit, more the higher the crate stands. The last line has the processor time. RT_JOBS sets how
many run side by side.

The exit status is 0 where each edit was refused (or fits), 1 where one wasn't, 2 where the words are wrong or there is no such edit.
"""

import fnmatch
import glob
import os
import re
import resource
import shutil
import subprocess
import sys
import tempfile
import time

ROOT = os.path.join(os.path.dirname(os.path.abspath(__file__)), "..")
TOLD = re.compile(r"rt: must-fail ([\w]+)/([\w.-]+)\.edit: (.*)")


def came_to(said):
    """What an edit came to, by what `rt must-fail` says of it, and whether it was refused."""
    if said.startswith("refused, as it must be"):
        if "only because a proof file names" in said:
            return "refused for a name", True
        return ("refused at a limit" if "only by a limit of the prover" in said else "refused"), True
    for word in ("NOT REFUSED", "BAD EDIT", "NOT TRIED"):
        if said.startswith(word):
            return word.lower(), False
    return None, False


def link_or_copy(source, target):
    try:
        os.link(source, target)
    except OSError:
        shutil.copy2(source, target)


def copied(names, pattern, room):
    """Copies the crates into a folder, with the edits to try as their must-fail edits, and gives those edits."""
    crates = os.path.join(ROOT, "crates")
    left_out = lambda at, _: ("out", "must-fail", "edits") if os.path.dirname(at) == crates else ()
    shutil.copytree(crates, os.path.join(room, "crates"), ignore=left_out)
    for name in ("crates.txt", "HANDLES"):
        if os.path.exists(os.path.join(ROOT, name)):
            shutil.copy2(os.path.join(ROOT, name), room)
    for built in glob.glob(os.path.join(ROOT, "crates", "*", "out", "rlib")):
        to = os.path.join(room, os.path.relpath(built, ROOT))
        shutil.copytree(built, to, copy_function=link_or_copy)
    edits = []
    for name in names:
        to = os.path.join(room, "crates", name, "must-fail")
        os.makedirs(to)
        for edit in sorted(glob.glob(os.path.join(ROOT, "crates", name, "edits", "*.edit"))):
            short = os.path.basename(edit).removesuffix(".edit")
            if fnmatch.fnmatch(short, pattern):
                shutil.copy2(edit, to)
                edits.append((name, short))
    return edits


def tried(names, pattern, anew):
    """Tries the edits, says what each came to, and gives the exit status."""
    refused = 0
    with tempfile.TemporaryDirectory(prefix="try-edits-") as room:
        edits = copied(names, pattern, room)
        if not edits:
            print("try_edits: no edit of these crates has such a name", file=sys.stderr)
            return 2
        words = ["rt", "must-fail", *["--anew"] * anew, *names]
        ran = subprocess.Popen(words, cwd=room, stdout=subprocess.PIPE, stderr=subprocess.STDOUT, text=True, errors="replace")
        found, said = {}, []
        for line in ran.stdout:
            said.append(line)
            told = TOLD.match(line)
            if told:
                found[told[1], told[2]] = came_to(told[3])
        ran.wait()
    for edit in edits:
        word, is_refused = found.get(edit, ("not tried", False))
        refused += is_refused
        print(f"{'/'.join(edit)}: {word or 'not tried'}", flush=True)
    if refused < len(edits):
        print("what rt said:\n" + "".join(said[-40:]), file=sys.stderr)
    print(f"try_edits: {refused} of {len(edits)} refused")
    return 0 if refused == len(edits) else 1


def misfit(edit, crate):
    """Why an edit can't be applied to the files of its crate, or None."""
    path, old, texts = None, None, {}
    with open(edit, encoding="utf-8") as file:
        lines = file.read().split("\n")
    for line in lines:
        word, _, rest = line.partition(": ")
        if word == "file":
            path = rest.strip()
            if not os.path.isfile(os.path.join(crate, path)):
                return f"there is no file {path}"
            if path not in texts:
                with open(os.path.join(crate, path), encoding="utf-8") as file:
                    texts[path] = file.read()
        elif word == "old":
            old = rest
        elif line.startswith("new:"):
            if path is None or old is None:
                return "a line 'new:' stands before its 'old:'"
            count = texts[path].count(old)
            if count != 1:
                return f"an old text stands {count} times in {path}"
            texts[path] = texts[path].replace(old, line[len("new:") :].removeprefix(" "))
            old = None
    return None if texts else "it has no line 'file:'"


def fits():
    """Says which edits can't be applied, and gives the exit status."""
    edits = sorted(it for folder in ("must-fail", "edits") for it in glob.glob(os.path.join(ROOT, "crates", "*", folder, "*.edit")))
    lost = 0
    for edit in edits:
        crate = os.path.dirname(os.path.dirname(edit))
        why = misfit(edit, crate)
        if why:
            print(f"{os.path.basename(crate)}/{os.path.basename(edit).removesuffix('.edit')}: {why}")
            lost += 1
    print(f"try_edits: {len(edits) - lost} of {len(edits)} can be applied")
    return 1 if lost else 0


def main(words):
    if words == ["--fits"]:
        return fits()
    pattern, anew, names = "*", False, []
    while words:
        word = words.pop(0)
        if word == "--only" and words:
            pattern = words.pop(0)
        elif word == "--anew":
            anew = True
        elif word.startswith("-") or not os.path.isdir(os.path.join(ROOT, "crates", word)):
            print(__doc__.split("\n\n")[1], file=sys.stderr)
            return 2
        else:
            names.append(word)
    if not names:
        print(__doc__.split("\n\n")[1], file=sys.stderr)
        return 2
    start = time.monotonic()
    status = tried(names, pattern, anew)
    used = resource.getrusage(resource.RUSAGE_CHILDREN)
    print(f"try_edits: {used.ru_utime + used.ru_stime:.0f} processor seconds, {time.monotonic() - start:.0f} by the clock")
    return status


if __name__ == "__main__":
    sys.exit(main(sys.argv[1:]))
