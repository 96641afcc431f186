"""Brings text in the old names over to the new ones, by the table renames.tsv.

    python3 docs/records/rename.py [TREE]

TREE is a checkout of the repository in the old names; without it, the one that
this script lies in.  A line of the table is four fields with tabs between:

    crate   -       OLD              NEW              the crate's folder and its name in paths
    file    -       OLD              NEW              a file or folder below crates/, in the old crates' paths
    name    SCOPE   OLD              NEW              an identifier, whole: one part of a name where parts join with a dash
    words   SCOPE   OLD              NEW              a text as it stands after the names, anywhere in the file
    prose   SCOPE   OLD              NEW              a text in comments and in documents

SCOPE is * or a list of patterns of paths, in the new tree, with commas between;
one that begins with ! takes paths away.
A name whose new form already stands in a file where the old one is renamed is
told as one that falls together.
"""

import fnmatch
import pathlib
import re
import shutil
import subprocess
import sys

HERE = pathlib.Path(__file__).resolve().parent
WORD = re.compile(r"[A-Za-z_][A-Za-z0-9_]*")


def table():
    rows = []
    for line in (HERE / "renames.tsv").read_text(encoding="utf8").splitlines():
        if line.strip() and not line.startswith("#"):
            kind, scope, old, new = line.split("\t")
            rows.append((kind, scope, old, new))
    return rows


def within(scope, path):
    patterns = scope.split(",")
    wanted = [p for p in patterns if not p.startswith("!")]
    unwanted = [p[1:] for p in patterns if p.startswith("!")]
    hit = any(p == "*" or fnmatch.fnmatch(path, p) for p in wanted)
    return hit and not any(fnmatch.fnmatch(path, p) for p in unwanted)


class Moves:
    """Where each file of crates/ goes, and what its modules are called then."""

    def __init__(self, rows):
        self.crates = {old: new for kind, _, old, new in rows if kind == "crate"}
        self.files = sorted(((old, new) for kind, _, old, new in rows if kind == "file"),
                            key=lambda pair: -len(pair[0]))

    def path(self, path):
        parts = path.split("/")
        if parts[0] != "crates" or len(parts) < 3:
            return path
        inner = "/".join(parts[1:])
        for old, new in self.files:
            if inner == old or inner.startswith(old + "/"):
                return "crates/" + new + inner[len(old):]
        return "/".join(["crates", self.crates.get(parts[1], parts[1])] + parts[2:])

    def crate(self, old):
        return self.crates.get(old, old)


def code_module(path):
    """crates/a/src/b/c.rt is the module a::b::c."""
    parts = path.split("/")
    tail = "/".join(parts[3:])
    if not tail.endswith(".rt") or tail in ("lib.rt", "main.rt"):
        return None
    return [parts[1]] + tail[:-3].split("/")


def text_module(path):
    """crates/a/specs/B.antt is Rattle.a.specs.B."""
    parts = path.split("/")
    return ["Rattle", parts[1]] + "/".join(parts[2:])[:-5].split("/")


class Modules:
    """Paths of modules, old and new."""

    def __init__(self, files, moves):
        self.code = []      # (old, new) of modules of src/
        self.text = []      # (old, new) of modules of specs/ and proofs/
        for path in files:
            new = moves.path(path)
            if "/src/" in path and path.endswith(".rt"):
                a, b = code_module(path), code_module(new)
                if a and b:
                    self.code.append((a, b))
            elif path.endswith(".antt") and path.split("/")[2] in ("specs", "proofs"):
                a, b = text_module(path), text_module(new)
                if a != b:
                    self.text.append((a, b))
        self.code.sort(key=lambda pair: -len(pair[0]))
        self.text.sort(key=lambda pair: -len(pair[0]))
        self.moves = moves

    def in_code(self, text, old_crate, new_crate):
        """Paths with :: in a file that lay in one crate and lies in another."""
        for old, new in self.code:
            for head in ([old[0]] if old[0] != old_crate else ["crate"]):
                pattern = r"\b" + "::".join([head] + old[1:]) + r"\b"
                target = ["crate" if new[0] == new_crate else new[0]] + new[1:]
                text = re.sub(pattern, "\0" + "::".join(target), text)
        return text.replace("\0", "")

    def in_text(self, text):
        """Paths with dots, of files and of what the toolchain makes of the code."""
        for old, new in self.text:
            pattern = r"\b" + r"\.".join(old) + r"\b(?!')"
            text = re.sub(pattern, "\0" + ".".join(new), text)
        for old, new in self.code:
            for made in ("specs.declared", "specs.contracts", "proofs"):
                pattern = r"\bRattle\." + r"\.".join([old[0]] + made.split(".") + old[1:]) + r"\b"
                text = re.sub(pattern, "\0Rattle." + ".".join([new[0], made] + new[1:]), text)
        for old, new in self.moves.crates.items():
            text = re.sub(r"(?<!\0)\bRattle\." + old + r"\b", "\0Rattle." + new, text)
        return text.replace("\0", "")


ROOTS = ("/src/lib.rt", "/src/main.rt", "/specs/Lib.antt", "/proofs/Lib.antt")
DECLARED = re.compile(r"(?m)^((?:pub )?mod )(\w+)(;?)\n")


class Roots:
    """The files that name the modules beside them: each module is named where its file then lies."""

    def __init__(self, tree, files, moves):
        self.heads = {}
        self.modules = {}
        for path in sorted(files):
            if not (path.startswith("crates/") and path.endswith(ROOTS)):
                continue
            text = (tree / path).read_text(encoding="utf8")
            ending = ".rt" if path.endswith(".rt") else ".antt"
            root = moves.path(path)
            self.heads.setdefault(root, DECLARED.sub("", text).strip("\n"))
            self.modules.setdefault(root, [])
            folder = path.rsplit("/", 1)[0]
            for mark, module, stop in DECLARED.findall(text):
                new = moves.path(f"{folder}/{module}{ending}")
                where, _, name = new.rpartition("/")
                target = where + "/" + path.rsplit("/", 1)[1]
                self.modules.setdefault(target, []).append(f"{mark}{name[:-len(ending)]}{stop}")

    def text(self, root, amend):
        head = amend(self.heads.get(root, ""), root)
        lines = sorted(dict.fromkeys(self.modules.get(root, [])), key=lambda x: x.split()[-1])
        first, mark, rest = head.partition("#![tactic(auto)]")
        parts = [x.strip("\n") for x in (first + mark, "\n".join(lines), rest)]
        parts = [x for x in parts if x]
        return "\n\n".join(parts) + "\n" if parts else ""


def renamed(text, names):
    return WORD.sub(lambda m: names.get(m.group(0), m.group(0)), text)


def outside_comments(text, names, mark):
    """Names in the code of each line; in its comment only where back quotes stand about them."""
    lines = []
    for line in text.split("\n"):
        at = line.find(mark) if mark else -1
        if at < 0:
            lines.append(renamed(line, names))
        else:
            quoted = re.sub(r"`[^`]*`", lambda m: renamed(m.group(0), names), line[at:])
            lines.append(renamed(line[:at], names) + quoted)
    return "\n".join(lines)


def in_prose(text, pairs, path):
    """Comments of code, and whole documents."""
    mark = "//" if path.endswith(".rt") else "--" if path.endswith(".antt") else None
    if not pairs or not (mark or path.endswith(".md")):
        return text
    lines = []
    for line in text.split("\n"):
        at = line.find(mark) if mark else 0
        if at < 0:
            lines.append(line)
            continue
        tail = line[at:]
        for old, new in pairs:
            tail = re.sub(r"(?<![\w`])" + re.escape(old) + r"(?![\w`])", new, tail)
        lines.append(line[:at] + tail)
    return "\n".join(lines)


def crate_list(text, moves):
    """crates.txt: crates that become one have the dependencies of all."""
    lines = {}
    for line in text.splitlines():
        name, _, deps = line.partition(":")
        new = moves.crate(name)
        known = lines.setdefault(new, [])
        for dep in (moves.crate(d) for d in deps.split()):
            if dep != new and dep not in known:
                known.append(dep)
    return "".join(f"{name}: {' '.join(deps)}".rstrip() + "\n" for name, deps in lines.items())


def main(tree):
    rows = table()
    moves = Moves(rows)
    listed = subprocess.run(["git", "ls-files"], cwd=tree, capture_output=True,
                            text=True, check=True).stdout.split("\n")
    files = [f for f in listed if f and not f.startswith("docs/records/")]
    modules = Modules(files, moves)
    roots = Roots(tree, files, moves)
    told = set()
    out = {}
    for path in files:
        place = tree / path
        if not place.is_file():
            continue
        data = place.read_bytes()
        new = moves.path(path)
        if path.startswith("tools/more-edits/"):
            parts = path.split("/")
            parts[2] = moves.crate(parts[2])
            new = "/".join(parts)
        try:
            text = data.decode("utf8")
        except UnicodeDecodeError:
            out[new] = data
            continue
        if path == "crates.txt":
            out[path] = crate_list(text, moves).encode("utf8")
            continue
        if not new.endswith((".rt", ".antt", ".edit", ".md", ".py")):
            out[new] = data
            continue
        parts = path.split("/")
        old_crate = parts[1] if parts[0] == "crates" else parts[2] if path.startswith("tools/more-edits/") else ""
        new_crate = new.split("/")[1] if new.startswith("crates/") else moves.crate(old_crate)
        if new.endswith((".rt", ".edit")):
            text = modules.in_code(text, old_crate, new_crate)
        text = modules.in_text(text)
        if new.endswith(".edit"):
            edited = [moves.path(f"crates/{old_crate}/{f}").split("/") for f in re.findall(r"(?m)^file: (\S+)", text)]
            new_crate = edited[0][1]
            new = new.replace(f"/{moves.crate(old_crate)}/", f"/{new_crate}/", 1)
            text = re.sub(r"(?m)^file: (\S+)", lambda m: "file: " + "/".join(
                moves.path(f"crates/{old_crate}/{m.group(1)}").split("/")[2:]), text)
        if new.endswith((".rt", ".antt", ".edit")):
            names = {o: n for kind, scope, o, n in rows if kind == "name" and within(scope, new)}
            words = set(WORD.findall(text))
            for o, n in names.items():
                if o in words and n in words and n not in names:
                    told.add(f"{new}: {o} and {n} fall together")
            text = outside_comments(text, names, "//" if new.endswith(".rt") else "--" if new.endswith(".antt") else None)
        else:
            names = {o: n for kind, scope, o, n in rows if kind == "name" and scope != "docs" and within(scope, new)}
            if new.endswith((".md", ".py")):
                text = re.sub(r"crates/\w+(?:/[\w.]+)*", lambda m: moves.path(m.group(0)) if "/" in m.group(0)[7:]
                              else "crates/" + moves.crate(m.group(0)[7:]), text)
            if new.endswith(".md"):
                text = re.sub(r"`[^`\n]*`", lambda m: renamed(modules.in_code(m.group(0), "", ""), names), text)
        for kind, scope, o, n in rows:
            if kind == "words" and within(scope, new):
                text = text.replace(o, n)
        if path.startswith("crates/") and path.endswith(ROOTS):
            continue
        text = in_prose(text, [(o, n) for kind, scope, o, n in rows if kind == "prose" and within(scope, new)], new)
        if new in out:
            told.add(f"{new}: two files fall together ({path})")
            stem, dot, ending = new.rpartition(".")
            new = f"{stem}_of_{old_crate}{dot}{ending}"
        out[new] = text.encode("utf8")
    def amend(head, root):
        """What a root file has beside its modules' names."""
        crate = root.split("/")[1]
        head = modules.in_code(head, "", crate)
        for old, new in modules.code:
            if len(old) == 2 and new[0] == crate and old[0] == crate:
                head = re.sub(r"(?<![:\w])" + old[1] + "::", new[1] + "::", head)
        names = {o: n for kind, scope, o, n in rows if kind == "name" and within(scope, root)}
        head = outside_comments(head, names, "//" if root.endswith(".rt") else "--")
        for kind, scope, o, n in rows:
            if kind == "words" and within(scope, root):
                head = head.replace(o, n)
        return in_prose(head, [(o, n) for kind, scope, o, n in rows if kind == "prose" and within(scope, root)], root)

    for root in sorted(set(roots.heads) | set(roots.modules)):
        out[root] = roots.text(root, amend).encode("utf8")
    for path in files:
        if (tree / path).is_file() and path not in out:
            (tree / path).unlink()
    for path, data in out.items():
        (tree / path).parent.mkdir(parents=True, exist_ok=True)
        (tree / path).write_bytes(data)
    subprocess.run(["find", "crates", "-type", "d", "-empty", "-delete"], cwd=tree)
    for line in sorted(told):
        print(line)


if __name__ == "__main__":
    main(pathlib.Path(sys.argv[1]) if len(sys.argv) > 1 else HERE.parent.parent)
