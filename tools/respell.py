#!/usr/bin/env python3
"""Respells the repository's own antt names as the library spells its names.

Run once, at the top of the repository, right after the kit's port.py. Definitions, lemmas, fields and constructors are
written with underscores, types and facts in upper camel case. Names of the kit's libraries, names that the check makes
(goals, steps of a proof) and the names of src/ stay as they are. It prints what it renamed, and stops where two names
would fall together.
"""
import glob
import re
import sys

TOKEN = re.compile(r"[^\s(){}\[\];,.«»`\"]+")


def antt_files():
    return sorted(glob.glob("crates/*/specs/**/*.antt", recursive=True) + glob.glob("crates/*/proofs/**/*.antt", recursive=True))


def statements(text):
    """(indentation, statement with its continuation lines joined)"""
    held = None
    for line in text.splitlines():
        if line.strip().startswith("--") or not line.strip():
            continue
        indent = len(line) - len(line.lstrip())
        continues = held is not None and re.match(r"^\s+(→|×|⊎|\|)", line)
        if continues:
            held = (held[0], held[1] + " " + line.strip())
        else:
            if held is not None:
                yield held
            held = (indent, line.strip())
    if held is not None:
        yield held


def definitions(text):
    """The names that a file defines: {name: is it a type}"""
    found = {}
    for indent, statement in statements(text):
        m = re.match(r"^(?:abbrev |unfoldable )?(?:pub )?(?:record|data) (\S+)", statement)
        if m:
            found[m.group(1)] = True
            continue
        m = re.match(r"^(?:abbrev |unfoldable )?(?:pub )?([^\s(){}:=]+) : (.*)$", statement)
        if not m or m.group(2).startswith("goal."):
            continue
        name, kind = m.groups()
        is_type = re.search(r"(^|→ )Type 0$", kind) is not None
        found[name] = found.get(name, False) or is_type
    return found


def camel(name):
    return "".join(part[:1].upper() + part[1:] for part in re.split(r"[-_]", name))


def snake(name):
    name = re.sub(r"(?<=[a-z])([A-Z])(?=[a-z])", lambda m: "_" + m.group(1).lower(), name)
    return name.replace("-", "_")


# A definition that would have the name of the function of src/ that it describes
CHOSEN = {"fault-text": "text_of_fault", "afterWhite": "mode_after_white"}


def aliases(text):
    """The names with dashes that a file gives to what it imports"""
    return {name for name in re.findall(r" as ([^\s,;}]+)", text) if "-" in name and re.search(r"[a-z]", name)}


def respelled(name, is_type):
    if name in CHOSEN:
        return CHOSEN[name]
    if not re.search(r"[A-Za-z]", name) or "◌" in name:
        return name
    if is_type and ("-" in name or "_" in name):
        return camel(name)
    return name if is_type else snake(name)


def from_libraries(text):
    """The names that a file imports from the kit's libraries, and as what"""
    found = set()
    for m in re.finditer(r"^\s*(?:ghost )?use (\S+?)\.\{([^}]*)\}", text, re.M):
        if m.group(1).split(".")[1:2] and m.group(1).split(".")[1] in OWN:
            continue
        for item in m.group(2).split(","):
            found.add(item.strip().split(" as ")[-1].strip())
    return found


def renamed(segment, names):
    return TOKEN.sub(lambda m: names.get(m.group(0), m.group(0)), segment)


def in_backticks(comment, names):
    return re.sub(r"`[^`]*`", lambda m: renamed(m.group(0), names), comment)


def antt_text(text, names):
    out = []
    for line in text.split("\n"):
        code, dashes, comment = line, "", ""
        m = re.match(r"^(.*?)(-- .*)$", line)
        if m:
            code, comment = m.group(1), m.group(2)
        out.append(respell_use(code, names) + in_backticks(comment, names))
    return "\n".join(out)


def respell_use(line, names):
    """Only the items of a `use` line: its path names modules"""
    m = re.match(r"^(\s*(?:ghost )?use )(\S+?\.)(\{[^}]*\}.*)$", line)
    if not m:
        m = re.match(r"^(\s*(?:ghost )?use \S+ as )(.*)$", line)
        if m:
            return m.group(1) + renamed(m.group(2), names)
        return line if re.match(r"^\s*(ghost )?use ", line) else renamed(line, names)
    path = m.group(2).split(".")
    library = len(path) < 2 or path[1] not in OWN
    if library:
        return m.group(1) + m.group(2) + re.sub(r"(?<= as )[^\s,;}]+", lambda n: names.get(n.group(0), n.group(0)), m.group(3))
    return m.group(1) + m.group(2) + renamed(m.group(3), names)


def rt_text(text, names):
    """Clauses, ghost items and `ghost use` lines; code and comments stay"""
    out, depth = [], 0
    for line in text.split("\n"):
        if re.match(r"^\s*ghost use ", line):
            out.append(respell_use(line, names))
            continue
        starts = re.match(r"^\s*(requires|ensures|ghost)\b.*\{", line)
        if starts or depth:
            depth += line.count("{") - line.count("}")
            line = renamed(line, names)
        elif re.match(r"^\s*//", line):
            line = in_backticks(line, names)
        out.append(line)
    return "\n".join(out)


def main():
    files = {path: open(path).read() for path in antt_files()}
    own = {}
    for text in files.values():
        for name, is_type in definitions(text).items():
            own[name] = own.get(name, False) or is_type
    names = {name: respelled(name, is_type) for name, is_type in own.items()}
    names = {old: new for old, new in names.items() if old != new}
    trouble = 0
    by_new = {}
    for old, new in names.items():
        by_new.setdefault(new, []).append(old)
    for new, olds in sorted(by_new.items()):
        if len(olds) > 1 or new in own:
            print(f"fall together: {', '.join(olds)} and {new}")
            trouble += new not in ALLOWED
    texts = dict(files)
    for path in sorted(glob.glob("crates/*/src/**/*.rt", recursive=True)):
        texts[path] = open(path).read()
    for path, text in texts.items():
        mine = {old: new for old, new in names.items() if old not in from_libraries(text)}
        mine.update((alias, snake(alias)) for alias in aliases(text) if alias not in own)
        tokens = set(TOKEN.findall(text))
        for old, new in mine.items():
            if old in tokens and new in tokens:
                print(f"{path}: {old} and {new} both stand here")
                trouble += (path, old) not in ALLOWED
        new_text = antt_text(text, mine) if path.endswith(".antt") else rt_text(text, mine)
        if new_text != text and WRITE:
            open(path, "w").write(new_text)
    for path in ["README.md"] + sorted(glob.glob("docs/*.md")):
        text = open(path).read()
        types = {old: new for old, new in names.items()}
        new_text = in_backticks(text, types)
        if new_text != text and WRITE:
            open(path, "w").write(new_text)
    for old, new in sorted(names.items()):
        print(f"{old} -> {new}")
    return 1 if trouble else 0


OWN = {line.split(":")[0].split()[0] for line in open("crates.txt") if ":" in line}
ALLOWED = set()
WRITE = "--dry-run" not in sys.argv

if __name__ == "__main__":
    sys.exit(main())
