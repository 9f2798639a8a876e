"""What stood at one commit and stands at another, side by side, as tables: the heads of functions, types, definitions, theorems.

python3 tools/sides.py THEN [NOW]        from the top of the checkout; NOW is HEAD where it is left out
"""
import re
import subprocess
import sys


def git(*words):
    return subprocess.check_output(("git",) + words).decode()


def sources(commit, pattern):
    """The files whose path matches: what the pattern caught of the path, and the text without comments."""
    for path in git("ls-tree", "-r", "--name-only", commit).split("\n"):
        found = re.match(pattern + "$", path)
        if found:
            comment = "//" if path.endswith(".rt") else "--"
            yield found, re.sub(rf"(?m)(^|\s){comment}.*$", "", git("show", f"{commit}:{path}"))


def joined(text):
    return re.sub(r"\s+", " ", text).strip().replace("( ", "(").replace(", )", ")").replace(",)", ")")


def owner(line):
    """The type or `Trait for Type` of an impl's first line, without its parameters."""
    head = re.sub(r"^(pub )?(impl|trait)\s*(<[^>]*>)?\s*", "", line).rstrip(" {")
    return re.sub(r"<.*?>(?=$|\W)", "", head).strip() + "::"


def heads(commit):
    """Every public function's signature and clauses."""
    found = {}
    for path, text in sources(commit, r"crates/([^/]+)/src/(.*)\.rt"):
        module = "" if path[2] in ("lib", "main") else path[2].replace("/", "::") + "::"
        inside, lines = "", text.split("\n")
        for i, line in enumerate(lines):
            if re.match(r"(pub )?(impl|trait)\b.*\{$", line):
                inside = owner(line)
            elif line == "}":
                inside = ""
            start = re.match(r' *(pub(?:\(crate\))? )?(?:unsafe )?(?:extern "C" )?fn (\w+)', line)
            if start and (start[1] or " for " in inside):
                end = next(k for k in range(i, len(lines)) if lines[k].rstrip().endswith(("{", ";")))
                head = re.sub(r"\s*\{\s*$", "", "\n".join(lines[i : end + 1]))
                found[f"{path[1]}::{module}{inside}{start[2]}"] = joined(head)
    return found


def matched(commit, mark, files, pattern):
    """Each text that the pattern finds in the files, by the path's parts and its name with a mark between them."""
    return {
        mark.join(path.groups() + (m["name"],)): joined(m["text"])
        for path, text in sources(commit, files)
        for m in re.finditer(pattern, text)
    }


def types(commit):
    kinds = r"(?ms)^(?P<text>(?:pub )?(?:struct|enum|type|trait) (?P<name>\w+).*?(?:;\n|^\}|\}\n))"
    return matched(commit, "::", r"crates/([^/]+)/src/.*\.rt", kinds)


def theorems(commit):
    promises = r"(?m)^ *pub (?P<name>[^\s(){}:]+) : (?P<text>.*(?:\n {4,}(?!unfolding).*)*)"
    return matched(commit, ".", r"crates/(demands|cases)/proofs/([A-Z]\w*)\.antt", promises)


def definitions(commit):
    found = {}
    name = re.compile(r" *(?:(?:abbrev|unfoldable|pub|record|data|infixl \d+) )*([^\s(){}:]+)(?: [({][^=]*[)}])* : ")
    for path, text in sources(commit, r"crates/([^/]+)/specs/((?!.*Lib$|Inner$).*)\.antt"):
        key = None
        for line in text.split("\n"):
            begins = name.match(line)
            if begins and (not line.strip().startswith("pub ") or re.match(r" *pub (record|data)", line)):
                key = f"{path[1]}.{path[2].replace('/', '.')}.{begins[1]}"
                found[key] = line
            elif re.match(r"(pub )?use |module _", line):
                key = None
            elif key and line.strip():
                found[key] += "\n" + line
    return {key: joined(text) for key, text in found.items()}


def row(*cells):
    print("| " + " | ".join(cell.replace("|", "\\|") for cell in cells) + " |")


def quoted(text):
    return f"`{text.replace('`', '')}`" if text else "none"


then, now = sys.argv[1], (sys.argv + ["HEAD"])[2]
for title, list_all in [("Functions", heads), ("Types", types), ("Definitions", definitions), ("Theorems", theorems)]:
    print(f"\n## {title}\n")
    row("name", "then", "now")
    row("---", "---", "---")
    old, new = list_all(then), list_all(now)
    for key in sorted(set(old) | set(new)):
        if old.get(key) != new.get(key):
            row(quoted(key), quoted(old.get(key)), quoted(new.get(key)))
