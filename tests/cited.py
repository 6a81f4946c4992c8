#!/usr/bin/env python3
"""What the pages cite and is not there: one line for each, and the exit status 1; nothing, and 0, if all is there.

usage: tests/cited.py [PAGE...]      without an argument each file that ends in .md

In each page the files and sections that its links lead to; and in its code spans the files, by whole or shortened paths, and the words,
which must stand somewhere in the repository outside the pages. Blocks of code are not read, nor are docs/PORT.md and docs/DESIGN-PASS.md, which tell of
names that are gone.
"""
import os
import re
import sys

PASSED_OVER = ("docs/PORT.md", "docs/DESIGN-PASS.md")
# Spans that give a command of the toolchain, what it prints, or a call of another program.
COMMANDS = re.compile(r"(rt|objdump)\b|rattle-kit-")
# Names that pages tell of as gone, as those of others, or as examples; and where a file is installed.
ALLOWED = {
    ("CHANGES.md", "mvpn_shared_tree"),
    ("README.md", "example.c"),
    ("conformance/outside/README.md", "wireshark-common"),
    ("docs/PROOFS.md", "returns-then-a-b"),
    ("docs/TESTING.md", "returns-then-a-b"),
    ("docs/TESTING.md", "proof's"),
    ("examples/plan/README.md", "../shared/print.c"),
}
# What is made or installed, and what is outside the repository.
MADE = ("target/", "crates/*/out", "out/", "share/", "bin/", "lib/", "/", "http")
WORD = re.compile(r"[A-Za-z_][A-Za-z0-9_']*(?:-[A-Za-z0-9_']+)*")


def files_here():
    """The files of the repository, without what is made."""
    found = []
    for folder, folders, names in os.walk("."):
        folders[:] = sorted(it for it in folders if it not in (".git", "target", "out"))
        found += [os.path.relpath(os.path.join(folder, it), ".") for it in sorted(names)]
    return found


def words_of(files):
    found = set()
    for file in files:
        for part in file.split("/"):
            found |= {part, part.partition(".")[0]}
        with open(file, encoding="utf-8", errors="replace") as f:
            text = f.read()
        found.update(WORD.findall(text))
        found.update(re.findall(r"[A-Za-z0-9_]+", text))
    return found


def without_blocks(text):
    """The text with the lines of its fenced blocks empty, so that lines keep their numbers."""
    lines, inside = [], False
    for line in text.split("\n"):
        is_fence = line.lstrip().startswith("```")
        lines.append("" if inside or is_fence else line)
        inside ^= is_fence
    return "\n".join(lines)


def spans_of(text):
    """Yields each code span with the number of its line."""
    for it in re.finditer(r"(`+)(.+?)\1(?!`)", text, re.S):
        if "\n\n" not in it.group(2):
            yield text.count("\n", 0, it.start()) + 1, re.sub(r"\s*\n\s*", " ", it.group(2))


def expanded(path):
    """The paths that braces stand for, as `a/{b,c}`."""
    at = re.search(r"\{([^{}]*)\}", path)
    if not at:
        return [path]
    return [it for part in at.group(1).split(",") for it in expanded(path[: at.start()] + part.strip() + path[at.end() :])]


def is_there(path, page, files):
    """Whether a file or a folder has this path, or ends in it, with or without the ending of its name."""
    if path.startswith("../"):
        path = os.path.normpath(os.path.join(os.path.dirname(page), path))
    if path.startswith(MADE):
        return True
    shape = re.escape(path.strip("/")).replace(r"\*", "[^/]*")
    return any(re.search(rf"(^|/){shape}(\.(antt|rt|edit|c|h|md))?(/|$)", it) for it in files)


def is_path(span):
    return bool(re.fullmatch(r"[A-Za-z0-9_.+{},*/-]+", span)) and ("/" in span or bool(re.search(r"\.(antt|rt|md|c|h|txt|bash|awk|edit|py|bin|toml)$", span)))


def slug(heading):
    return re.sub(r"[^\w\- ]", "", re.sub(r"[`*]", "", heading).strip().lower()).replace(" ", "-")


def sections(text):
    return {slug(it) for it in re.findall(r"(?m)^#+ (.*)$", text)}


def faults_of(page, files, words):
    with open(page, encoding="utf-8") as f:
        text = without_blocks(f.read())
    for at in re.finditer(r"\]\(([^)\s]+)\)", text):
        to, _, section = at.group(1).partition("#")
        line = text.count("\n", 0, at.start()) + 1
        file = os.path.normpath(os.path.join(os.path.dirname(page), to)) if to else page
        if to.startswith(("http:", "https:")):
            continue
        if not os.path.exists(file):
            yield line, f"leads to {to}"
        elif section:
            with open(file, encoding="utf-8") as f:
                if section not in sections(without_blocks(f.read())):
                    yield line, f"leads to a section #{section} of {file}"
    for line, span in spans_of(text):
        if COMMANDS.match(span):
            continue
        if is_path(span) and not span.startswith(MADE):
            for path in expanded(span):
                if not is_there(path, page, files) and (page, path) not in ALLOWED:
                    yield line, f"cites the file {path}"
        for word in WORD.findall(span):
            if word not in words and (page, word) not in ALLOWED:
                yield line, f"cites {word}" + ("" if word == span else f", in {span}")


def main(given):
    files = files_here()
    pages = [it for it in files if it.endswith(".md") and it not in PASSED_OVER]
    words = words_of([it for it in files if not it.endswith(".md")])
    words |= {it.rpartition("/")[2].partition(".")[0] for it in pages}
    found = [f"{page}:{line}: {what}" for page in given or pages for line, what in faults_of(page, files, words)]
    print("\n".join(found), end="\n" * bool(found))
    return 1 if found else 0


sys.exit(main(sys.argv[1:]))
