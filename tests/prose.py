#!/usr/bin/env python3
"""Counts phrases that make technical English hard to read, in documents and comments.

usage: tests/prose.py [--list PATTERN] [PATH..]      (at the top of the repository; default: all documents and sources)

Of a Markdown file the text outside code is read, of other files the comments. `--list` prints the lines that contain one pattern.
The counts are a hint: a reader decides what is clear. `tests/tools/test_prose.py` has the limits.
"""

import re
import subprocess
import sys
from typing import Dict, Iterator, List, NamedTuple, Tuple

PATTERNS = {
    "told": r"\b(?:is|are|was|were|be|been|being|it'?s) told\b|\btells? (?:of|that|whether|each|every|the|an?|it)\b",
    "says": r"\b(?:says?|said) (?:so|of|which|that|what|whether|nothing|no more|once|how)\b|\b(?:is|are) said\b",
    "asked": r"\b(?:asks?|asked) (?:of|for|it|the|whether|each|such)\b|\b(?:is|are) asked\b",
    "where for if": r"(?:^|[.,;:] |\) )[Ww]here (?!to\b|the code|it (?:lies|stands)\b)",
    "what-clause": r"\b[Ww]hat (?:is|are|was|were|it|they|an?|the|came|comes|goes|has|have|waits|others|who|each)\b",
    "who-clause": r"\b[Ww]ho(?:ever)? (?:takes?|asks?|calls?|may|reads?|has|says?|sends?|wants?|knows?)\b",
    "so many": r"\bso (?:many|much|long as|far as)\b",
    "stand(s)": r"\bstands? (?:in|on|at|for|there|behind|beside|below|above|apart|alone|once|twice|under|by)\b",
    "behind for after": r"\bbehind (?:it|them|that|these|this|which|each|the (?:last|first|one))\b",
    "alone for only": r"\balone\b",
    "such": r"\bsuch (?:an?|as|are|is|edges?|updates?)\b|\bno such\b",
    "other for different": r"\b(?:is|are|an|in) other (?:than|one|value)\b|\bother conclusions\b",
    "none where": r"\b[Nn]one where\b|\b[Nn]othing where\b",
    "nobody, anew": r"\banew\b|\bthereof\b|\bhitherto\b|\bnobody\b",
    "verb first": r"(?:^|[.] )(?:Noted|Written|Printed|Counted|Told|Read|Asked|Kept|Said|Looked|Timed) (?:is|are|at)\b",
    "gives back": r"\bgives? (?:back|up|on|out)\b|\bhands? (?:in|on|over)\b",
    "the same, but": r"\b[Tt]he same(?:,| of| but| as)\b|\b[Aa]s (?:the one )?before,? but\b",
}
ENDINGS = ("*.md", "*.rt", "*.antt", "*.py", "*.sh", "*.toml")
COMMENT = re.compile(r"(?:///|//!|//|--|#(?!\[))\s?(.*)")


class Count(NamedTuple):
    """How many words a text has, and how often each pattern occurs in it."""

    words: int
    found: Dict[str, int]

    def per_thousand(self) -> float:
        """Returns the number of phrases in 1,000 words."""
        return 1000 * sum(self.found.values()) / max(self.words, 1)


def texts(path: str) -> Iterator[Tuple[int, str]]:
    """Yields the lines of prose of a file, with their numbers."""
    in_code = False
    with open(path, encoding="utf-8", errors="replace") as stream:
        for number, line in enumerate(stream, 1):
            if not path.endswith(".md"):
                comment = COMMENT.search(line)
                if comment:
                    yield number, re.sub(r"`[^`]*`", "`x`", comment[1].strip())
            elif line.lstrip().startswith("```"):
                in_code = not in_code
            elif not in_code:
                yield number, re.sub(r"`[^`]*`", "`x`", line.strip())


def counted(paths: List[str]) -> Count:
    """Counts the words and phrases of these files together."""
    words, found = 0, dict.fromkeys(PATTERNS, 0)
    for path in paths:
        for _, text in texts(path):
            words += len(text.split())
            for name, pattern in PATTERNS.items():
                found[name] += len(re.findall(pattern, text))
    return Count(words, found)


def files_of_git(endings: Tuple[str, ...] = ENDINGS) -> List[str]:
    """Returns the files of the repository with these endings."""
    words = ["git", "ls-files", "--cached", "--others", "--exclude-standard", *endings]
    return sorted(subprocess.run(words, capture_output=True, text=True, check=True).stdout.split())


def main(words: List[str]) -> None:
    """Prints the counts of these files, or the lines that contain one pattern."""
    wanted, paths = (words[1], words[2:]) if words[:1] == ["--list"] else (None, words)
    paths = paths or files_of_git()
    if wanted:
        for path in paths:
            for number, text in texts(path):
                if re.search(PATTERNS[wanted], text):
                    print(f"{path}:{number}: {text}")
        return
    count = counted(paths)
    for name, found in sorted(count.found.items(), key=lambda it: -it[1]):
        print(f"{found:6}  {name}")
    print(f"{count.per_thousand():6.1f} in 1,000 of {count.words} words")


if __name__ == "__main__":
    main(sys.argv[1:])
