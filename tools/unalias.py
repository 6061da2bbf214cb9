#!/usr/bin/env python3
"""Calls three words of the library by their own names, where the kit's scripts had kept the older ones by `as`.

usage: python3 tools/unalias.py        at the top of the repository, once, after tools/respell.py

The gate lets nothing stand under `All` but the library's own, so `AllByRecursion as All` becomes `AllByRecursion`;
`ContainsAt as Has` and `flat_map as gathered` go the same way. The meanings are the same: only the names differ.
"""

import os
import re

WORDS = (("AllByRecursion", "All"), ("ContainsAt", "Has"), ("flat_map", "gathered"))


def main():
    for folder, dirs, names in os.walk("crates"):
        dirs[:] = [d for d in dirs if d not in ("out", "must-fail", "data")]
        for name in names:
            if not name.endswith((".antt", ".rt")):
                continue
            path = os.path.join(folder, name)
            with open(path, encoding="utf-8") as f:
                text = before = f.read()
            for word, alias in WORDS:
                if f"{word} as {alias}" in text:
                    text = text.replace(f"{word} as {alias}", word)
                    text = re.sub(r"(?<![\w'\-.])" + alias + r"(?![\w'\-])", word, text)
            if text != before:
                with open(path, "w", encoding="utf-8") as f:
                    f.write(text)


if __name__ == "__main__":
    main()
