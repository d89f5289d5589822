"""The modules of a Verilog text under other names, so that two texts stand in one design."""
from __future__ import annotations

import re

WORD = re.compile(r"//[^\n]*|\"(?:[^\"\\\n]|\\.)*\"|[A-Za-z_$][\w$]*|[^\w\s]|\d[\w']*", re.ASCII)


def renamed(text: str, prefix: str) -> str:
    """The text, each module NAME of which is PREFIX_NAME, where it is defined and in each instance."""
    words = [found for found in WORD.finditer(text) if not found[0].startswith("//")]
    names = {words[k + 1][0] for k in range(len(words) - 1) if words[k][0] == "module"}
    parts, at = [], 0
    for k, word in enumerate(words[:-1]):
        is_defined = k > 0 and words[k - 1][0] == "module"
        is_part = k + 2 < len(words) and re.match(r"[A-Za-z_]", words[k + 1][0]) and words[k + 2][0] == "("
        begins = k > 0 and words[k - 1][0] in (";", "end", "endmodule")
        if word[0] in names and (is_defined or begins and is_part):
            parts += [text[at : word.start()], f"{prefix}_"]
            at = word.start()
    return "".join([*parts, text[at:]])
