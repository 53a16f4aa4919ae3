"""Makes desk.html, one file, of what stands in web/: the module, the full-size table, the scripts and the style. The same sources give the same
bytes. Scripts and style are named by their hashes in the page's policy, and nothing else may run or be fetched."""

import base64
import hashlib
import re
from pathlib import Path

HERE = Path(__file__).resolve().parent
ROOT = HERE.parent.parent

# What the page and its worker share, and what is the page's and the worker's own; a module stands behind those that it imports.
SHARED = ["../wanlopheng.mjs", "judge.mjs", "lists.mjs", "table.mjs", "book.mjs"]
WORKER = ["worker.mjs"]
PAGE = ["page.mjs"]

POLICY = ("default-src 'none'; script-src {scripts} 'wasm-unsafe-eval'; style-src {styles}; worker-src blob:; base-uri 'none'; form-action 'none'")


class Unfit(Exception):
    """A source that cannot go into the page."""


def name_of(path):
    return "module_" + re.sub(r"\W", "_", Path(path).stem)


def wrapped(path):
    """A module as a function of its own that gives what it exports."""
    text = (HERE / path).read_text(encoding="utf-8")
    text, imports = re.subn(r"^import \{ ([^}]*) \} from '([^']*)';$", lambda m: f"const {{ {m[1]} }} = {name_of(m[2])};", text, flags=re.M)
    exported = re.findall(r"^export (?:async )?(?:const|class|function) (\w+)", text, re.M)
    text = re.sub(r"^export (?=(?:async )?(?:const|class|function) )", "", text, flags=re.M)
    if re.search(r"^(?:import|export)\b", text, re.M):
        raise Unfit(f"{path}: an import or an export of another shape")
    return f"const {name_of(path)} = (() => {{\n{text}return {{ {', '.join(exported)} }};\n}})();\n"


def bundle(paths):
    text = "'use strict';\n" + "".join(map(wrapped, paths))
    if re.search(r"</script|<!--", text, re.I):
        raise Unfit("a script that would end its own element")
    return text


def digest(text):
    return f"'sha256-{base64.b64encode(hashlib.sha256(text.encode()).digest()).decode()}'"


def page(wasm):
    """The page, as text, over this module of the engine."""
    style = (HERE / "style.css").read_text(encoding="utf-8")
    engine, script = bundle(SHARED), bundle(PAGE)
    parts = {
        "POLICY": POLICY.format(scripts=f"{digest(engine)} {digest(script)}", styles=digest(style)),
        "STYLE": style,
        "MODULE": base64.b64encode(wasm).decode(),
        "TABLE": base64.b64encode((ROOT / "data/full.tab").read_bytes()).decode(),
        "GROUPS": (ROOT / "data/full.groups").read_text(encoding="utf-8"),
        "WORKER": bundle(WORKER),
        "ENGINE": engine,
        "PAGE": script,
    }
    text = (HERE / "page.html").read_text(encoding="utf-8")
    if sorted(re.findall(r"@([A-Z]+)@", text)) != sorted(parts):
        raise Unfit("page.html has other places than those that are filled")
    return re.sub(r"@([A-Z]+)@", lambda m: parts[m[1]], text)
