"""Builds the page: one HTML file of the sources in page/, the module of WebAssembly and the examples."""
import base64
import hashlib
import html
import json
import os
import re

from shared import TOP, text

PAGE = f"{TOP}/page"
# The page's modules, each after those that it takes names from.
MODULES = ["facts", "sentences", "dom", "sheets", "reports", "says", "fit", "claims", "rows", "draws", "pictures", "runs", "client"]
MODULES += ["fit_cards", "benchmark", "slots", "answers", "panels", "questions", "panel_questions", "others", "command", "main"]
EXAMPLES = ["experiment.csv", "contradiction.csv", "levels.csv", "panel/panel.csv", "budgets.csv", "choices.csv", "menus.csv", "technology.csv", "outputs.csv"]


def joined(files):
    """Returns modules as one script: each name stands in one of them alone, so what they import is there."""
    parts = []
    for file in files:
        source = re.sub(r"(?ms)^import .*?;\n", "", text(file))
        parts.append(re.sub(r"(?m)^export ", "", source))
    return "\n".join(parts)


def with_facts(source):
    """Returns a script with what docs/catalogue.json tells in the place that page/facts.js has for it, and with
    docs/sentences.json in that of page/sentences.js."""
    for name in ("catalogue", "sentences"):
        source = source.replace(f'"{{{name}}}"', json.dumps(json.loads(text(f"{TOP}/docs/{name}.json")), ensure_ascii=False), 1)
    return source


def hashed(source):
    return f"'sha256-{base64.b64encode(hashlib.sha256(source.encode()).digest()).decode()}'"


def safe(source):
    """Returns a text that stands in a script element and ends it nowhere."""
    return source.replace("</", "<\\/").replace("<!--", "<\\!--")


def page(module, version, commit, terms):
    """Returns the page's text, with the license and the notices of what is inside. What its scripts and its style are is
    said by their checksums, and no connection is allowed."""
    script = safe("'use strict';\n" + with_facts(joined(f"{PAGE}/{it}.js" for it in MODULES)))
    worker = joined([f"{TOP}/systems/rp.js", f"{PAGE}/worker.js"])
    style = text(f"{PAGE}/style.css")
    examples = {os.path.basename(it): text(f"{TOP}/examples/{it}") for it in EXAMPLES}
    rules = [
        "default-src 'none'",
        f"script-src {hashed(script)} 'wasm-unsafe-eval' blob:",
        "worker-src blob:",
        f"style-src {hashed(style)}",
        "img-src data: blob:",
        "base-uri 'none'",
        "form-action 'none'",
    ]
    given = {
        "policy": "; ".join(rules),
        "style": style,
        "terms": html.escape(terms, quote=False),
        "version": version,
        "commit": commit,
        "sum": hashlib.sha256(module).hexdigest(),
        "module": base64.b64encode(module).decode(),
        "worker": safe(worker),
        "examples": safe(json.dumps(examples)),
        "script": script,
    }
    return re.sub(r"\{(\w+)\}", lambda it: given[it[1]], text(f"{PAGE}/index.html"))
