"""What Chromium makes of pages: each batch in one run, by a page of harness."""
import base64
import html
import json
import re
import shutil
import subprocess
import tempfile

from tools.workspace import ROOT, Stop, text_of


class Missing(Exception):
    """Something isn't installed."""


def chromium():
    found = shutil.which("chromium") or shutil.which("chromium-browser") or shutil.which("google-chrome")
    if not found:
        raise Missing("chromium")
    return found


def version(browser):
    return subprocess.run([browser, "--version"], stdout=subprocess.PIPE, stderr=subprocess.DEVNULL, check=False).stdout.decode().strip()


def answers(browser, harness, batch):
    """What a harness says of a batch, which stands in it as JSON."""
    with tempfile.TemporaryDirectory() as folder:
        coded = base64.b64encode(json.dumps(batch).encode()).decode()
        with open(f"{folder}/page.html", "w", encoding="utf-8") as file:
            file.write(text_of(f"{ROOT}/compare/{harness}").replace("BATCH", json.dumps(coded)))
        words = ["timeout", "300", browser, "--headless", "--no-sandbox", "--disable-gpu", f"--user-data-dir={folder}/user",
                 "--virtual-time-budget=300000", "--dump-dom", f"file://{folder}/page.html"]
        dom = subprocess.run(words, stdout=subprocess.PIPE, stderr=subprocess.DEVNULL, check=False).stdout.decode("utf-8", "replace")
    found = re.search(r"JUDGED(.*?)END</pre>", dom, re.S)
    if not found:
        raise Stop("Chromium didn't end")
    return json.loads(html.unescape(found.group(1)))


def all_answers(browser, harness, items, size):
    out = []
    for start in range(0, len(items), size):
        out += answers(browser, harness, items[start:start + size])
    return out
