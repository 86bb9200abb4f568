"""The pages of `xv6lab draw --steps`: their data, and how they look in a browser."""
import json
import pathlib
import re
import shutil
import subprocess
import tempfile

LOOK, ANSWER = (pathlib.Path(__file__).resolve().parent / name for name in ["look.js", "quiz.js"])
SIZES = [(1280, 720), (1920, 1080)]
STEP = re.compile(r'<script type="application/json" class="step">(.*?)</script>\n', re.S)
LEAF = re.compile(r"(?P<dots>( \.\.)+)(?P<va>0x[0-9a-f]+): pte (?P<pte>0x[0-9a-f]+) pa (?P<pa>0x[0-9a-f]+)")


def steps_of(page):
    """The lines of a page, each with its facts, its text and, as `state`, the machine after it: what lines before it put, under what it put."""
    steps, state = [], {}
    for text in STEP.findall(page):
        step = json.loads(text)
        state = {**state, **(step["machine"] or {})}
        step["state"] = state
        steps.append(step)
    return steps


def answer_of(step):
    return step["trace"].get("answer")


def without_answer(text):
    return text.split("=>")[0].rstrip()


def check_lines(steps, run_lines, trace_text, trace_lines, compare):
    """Each line with the answer that `run` prints, its facts with `trace --json`, and its text with `trace`."""
    said = []
    for line in run_lines:
        if line.startswith("#   ") and said and (said[-1][1] or "").startswith("refused 12 BadImage"):
            continue
        front, arrow, answer = line.rpartition(" => ") if not line.lstrip().startswith("#") else (line, "", "")
        said.append((front.rstrip() if arrow else line.rstrip(), answer if arrow else None))
    compare("lines of the page", [(it["trace"]["text"].rstrip(), answer_of(it)) for it in steps], said)
    compare("facts of the page", [it["trace"] for it in steps], [json.loads(line) for line in trace_lines])
    compare("text of the page", "".join(it["told"] for it in steps), trace_text)


def entries_said(lines):
    """The entries of a process that `vmprint` says: address, level below the root, flags, page number."""
    found = [LEAF.fullmatch(line) for line in lines]
    return [(int(it["va"], 16), it["dots"].count(" .."), int(it["pte"], 16), int(it["pa"], 16) >> 12) for it in found if it]


def flags_of(word):
    return "".join(letter if word >> bit & 1 else "-" for bit, letter in enumerate("VRWXUGADC"))


def check_slot(state, slot, lines, compare):
    """Compares the entries and the regions of a process with `vmprint`."""
    it, said = state.get(f"slot{slot}"), entries_said(lines)
    compare(f"process {slot} of the page", it is not None, bool(said))
    if not it:
        return []
    drawn = [(int(e["address"], 16), it["levels"] - e["level"] + 1, e["flags"], int(e["ppn"], 16)) for e in it["entries"]]
    words = [(address, depth, flags_of(word), frame) for address, depth, word, frame in said]
    leaves = [entry for entry in words if set(entry[2]) & set("RWX")]
    if len(drawn) == len(words):
        compare(f"entries of slot {slot}", drawn, words)
    else:
        compare(f"entries of slot {slot}, folded", [entry for entry in words if entry in set(drawn)], drawn)
    for region in it["regions"]:
        start, end = int(region["line"]["start"], 16), int(region["line"]["end"], 16)
        compare(f"settled pages from {start:#x} on of slot {slot}", region["settled"], sum(start <= entry[0] < end for entry in leaves))
    return [(slot, entry[0], entry[3]) for entry in leaves]


def check_frames(state, leaves, held, free, tables, compare, counts):
    """Each frame with its references and the name of each page in it; and all others, counted."""
    it = state["frames"]
    names = {}
    for slot, address, frame in leaves:
        names.setdefault(frame, []).append((slot, address))
    drawn = {int(f["ppn"], 16): (f["count"], [(n["slot"], int(n["page"], 16)) for n in f["names"]]) for f in it["frames"]}
    compare("frames of the page", drawn, {frame: (held[frame], names.get(frame)) for frame in drawn if frame in held})
    compare("frames that are not listed", it["more"], len(names) - len(drawn))
    compare("free frames of the page", it["free"], free)
    compare("tables of the page", {t["slot"]: t["count"] for t in it["tables"]}, tables)
    compare("frames of the kernel", it["kernel"], len(held) - len(names) - sum(tables.values()))
    counts["sharers named"] += sum(len(f["names"]) for f in it["frames"])


def check_marks(steps, compare, counts):
    """The frame of each page that is listed is listed too, with its count, if it has two references or more."""
    for step in steps:
        walk = (step["trace"].get("request") or {}).get("walk", [])
        frames = {it["ppn"]: it["count"] for it in step["state"].get("frames", {}).get("frames", [])}
        for word in walk:
            if word["kind"] == "leaf" and word["references"] > 1:
                compare(f"references of {word['ppn']} on line {step['trace']['line']}", frames.get(word["ppn"]), word["references"])
                counts["marks compared"] += 1


def check_bytes(steps, compare, counts):
    """What a load answers, and what a store left, is in the bytes that are shown of the process; its page and its frame are listed."""
    for step in steps:
        words, answer, cell = without_answer(step["trace"]["text"]).split(), answer_of(step), step["state"].get("cell")
        if words and words[0] == "show" and answer and answer.startswith("file"):
            it = step["state"]["files"][int(words[1], 0)]
            _, length, told = answer.split()
            told = b"" if told == "-" else bytes.fromhex(told)
            compare(f"length of file {words[1]} on line {step['trace']['line']}", it["length"], int(length))
            if it["offset"] == int(words[2], 0):
                most = min(8, int(words[3], 0))
                compare(f"bytes of file {words[1]} on line {step['trace']['line']}", bytes(it["bytes"])[:most], told[:most])
                counts["files compared"] += 1
        if answer is None or not words or words[0] not in ("load", "store") or not answer.startswith(("value", "stored")):
            continue
        slot, value = step["trace"]["before"]["slot"], int(answer.split()[1] if words[0] == "load" else words[4], 0)
        width = int(words[3], 0)
        shown = [bytes(row["bytes"]) for row in cell["rows"] if row["slot"] == slot and int(row["page"], 16) == int(words[2], 0) // 4096 * 4096]
        at = int(words[2], 0) % 8
        compare(f"bytes at {words[2]} on line {step['trace']['line']}", [int.from_bytes(it[at : at + width], "little") for it in shown], [value % 256**width])
        page = hex(int(words[2], 0) // 4096 * 4096)
        entries, frames = step["state"][f"slot{slot}"]["entries"], step["state"]["frames"]["frames"]
        touched = [it["ppn"] for it in entries if it["address"] == page and set(it["flags"]) & set("RWX")]
        compare(f"page {page} on line {step['trace']['line']} is listed, and its frame", [it["ppn"] for it in frames if it["ppn"] in touched], touched[:1] or "a page")
        counts["cells compared"] += 1


def look(page, compare, counts, dark=False, script=LOOK):
    """Shows each line of a page in a browser, at each size; what does not fit or is not marked is wrong. Nothing if there is no browser. With the
    script ANSWER it answers the questions of a quiz's page."""
    browser = shutil.which("chromium") or shutil.which("chromium-browser") or shutil.which("google-chrome")
    if not browser:
        counts["pages not looked at, for want of chromium"] += 1
        return
    for width, height in SIZES:
        with tempfile.TemporaryDirectory() as folder:
            inner, outer = pathlib.Path(folder) / "page.html", pathlib.Path(folder) / "outer.html"
            looks = f"<script>const WIDTH = {width}, HEIGHT = {height};\n{script.read_text()}</script>"
            inner.write_text(page.replace("</body>", looks + "</body>"))
            outer.write_text(
                f'<!doctype html><pre id="report"></pre><script>onmessage = event => document.getElementById("report").textContent = event.data</script>'
                f'<iframe src="page.html{"#1,dark" if dark else ""}" style="border: 0; width: {width}px; height: {height}px"></iframe>'
            )
            words = ["--headless", "--no-sandbox", "--disable-gpu", f"--user-data-dir={folder}/profile", f"--window-size={width + 100},{height + 300}"]
            words += ["--virtual-time-budget=60000", "--dump-dom", f"file://{outer}"]
            ran = subprocess.run([browser, *words], capture_output=True, timeout=300)
            found = re.search(r'<pre id="report">(.*?)</pre>', ran.stdout.decode(), re.S)
            report = json.loads(found[1].replace("&gt;", ">").replace("&lt;", "<").replace("&amp;", "&")) if found and found[1] else None
            compare(f"looks at {width} x {height}", report["wrong"] if report else "no report", [])
            for what, count in (report["counts"] if report else {}).items():
                counts[f"in the browser: {what}"] += count
