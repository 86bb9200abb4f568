"""Reads the answers of `xv6lab mmu`, and compares them with what scripts.py wants."""
import json
import pathlib
import re
import subprocess

from judge import Talk
from rules import BITS, aged, allows, asid_of, effective, index_of, is_global, kind_of, leads_to

STORING = ("mem", "fetch", "load", "store")


def run(program, words, lines, seconds=1800):
    """The answers to lines, the status and what went to the standard error."""
    ran = subprocess.run([*program, "mmu", *words], input="\n".join(lines) + "\n", capture_output=True, text=True, timeout=seconds)
    return ran.stdout.splitlines(), ran.returncode, ran.stderr


def without_reasons(answer):
    """A text without what is in parentheses."""
    while answer != (answer := re.sub(r" ?\([^()]*\)", "", answer)):
        pass
    return answer


def listed(answer):
    """The outcomes that an answer lists."""
    plain = re.sub(r" level \d", "", without_reasons(answer))
    return {re.sub(r"^(walk|held|bare|misaligned|not canonical) ", "", it) for it in plain.split("; ")}


def instead(answer):
    """The outcomes that an answer NOT permitted ends with."""
    return listed(answer.rpartition(". Permitted: ")[2])


def asid_before(lines, got, place):
    """The ASID of satp before the line at a place, by the answers to the lines before; 0 if there is none since the hart began."""
    for before in range(place - 1, -1, -1):
        if lines[before].startswith(("profile", "reset")):
            return 0
        if got[before].startswith("satp "):
            return asid_of(int(got[before].split()[1], 16))
    return 0


def wrong_fenced(number, text, lines, got, place):
    """What is wrong with what a reason says of a fence; None if nothing is."""
    said, *more = text.split(", ")
    fence = lines[number - 1]
    if fence.removesuffix(" -") != said:
        return f"line {number} is {fence!r}"
    va = fence.split()[1] if " " in fence else "-"
    is_beside = va != "-" and int(va, 0) >> 12 != int(lines[place].split()[1], 0) >> 12
    if is_beside != ("another page of the superpage" in more):
        return f"the fence is {'' if is_beside else 'not '}for another page"
    asid, under = asid_before(lines, got, number - 1), [it for it in more if it.startswith("under")]
    if under not in ([], [f"under ASID {asid}"]):
        return f"satp had ASID {asid} at line {number}"
    # a fence of an ASID excludes what was read under that one
    space = fence.split()[2] if len(fence.split()) > 2 else "-"
    bits = next((re.findall(r"asid(\d+)", it) for it in reversed(lines[:number]) if it.startswith("profile")), [])
    is_other = space != "-" and int(space, 0) % (1 << int((bits or ["16"])[0])) != asid
    return f"satp had ASID {asid} at line {number}, and nothing says so" if is_other and not under else None


def wrong_reason(answer, lines, got, place):
    """What is wrong with the lines that a reason names; None if nothing is. `place`: that of the line that is answered."""
    for number, text in re.findall(r"the fence of line (\d+) \(([^)]*)\)", answer):
        wrong = wrong_fenced(int(number), text, lines, got, place)
        if wrong:
            return wrong
    for what, number in re.findall(r"(PTE|satp|PMP)[^,;()]* as before line (\d+)", answer):
        words = {"PTE": STORING, "satp": ("satp",), "PMP": ("pmp",)}[what]
        if int(number) < 1 or not lines[int(number) - 1].startswith(words):
            return f"line {number} is no {' or '.join(words)}"
    return None


def wrong_kind(seen, answer):
    """What is wrong with what an answer says that PTEs are; None if nothing is."""
    for is_of_all, kind, word, level in re.findall(r"(global )?(\w+) PTE (0x[0-9a-f]+) at level (\d)", answer):
        if kind != kind_of(seen.profile, int(word, 16), int(level)):
            return f"{word} at level {level} is no {kind}"
        # a pointer above may have G too
        if is_global(int(word, 16)) and not is_of_all:
            return f"{word} is global"
    if len(re.findall(r"(?:leaf|pointer|invalid) PTE 0x", answer)) != len(re.findall(r"PTE 0x[0-9a-f]+ at level", answer)):
        return "a PTE of no kind"
    for word, asid in re.findall(r"PTE (0x[0-9a-f]+) at level \d is of another ASID and not global: read under ASID (\d+)", answer):
        if is_global(int(word, 16)) or int(asid) == asid_of(seen.satp):
            return f"{word} is global, or read under the present ASID"
    return None


# Why a PTE is neither leaf nor pointer, in the program's words, with what that says of its word and level. Of the first two the first that holds
# must be told.
INVALID = {
    "V is 0": lambda word, level: not word & 1,
    "W is 1 and R is 0": lambda word, level: word & 6 == 4,
    "one of the bits 60 to 54 is set": lambda word, level: word >> 54 & 127,
    "bit 63 (N) is set, without Svnapot": lambda word, level: word >> 63,
    "bits 62 and 61 (PBMT) are set, without Svpbmt": lambda word, level: word >> 61 & 3,
    "bits 62 and 61 (PBMT) are 3, which is reserved": lambda word, level: word >> 61 & 3 == 3,
    "bit 63 (N) is set above level 0": lambda word, level: level > 0 and word >> 63 and word & 10,
    "bit 63 (N) is set, and bits 3 to 0 of the PPN are not 1000": lambda word, level: level == 0 and word >> 63 and word & 10 and word >> 10 & 15 != 8,
    "it is a pointer with N or PBMT": lambda word, level: word >> 61 and not word & 14,
    "it is a pointer with U, A or D": lambda word, level: word & 0xD0 and not word & 14,
    "it is a pointer at level 0": lambda word, level: level == 0 and not word & 14,
}


def wrong_leaf(seen, line, answer):
    """What is wrong with an answer that a PTE leads there, but lacks something; None if nothing is."""
    found = re.search(r"PTE (0x[0-9a-f]+) at level (\d)[^,;()]* leads there, but (.*?)\. Permitted: ", answer)
    if not found:
        return None
    word, level, lack = int(found[1], 16), int(found[2]), found[3].split("; or ")[0]
    # where it leads as it stands, and as a leaf with V and without reserved bits: by Svnapot's N, then
    as_leaf = word & (1 << 63 | (1 << 54) - 1) | 3
    places = tuple(f"pa {leads_to(seen.profile, it, level, seen.access.va):#x}" for it in (word, as_leaf))
    if not line.split(" => ")[1].startswith(places):
        return f"{word:#x} leads elsewhere"
    if kind_of(seen.profile, word, level) != "leaf":
        first = next((it for it in ("V is 0", "W is 1 and R is 0") if INVALID[it](word, level)), lack)
        return None if lack == first and lack in INVALID and INVALID[lack](word, level) else f"{word:#x} is invalid by something else"
    bit = re.match(r"([A-Z]) is ([01])", lack)
    step = {"the superpage is not aligned": 6}.get(lack, 7 if bit and bit[1] in "AD" else 5 if bit else None)
    if lack.startswith("memory has "):
        now, place, kept = (int(it, 16) for it in re.findall(r"0x[0-9a-f]+", lack))
        is_so = seen.words.get(place, 0) == now != kept == word and seen.profile.ad != "svade" and step_of(seen, word, level) == 7
        return None if is_so else f"the word at {place:#x} is {seen.words.get(place, 0):#x}"
    if step_of(seen, word, level) != step or (bit and bool(word & BITS[bit[1]]) != (bit[2] == "1")):
        return f"{word:#x} lacks something else: step {step_of(seen, word, level)}"
    return None


def wrong_slip(seen, answer):
    """What is wrong with an answer that one check stands against an outcome; None if nothing is."""
    found = re.search(r"PTE (0x[0-9a-f]+) at level (\d) is on the way there: (.*?)(?:; or |\. Permitted: )", answer)
    if found:
        word, level, lack = int(found[1], 16), int(found[2]), found[3]
        is_so = level > 0 and word & 14 == 0 and lack in INVALID and INVALID[lack](word, level) and kind_of(seen.profile, word, level) == "invalid"
        return None if is_so else f"{word:#x} is a pointer"
    found = re.search(r"it would be so under Sv(\d\d), but MODE in satp is Sv(\d\d)", answer)
    if found:
        return None if found[1] != found[2] and (int(found[2]) - 39) // 9 + 8 == seen.satp >> 60 else f"satp is {seen.satp:#x}"
    return None


def wrong_label(seen, line, answer):
    """What is wrong with what an outcome is said to be permitted by; None if nothing is."""
    claim = line.split(" => ")[1]
    if answer in ("permitted (held)", "permitted ()"):  # the judges of planted.py say no more
        return None
    is_now = claim in seen.now or claim in {re.sub(" (nc|io)", "", it) for it in seen.now}
    says_now = answer in {f"permitted ({it})" for it in ("walk now", "bare now", "misaligned", "not canonical")}
    return None if is_now == says_now else f"of memory as it is: {sorted(seen.now)}"


def step_of(seen, word, level):
    """The step of 4.3.2 at which a PTE denies the access that asks for it; None if none does."""
    kind, access = kind_of(seen.profile, word, level), seen.access
    if kind != "leaf":
        return 4 if level == 0 and kind_of(seen.profile, word, 1) == "pointer" else 3
    privilege = effective(access.mode, access.kind, seen.status)
    if not allows(word, 0, access.kind, privilege, seen.status):
        return 5
    if not allows(word, level, access.kind, privilege, seen.status):
        return 6
    return 7 if aged(word, access.kind) != word else None


def wrong_step(seen, answer):
    """What is wrong with what an answer says of steps, and of what is so now; None if nothing is."""
    for step, word, place, level in re.findall(r"step (\d): PTE (0x[0-9a-f]+) at (0x[0-9a-f]+), level (\d)", answer):
        if int(step) != step_of(seen, int(word, 16), int(level)):
            return f"step {step} is {step_of(seen, int(word, 16), int(level))} for {word} at level {level}"
        if int(place, 16) % 4096 // 8 != index_of(seen.access.va, int(level)):
            return f"{place} has another index than the address at level {level}"
    for it in re.split(r"; (?=walk |held )", answer):
        if it.startswith(("walk", "held", "bare")) and it.startswith("held") == (listed(it) <= seen.now):
            return f"of memory as it is: {sorted(seen.now)}"
    for word, place in re.findall(r"walk [^;(]*\(step \d: PTE (0x[0-9a-f]+) at (0x[0-9a-f]+),", answer):
        if seen.words.get(int(place, 16), 0) != int(word, 16):
            return f"the word at {place} is {seen.words.get(int(place, 16), 0):#x}"
    return None


def wrong_words(wanted, line, answer):
    """What is wrong with what an answer says beside outcomes; None if nothing is."""
    seen = wanted.seen
    if seen is None:
        return None
    wrong = wrong_kind(seen, answer)
    if wanted.kind == "outcomes":
        return wrong or wrong_step(seen, answer)
    if wanted.kind == "permitted":
        return wrong or wrong_label(seen, line, answer)
    return wrong or wrong_leaf(seen, line, answer) or wrong_slip(seen, answer)


def fault_in(wanted, lines, got, place):
    """What is wrong with the answer to the line at a place, in words; None if nothing is."""
    line, answer = lines[place], got[place]
    if wanted.kind == "text":
        return None if answer == wanted.text else f"in place of {wanted.text}"
    if wanted.kind == "outcomes":
        got = listed(answer)
        if got != wanted.outcomes:
            return f"lacks {sorted(wanted.outcomes - got)}, has too much {sorted(got - wanted.outcomes)}"
    elif wanted.kind == "permitted":
        if not answer.startswith("permitted ("):
            return f"must be permitted: one of {sorted(wanted.outcomes)}"
    elif not answer.startswith("NOT permitted: "):
        return f"must be NOT permitted: none of {sorted(wanted.outcomes)}"
    elif instead(answer) != wanted.outcomes:
        return f"must tell what is permitted: {sorted(wanted.outcomes)}"
    return wrong_words(wanted, line, answer) or wrong_reason(answer, lines, got, place)


def verdict(lines, got, keeps):
    """What the judge of judge.py says of the last line, of a history without the fences from place `keeps` on."""
    talk = Talk()
    for place, line in enumerate(lines[:-1]):
        is_dropped = line.startswith("sfence") and place >= keeps
        # with fewer fences more is permitted, but an outcome that was not has set nothing
        if not is_dropped and not got[place].startswith("NOT permitted"):
            talk.answer(line)
    return talk.answer(lines[-1])


NAMED = re.compile(r"the fence of line (\d+) \([^)]*\) excludes (?!older PMP)")
# The program looks at the first 32 ways to an outcome, so it may miss the fence of another one.
WRONG_FENCES = 0.05


def wrong_fence(lines, got, first):
    """What is wrong with the fence that the answer to the last line names, as the one that excludes a PTE; None if nothing is: the outcome must be
    permitted without it and those after it, and not permitted without those after it. `first`: the number of the first line."""
    named = NAMED.search(got[-1])
    place = int(named[1]) - first
    if not 0 <= place < len(lines):
        return f"line {named[1]} is of another script"
    if not verdict(lines, got, place).startswith("permitted"):
        return f"without the fences from line {named[1]} on it isn't permitted either"
    if not verdict(lines, got, place + 1).startswith("NOT permitted"):
        return f"a later fence than that of line {named[1]} excludes it"
    return None


def differences(program, scripts):
    """Asks scripts in one talk. Returns for each that is answered wrongly: its name, its lines up to the answer, and what is wrong."""
    lines = [line for script in scripts for line in script.lines]
    got, status, err = run(program, ["-"], lines)
    amiss = any(it.startswith(("error", "NOT permitted")) for it in got)
    if (len(got), status, err) != (len(lines), int(amiss), "") or any(it.startswith("error") for it in got):
        refused = next((f"{line!r}: {it}" for line, it in zip(lines, got) if it.startswith("error")), "")
        return [("all", [], f"status {status}, {len(got)} answers to {len(lines)} lines {err[-500:]} {refused}")]
    found, at, named, fences = [], 0, 0, []
    for script in scripts:
        for number, (line, wanted) in enumerate(zip(script.lines, script.wanted)):
            wrong = fault_in(wanted, lines, got, at + number)
            if not wrong and wanted.kind == "refused" and NAMED.search(got[at + number]):
                named += 1
                fence = wrong_fence(script.lines[: number + 1], got[at : at + number + 1], at + 1)
                fences += [(script.name, script.lines[: number + 1], f"{line!r}: {got[at + number]}\n    {fence}")] if fence else []
            if wrong:
                found.append((script.name, script.lines[: number + 1], f"{line!r}: {got[at + number]}\n    {wrong}"))
                break
        at += len(script.lines)
    if fences:
        print(f"{len(fences)} of {named} fences that reasons name are not the nearest")
    return found + (fences if len(fences) > WRONG_FENCES * named else [])


def outcome_text(it):
    """The text of an outcome that JSON has as an object."""
    said = f"{it['by']} pa {it['pa']}" if "pa" in it else f"{it['by']} fault {it['fault']}"
    if "pa" in it and "level" in it:
        said += f" level {it['level']}"
    said += f" {it['type']}" if "type" in it else ""
    said += f" set {it['set']['place']} {it['set']['word']}" if "set" in it else ""
    reasons = [it[name] for name in ("as_of", "reason") if name in it]
    return said + (f" ({': '.join(reasons)})" if reasons else "")


def text_of(it, text):
    """The text of an answer that JSON has as an object; `text` is the one that it must be, for what is told of the one alone."""
    listed_text = "; ".join(map(outcome_text, it.get("outcomes", [])))
    kind = it["answer"]
    if kind == "error":
        column = f" column {it['error']['column']}" if "column" in it["error"] else ""
        return f"error{column}: {it['error']['text']}"
    if kind == "verdict" and it["verdict"] == "permitted":
        by, as_of = it["outcomes"][0]["by"], it["outcomes"][0].get("as_of")
        return f"permitted ({as_of or (f'{by} now' if by in ('walk', 'bare') else by)})"
    if kind == "verdict":
        return f"NOT permitted: {it['reason']}. Permitted: {listed_text}"
    said = {"outcomes": listed_text, "satp": f"satp {it.get('satp')}", "no effect": f"no effect: {it.get('reason')}"}
    return said.get(kind, text if kind == "version" else kind)


def validator():
    """Tests an object by the schema of the answers; None if there is no python3-jsonschema, or no schema."""
    schema = pathlib.Path(__file__).resolve().parent.parent.parent / "docs" / "schema" / "mmu.json"
    try:
        import jsonschema
    except ImportError:
        return None
    return jsonschema.Draft202012Validator(json.loads(schema.read_text())).is_valid if schema.is_file() else None


def json_differences(program, scripts):
    """Asks scripts as text and as JSON: an object must say what the text says, and be one of the schema."""
    lines = [line for script in scripts for line in script.lines]
    text, text_status, _ = run(program, ["-"], lines)
    objects, status, err = run(program, ["--json", "-"], lines)
    if len(text) != len(objects) or status != text_status or err:
        return [f"--json: status {status} and {text_status}, {len(objects)} answers, {len(text)} of the text, {err!r}"]
    found, is_valid = [], validator()
    if is_valid is None:
        print("no python3-jsonschema, or no docs/schema/mmu.json: the answers in JSON are not compared with the schema")
    for number, (line, said, shown) in enumerate(zip(lines, text, objects), 1):
        it = json.loads(shown)
        if it["line"] != number or text_of(it, said) != said:
            found.append(f"{line!r}: {said!r} is {shown} with --json, or {text_of(it, said)!r}")
        elif is_valid and not is_valid(it):
            found.append(f"{line!r}: {shown} is not as the schema has it")
    return found
