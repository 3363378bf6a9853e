"""`mvsjob-lsp`: sessions that are replayed, random and malformed messages, and two editors as clients.

What a session is to be answered is worked out from the printed run of mvsjob (`mvsjob FILE`), its faults as standard error has them, and the
protocol. Editors are tried if they are there: Neovim without a window, and Emacs in batch with its Eglot.
"""

import json
import os
import random
import re
import shutil
import subprocess
import tempfile
import threading
from functools import partial
from pathlib import Path

import faults
import random_scripts
from cases import Lacking, each, seeds, whole

TOP = Path(__file__).resolve().parent.parent
SERVER = TOP / "crates/mvsjob_lsp/out/mvsjob_lsp"
URI = "file:///a.job"
DOCUMENT = {"uri": URI}
RANDOM = 10_000  # messages
FEW = 200  # in one session
LONG = 2_000  # lines of the document that is timed
MOST_SECONDS = 0.05
SCRIPT = (
    "JOB REGION BELOW=2\n"
    "JOB GETMAIN RU,LV=8,A=X\n"
    "JOB GETMIAN RU,LV=8,A=Y\n"
    "JOB WHERE Z   => AT 00006000\n"
    "JOB FREEMAIN RC,LV=8,A=X+8\n"
    "JOB ATTACH TASK=SUB,SHSPV=5\n"
    "SUB GETMAIN RU,LV=16,A=W,SP=5\n"
    "SUB RETURN\n"
)


def framed(content):
    return b"Content-Length: %d\r\n\r\n%s" % (len(content), content)


def message(method, params=None, number=None):
    """A request, or a notification if it has no number."""
    members = {"jsonrpc": "2.0", "method": method}
    if number is not None:
        members["id"] = number
    if params is not None:
        members["params"] = params
    return framed(json.dumps(members).encode())


def parted(output):
    """The messages of an output, each as JSON. What is not a frame stops it."""
    found = []
    while output:
        head, _, rest = output.partition(b"\r\n\r\n")
        length = int(re.fullmatch(rb"Content-Length: (\d+)", head)[1])
        found.append(json.loads(rest[:length]))
        output = rest[length:]
    return found


def replayed(*messages):
    """The exit status and the messages that a server sends for these."""
    ran = subprocess.run([SERVER], input=b"".join(messages), capture_output=True, timeout=600)
    return ran.returncode, parted(ran.stdout), ran.stderr


BEGIN = message("initialize", {}, 0) + message("initialized", {})
END = message("shutdown", None, 99) + message("exit")


def opened(text, version=1):
    return message("textDocument/didOpen", {"textDocument": DOCUMENT | {"languageId": "mvsjob", "version": version, "text": text}})


def changed(text, version=2):
    return message("textDocument/didChange", {"textDocument": DOCUMENT | {"version": version}, "contentChanges": [{"text": text}]})


def at(method, line, character, number=1, **more):
    return message(f"textDocument/{method}", {"textDocument": DOCUMENT, "position": {"line": line, "character": character}} | more, number)


def whole_of(method, number=1, last=10**6):
    return message(f"textDocument/{method}", {"textDocument": DOCUMENT, "range": {"start": {"line": 0, "character": 0}, "end": {"line": last, "character": 0}}, "context": {"diagnostics": []}}, number)


def answered(text, *messages):
    """The results of requests about a text, by their numbers, and the diagnostics."""
    status, found, err = replayed(BEGIN, opened(text), *messages, END)
    results = {it["id"]: it.get("result", it.get("error")) for it in found if "id" in it}
    notes = [it["params"]["diagnostics"] for it in found if it.get("method") == "textDocument/publishDiagnostics"]
    return results, notes[0] if notes else None, status == 0 and not err


def code(found, number=None):
    """The code of the error that a request was answered with."""
    return [it["error"]["code"] for it in found if "error" in it and it["id"] == number]


# ---- sessions


def lifecycle():
    """What is answered before, in and after a session, and the exit status."""
    hover = at("hover", 0, 0)
    shown = subprocess.run([SERVER, "--help"], capture_output=True, text=True, timeout=600).stdout
    yield "tools/help-lsp.txt", shown.replace(f"Usage: {SERVER.name} ", "Usage: mvsjob-lsp ") == (TOP / "tools/help-lsp.txt").read_text()
    yield "--stdio", subprocess.run([SERVER, "--stdio"], input=BEGIN + END, capture_output=True, timeout=600).returncode == 0
    yield "an option that is wrong", subprocess.run([SERVER, "--port"], capture_output=True, timeout=600).returncode == 2
    yield "a request before initialize", code(replayed(hover)[1], 1) == [-32002]
    yield "a second initialize", code(replayed(BEGIN, message("initialize", {}, 1))[1], 1) == [-32600]
    yield "a request after shutdown", code(replayed(BEGIN, message("shutdown", None, 2), hover)[1], 1) == [-32600]
    yield "an unknown method", code(replayed(BEGIN, message("textDocument/rename", {}, 1))[1], 1) == [-32601]
    yield "an unknown notification", len(replayed(BEGIN, message("$/setTrace", {}))[1]) == 1
    yield "a cancellation", len(replayed(BEGIN, message("$/cancelRequest", {"id": 7}))[1]) == 1
    cancelled = [at("hover", 0, 5, 8), at("hover", 0, 5, "x"), message("$/cancelRequest", {"id": 8}), message("$/cancelRequest", {"id": "x"})]
    found = replayed(BEGIN, opened(SCRIPT), *cancelled, END)[1]
    yield "a cancelled request", code(found, 8) == code(found, "x") == [-32800]
    yield "exit after shutdown", replayed(BEGIN, END)[0] == 0
    yield "exit without shutdown", replayed(BEGIN, message("exit"))[0] == 1
    yield "the end of the input", replayed(BEGIN)[0] == 1
    yield "the end of the input after shutdown", replayed(BEGIN, message("shutdown", None, 2))[0] == 0
    yield "nothing", replayed()[0] == 1
    yield "notifications before initialize", len(replayed(opened(SCRIPT), changed(SCRIPT), BEGIN)[1]) == 1
    found = replayed(BEGIN, END)[1]
    yield "capabilities", found[0]["result"]["capabilities"]["positionEncoding"] == "utf-16" and found[0]["result"]["capabilities"]["textDocumentSync"] == {"openClose": True, "change": 1}
    yield "text identifiers", [it["id"] for it in replayed(BEGIN, message("shutdown", None, "a b"))[1]] == [0, "a b"]
    closed = replayed(BEGIN, opened(SCRIPT), message("textDocument/didClose", {"textDocument": DOCUMENT}), hover, END)[1]
    yield "a closed document has no diagnostics", closed[2]["params"]["diagnostics"] == [] and closed[3]["result"] is None


def malformed():
    """Frames and messages that are none."""
    yield "no JSON", code(replayed(BEGIN, framed(b"{"), END)[1]) == [-32700]
    yield "no UTF-8", code(replayed(BEGIN, framed(b'{"jsonrpc":"2.0","method":"\xff"}'), END)[1]) == [-32700]
    yield "no length", code(replayed(BEGIN, b"Content-Type: x\r\n\r\n", END)[1]) == [-32700]
    yield "a length that is no number", code(replayed(BEGIN, b"Content-Length: x\r\n\r\n", END)[1]) == [-32700]
    yield "no header", set(code(replayed(BEGIN, b"x" * 5000 + b"\r\n\r\n", END)[1])) == {-32700}
    yield "too long", code(replayed(BEGIN, b"Content-Length: 40000000\r\n\r\n" + b" " * 40000000, END)[1]) == [-32600]
    yield "a list", code(replayed(BEGIN, framed(b"[]"), END)[1]) == [-32600]
    yield "a number", code(replayed(BEGIN, framed(b"1"), END)[1]) == [-32600]
    yield "no version", code(replayed(BEGIN, framed(b'{"id":1,"method":"shutdown"}'), END)[1], 1) == [-32600]
    yield "no method", code(replayed(BEGIN, framed(b'{"jsonrpc":"2.0","id":1}'), END)[1], 1) == [-32600]
    yield "an identifier that is none", code(replayed(BEGIN, framed(b'{"jsonrpc":"2.0","id":[],"method":"shutdown"}'), END)[1]) == [-32600]
    yield "an answer", len(replayed(BEGIN, framed(b'{"jsonrpc":"2.0","id":1,"result":null}'))[1]) == 1
    yield "no document", code(replayed(BEGIN, message("textDocument/hover", {}, 1), END)[1], 1) == [-32602]
    yield "no position", code(replayed(BEGIN, opened(SCRIPT), message("textDocument/hover", {"textDocument": DOCUMENT}, 1), END)[1], 1) == [-32602]
    yield "a header in other letters", replayed(b"content-type: a\r\ncontent-length:  2 \r\n\r\n{}", BEGIN, END)[0] == 0
    ended = all(replayed(BEGIN, bad, END)[0] == 0 for bad in (framed(b"{"), framed(b"1"), b"Content-Type: x\r\n\r\n"))
    yield "the server goes on", ended
    pieces = BEGIN + opened(SCRIPT) + END
    yield "byte by byte", by_bytes(pieces) == replayed(pieces)[1]
    long = "*" * 1_048_577
    yield "a document that is too long", "not analysed" in replayed(BEGIN, opened(long), END)[1][1]["params"]["diagnostics"][0]["message"]
    many = "A REGION BELOW=2048,ABOVE=8192\n" + "A REPORT MAP\n" + "A GETMAIN RU,LV=1,A=X\nA SHOW X,4096\n" * 2
    yield "a long answer", answered("A REGION BELOW=1\nA GETMAIN R,LV=4096,A=X\n" + "A SHOW X,4096\n" * 1000)[2] and answered(many)[2]


def by_bytes(data):
    """What the server sends for bytes that arrive one by one."""
    with subprocess.Popen([SERVER], stdin=subprocess.PIPE, stdout=subprocess.PIPE) as server:
        found = []
        reader = threading.Thread(target=lambda: found.append(server.stdout.read()))
        reader.start()
        for byte in data:
            server.stdin.write(bytes([byte]))
            server.stdin.flush()
        server.stdin.close()
        reader.join()
        return parted(found[0])


def marked(note):
    spot = note["range"]
    return spot["start"]["line"], spot["start"]["character"], spot["end"]["character"], note["code"], note["severity"]


def diagnostics():
    notes = answered(SCRIPT)[1]
    wanted = [(1, 22, 23, "leak", 2), (2, 4, 11, "JS03", 1), (3, 10, 11, "NO NAME", 2), (3, 14, 28, "=>", 2), (4, 4, 26, "RC 4", 3), (6, 23, 24, "leak", 2)]
    yield "places", [marked(note) for note in notes] == wanted
    yield "a hint", notes[1]["message"] == "unknown operation GETMIAN\ndid you mean GETMAIN?"
    yield "a reason", "00006008 is free" in notes[4]["message"]
    yield "a leak", "X: 8 bytes at 00006000" in notes[0]["message"]
    yield "a difference", notes[3]["message"] == "expected AT 00006000, but the run prints NO NAME"
    yield "right again", [marked(note)[3] for note in answered(SCRIPT.replace("GETMIAN", "GETMAIN"))[1]] == ["leak", "NO NAME", "=>", "leak"]
    yield "no statement", [marked(note)[3] for note in answered("* only a comment\n")[1]] == []
    yield "not run", [marked(note) for note in answered("A REGION BELOW=1\nB WHERE X\n")[1]] == [(1, 0, 1, "NOT RUN", 2)]
    yield "the first statement", [marked(note) for note in answered("A WHERE X\nA WHERE X\nA REGION BELOW=1\n")[1]] == [(0, 2, 7, "JS09", 1)]
    yield "the end", [marked(note)[3] for note in answered("A REGION BELOW=1\n* STEP ENDED RC 8\n")[1]] == ["=>"]
    yield "the right end", answered("A REGION BELOW=1\n* STEP ENDED RC 0\n")[1] == []
    text = "A REGION BELOW=1 \U0001f600\u00e9\n"
    yield "UTF-16", [marked(note)[:3] for note in answered(text)[1]] == [(0, 17, 19)]
    yield "after a carriage return", [marked(note)[:3] for note in answered("A REGION BELOW=1\r\nA WHERE X\r\n")[1]][0] == (0, 16, 17)


def hints_of(text):
    results, _, well = answered(text, whole_of("inlayHint"))
    return [(it["position"]["line"], it["label"]) for it in results[1]], well


def views():
    """Hover, completion, symbols, definitions, references and actions of one document."""
    hints, _ = hints_of(SCRIPT)
    wanted = [(0, "REGION BELOW 2 ABOVE 0"), (1, "RC 0"), (3, "NO NAME"), (4, "RC 4"), (5, "ATTACHED"), (6, "RC 0"), (7, "ENDED")]
    yield "hints", hints == wanted
    results, _, well = answered(
        SCRIPT, at("hover", 1, 5, 1), at("hover", 1, 13, 2), at("hover", 1, 22, 3), at("hover", 6, 27, 4), at("hover", 4, 5, 5), at("hover", 3, 25, 6), at("hover", 9, 0, 7)
    )
    shown = {number: result and result["contents"]["value"] for number, result in results.items() if number in range(1, 8)}
    yield "the syntax of an operation", "\nGETMAIN R|EC|EU,LV=n,A=name[,SP=n][,BNDRY=DBLWD|PAGE]\n" in shown[1] and "\nGETMAIN LC|LU,LA=(n,..),A=(name,..)[" in shown[1]
    yield "the syntax of a form", "\nGETMAIN RU,LV=n,A=name[" in shown[2]
    yield "a name", "X is 8 bytes at 00006000" in shown[3] and "line 2" in shown[3]
    yield "a subpool", "SP 5 SHARED PLAIN 16 POOL 0" in shown[4]
    yield "an explanation and a rule", "00006008 is free" in shown[5] and "Rule 26" in shown[5]
    yield "nothing to show", shown[6] is None and shown[7] is None and well
    coded = answered("A REGION BELOW=1\nA GETMAIN RU,LV=5000,A=X  => ABEND S878\n", at("hover", 1, 37, 1), at("hover", 1, 3, 2))[0]
    yield "a code", "S878" in coded[1]["contents"]["value"] and "S878" in coded[2]["contents"]["value"]
    yield from completions()
    results, _, well = answered(SCRIPT, message("textDocument/documentSymbol", {"textDocument": DOCUMENT}, 1), at("definition", 4, 23, 2), at("references", 4, 23, 3), at("definition", 7, 1, 4))
    step = results[1][0]
    yield "symbols", (step["name"], step["detail"], [it["name"] for it in step["children"]]) == ("JOB", "step", ["SUB"])
    yield "the definition of an area", results[2][0]["range"]["start"] == {"line": 1, "character": 22}
    yield "references", [it["range"]["start"]["line"] for it in results[3]] == [1, 4]
    yield "the definition of a task", results[4][0]["range"]["start"] == {"line": 5, "character": 16} and well
    yield from actions()


def labels(text, line, character):
    return [it["label"] for it in answered(text, at("completion", line, character))[0][1]]


def completions():
    text = SCRIPT + "JOB \nJOB GETMAIN \nJOB GETMAIN RC,LV=8,\nJOB GETMAIN RC,LOC=\nJOB SHOW \nJOB CPOOL GET,\nS\n"
    yield "operations", labels(text, 8, 4)[:3] == ["REGION", "GETMAIN", "FREEMAIN"]
    yield "forms", labels(text, 9, 12)[:3] == ["R", "EC", "EU"]
    yield "keywords that are not there", labels(text, 10, 20) == ["A=", "SP=", "BNDRY=", "LOC=", "STARTBDY=", "CONTBDY="]
    yield "values", labels(text, 11, 19) == ["BELOW", "24", "ANY", "31", "RES"]
    yield "names that are set", labels(text, 12, 9) == ["X", "W"]
    yield "positional words and keywords", labels(text, 13, 14) == ["COND", "C", "UNCOND", "U", "CPID=", "CELL="]
    yield "active tasks", labels(text, 14, 1) == ["JOB"] and labels(text, 6, 0) == ["JOB", "SUB"]


def applied(text, edit):
    """A text with a change of an editor. The text is ASCII."""
    lines = text.splitlines(keepends=True) + [""]
    starts = [sum(map(len, lines[:n])) for n in range(len(lines))]
    first, last = (starts[edit["range"][end]["line"]] + edit["range"][end]["character"] for end in ("start", "end"))
    return text[:first] + edit["newText"] + text[last:]


def actions():
    offered = {it["title"]: it["edit"]["changes"][URI][0] for it in answered(SCRIPT, whole_of("codeAction"))[0][1]}
    yield "did you mean", applied(SCRIPT, offered["Change to GETMAIN"]) == SCRIPT.replace("GETMIAN", "GETMAIN")
    mended = applied(SCRIPT, offered["Insert FREEMAIN RU,LV=8,A=X,SP=0"])
    yield "a release", mended == SCRIPT + "JOB FREEMAIN RU,LV=8,A=X,SP=0\n" and [marked(note)[0] for note in answered(mended)[1] if note["code"] == "leak"] == [6]
    yield "the answer", applied(SCRIPT, offered["Write => RC 4"]).splitlines()[4] == "JOB FREEMAIN RC,LV=8,A=X+8 => RC 4"
    yield "the answer of a line that has another", applied(SCRIPT, offered["Write => NO NAME"]).splitlines()[3] == "JOB WHERE Z   => NO NAME"
    near = answered("A REGION BELOW=1\nA GETMAIN R,LV=8,A=BUFFER\nA WHERE BUFER\n", whole_of("codeAction"))[0][1]
    yield "a name that is near", "Change to BUFFER" in [it["title"] for it in near]
    before = "A REGION BELOW=1\nA GETMAIN R,LV=8,A=X\nA RETURN\n"
    release = [it["edit"]["changes"][URI][0] for it in answered(before, whole_of("codeAction"))[0][1] if it["title"].startswith("Insert")]
    yield "a release before RETURN", applied(before, release[0]).splitlines()[2] == "A FREEMAIN RU,LV=8,A=X,SP=0"


# ---- against mvsjob


def labelled(printed, script):
    """The hints of a script, from what mvsjob prints of it."""
    tasks, found = [line.split(" ")[0] for line in script.splitlines()], {}
    for line in printed.splitlines():
        number, _, text = line.partition(" ")
        if number.isdigit():
            task = tasks[int(number) - 1]
            found.setdefault(int(number) - 1, []).append(text.removeprefix(task + " "))
    joined = {line: " / ".join(texts) for line, texts in found.items()}
    return [(line, text if len(text) <= 60 else text[:60] + " ..") for line, text in joined.items()]


def agrees(program, kind, seed):
    """Whether the hints of a random script are the answers of its run."""
    script = getattr(random_scripts, kind)(seed, False).text()
    printed = subprocess.run([program], input=script.encode(), capture_output=True, timeout=600).stdout.decode()
    hints, well = hints_of(script)
    return well and hints == labelled(printed, script)


def faulty(program, case):
    """Whether a line with a fault has a diagnostic with the columns and the code that mvsjob reports."""
    fault, line = case
    text = "A REGION BELOW=1\n" + line
    said = subprocess.run([program], input=text.encode("latin-1"), capture_output=True, timeout=600).stderr.decode(errors="replace")
    found = re.match(r"-:2:(\d+): (JS\d\d): (.*)", said)
    marks = re.search(r"(?m)^ +(\^+)", said)
    notes = [note for note in answered(text)[1] if note["severity"] == 1]
    if not found or not line.isascii() or "\r" in line:
        return None
    width = len(marks[1]) if marks else None
    one = notes[0]
    spot = one["range"]
    begin, end = spot["start"]["character"] + 1, spot["end"]["character"]
    return (str(begin), one["code"]) == found.groups()[:2] and one["message"].splitlines()[0] == found[3] and width in (None, end - begin + 1) and fault == one["code"]


def faulty_lines():
    for code_of, lines in faults.SECOND.items():
        yield from ((code_of if isinstance(code_of, str) else f"JS{code_of:02}", line) for line in lines)


# ---- random messages


def scrambled(draw):
    """A message that may be malformed."""
    methods = ["hover", "completion", "inlayHint", "definition", "references", "documentSymbol", "codeAction", "didOpen", "didChange", "didClose", "rename"]
    spot = {"line": draw.choice([0, 1, 5, 9, -1, 10**9, "x", None, 1.5]), "character": draw.choice([0, 3, 14, 500, -3, 10**12, []])}
    params = {"textDocument": draw.choice([DOCUMENT, DOCUMENT | {"text": SCRIPT, "version": 3}, {}, {"uri": 5}, None]), "position": spot, "range": {"start": spot, "end": spot}}
    params |= draw.choice([{}, {"contentChanges": [{"text": draw.choice([SCRIPT, "", "\U0001f600\r\r\n\n", SCRIPT[: draw.randrange(len(SCRIPT))]])}]}, {"contentChanges": 3}])
    content = json.dumps({"jsonrpc": draw.choice(["2.0", "2.0", "2.0", "1.0"]), "id": draw.choice([1, "a", None, [], 2.5, 3]), "method": "textDocument/" + draw.choice(methods), "params": draw.choice([params, params, params, 3, []])}).encode()
    if draw.random() < 0.1:
        cut = draw.randrange(len(content))
        content = content[:cut] + draw.choice([b"", b"\x00", b"\xff", b"}", b'"']) + content[cut + draw.randrange(3) :]
    header = draw.choice([b"Content-Length: %d\r\n\r\n"] * 20 + [b"Content-Type: a\r\nContent-Length: %d\r\n\r\n", b"Content-Length:%d\r\n\r\n", b"Length: %d\r\n\r\n"])
    return (header % len(content) if b"%d" in header else header) + content


def survives(seed):
    """Whether a server answers after a number of random messages, and ends with 0."""
    draw = random.Random(seed)
    status, found, err = replayed(BEGIN, opened(SCRIPT), *(scrambled(draw) for _ in range(FEW)), b" " * 4200 + b"\r\n\r\n", message("textDocument/documentSymbol", {"textDocument": {"uri": "file:///other"}}, "last"), END)
    return status == 0 and not err and any(it.get("id") == "last" for it in found) and found[-1] == {"jsonrpc": "2.0", "id": 99, "result": None}


def drawn(draw, number):
    """A message, and what it is answered with: nothing, or its identifier and the code of the error, which is None if there is a result."""
    number = draw.choice([number, f"r{number}", -number])
    view = draw.choice(["hover", "completion", "definition", "references"])
    good = {"textDocument": DOCUMENT, "position": {"line": draw.randrange(12), "character": draw.randrange(40)}}
    lacking = draw.choice([{}, {"textDocument": DOCUMENT}, good | {"position": {"line": -1, "character": 0}}, good | {"position": {"line": 0, "character": 1.5}}, good | {"textDocument": {"uri": 3}}])
    method = f"textDocument/{view}"
    return draw.choice(
        [
            lambda: (message(method, good, number), (number, None)),
            lambda: (message(method, lacking, number), (number, -32602)),
            lambda: (message("workspace/symbol", {}, number), (number, -32601)),
            lambda: (message("textDocument/didOpen", {}, number), (number, -32601)),
            lambda: (message("initialize", {}, number), (number, -32600)),
            lambda: (message(method, 3, number), (number, -32600)),
            lambda: (framed(json.dumps({"id": number, "method": method, "params": good}).encode()), (number, -32600)),
            lambda: (framed(json.dumps({"jsonrpc": "2.0", "id": [], "method": method}).encode()), (None, -32600)),
            lambda: (framed(b"[1]"), (None, -32600)),
            lambda: (framed(b'{"id":'), (None, -32700)),
            lambda: (b"Content-Type: x\r\n\r\n", (None, -32700)),
            lambda: (framed(json.dumps({"jsonrpc": "2.0", "id": number, "result": None}).encode()), None),
            lambda: (message(method, good), None),
            lambda: (message("workspace/symbol", {}), None),
            lambda: (message("textDocument/didChange", {"textDocument": DOCUMENT}), None),
            lambda: (changed(SCRIPT), None),
        ]
    )()


def once(seed):
    """Whether each request has one response with its identifier, in their order, and no notification has one."""
    draw = random.Random(seed)
    cases = [drawn(draw, number) for number in range(1, FEW)]
    status, found, err = replayed(BEGIN, opened(SCRIPT), *(sent for sent, _ in cases), END)
    responses = [(it["id"], it["error"]["code"] if "error" in it else None) for it in found if "id" in it]
    return status == 0 and not err and responses == [(0, None), *(wanted for _, wanted in cases if wanted), (99, None)]


# ---- limits


def open_as(uri, text):
    return message("textDocument/didOpen", {"textDocument": {"uri": uri, "languageId": "mvsjob", "version": 1, "text": text}})


def shown(found):
    """The first message of each list of diagnostics, by the name of the document; None if it is empty."""
    noted = [it["params"] for it in found if it.get("method") == "textDocument/publishDiagnostics"]
    return [(it["uri"], it["diagnostics"][0]["message"] if it["diagnostics"] else None) for it in noted]


def limits():
    """How long a message and a document may be, and how many documents may be open."""
    names = [f"file:///{number}" for number in range(101)]
    close = message("textDocument/didClose", {"textDocument": {"uri": names[7]}})
    found = shown(replayed(BEGIN, *(open_as(name, "*") for name in names), close, open_as(names[100], "*"), END)[1])
    yield "100 documents", all(text is None for _, text in found[:100])
    yield "a document more", found[100][0] == names[100] and found[100][1].startswith("100 documents are open")
    yield "a document less", found[101] == (names[7], None) and found[102] == (names[100], None)
    long = "*" * 1_048_576
    found = shown(replayed(BEGIN, *(open_as(name, long) for name in names[:9]), close, open_as(names[8], long), END)[1])
    is_analysed = [text is None or "not analysed" not in text for _, text in found]
    yield "1,048,576 bytes of a document, and 8,388,608 of all", is_analysed[:8] == [True] * 8
    yield "a byte more of all", "8,388,608 bytes" in found[8][1] and is_analysed[9:] == [True, True]
    most = message("x/y", {"text": ""}, 1)
    room = 33_554_432 - len(most.partition(b"\r\n\r\n")[2])
    yield "33,554,432 bytes of a message", code(replayed(BEGIN, message("x/y", {"text": "a" * room}, 1), END)[1], 1) == [-32601]
    yield "a byte more of a message", code(replayed(BEGIN, message("x/y", {"text": "a" * (room + 1)}, 1), END)[1]) == [-32600]
    head = b"Content-Type: %s\r\nContent-Length: 2\r\n\r\n"
    room = 4096 - len(head % b"")
    yield "4,096 bytes of a header", code(replayed(BEGIN, head % (b"a" * room) + b"[]", END)[1]) == [-32600]
    yield "a byte more of a header", code(replayed(BEGIN, head % (b"a" * (room + 1)) + b"Content-Length: 2\r\n\r\n[]", END)[1])[0] == -32700
    yield "memory", peak(open_as(URI, long), b"Content-Length: 400000000\r\n\r\n" + b" " * 400_000_000, framed(b'"' + b"a" * 30_000_000 + b'"')) < 400_000_000


def peak(*messages):
    """The most bytes of memory that a server has for these messages."""
    live = Live()
    for one in messages:
        live.send(one)
        live.read()
    size = int(re.search(r"VmHWM:\s+(\d+)", Path(f"/proc/{live.server.pid}/status").read_text())[1]) * 1024
    live.close()
    return size


# ---- time


class Live:
    """A server that is spoken to."""

    def __init__(self):
        self.server = subprocess.Popen([SERVER], stdin=subprocess.PIPE, stdout=subprocess.PIPE)
        self.send(message("initialize", {}, 0))
        self.read()
        self.send(message("initialized", {}))

    def send(self, data):
        self.server.stdin.write(data)
        self.server.stdin.flush()

    def read(self):
        length = int(self.server.stdout.readline().split()[1])
        self.server.stdout.readline()
        return json.loads(self.server.stdout.read(length))

    def close(self):
        self.server.stdin.close()
        self.server.wait()
        self.server.stdout.close()


def on_processor(server):
    """The seconds that a process was on a processor so far."""
    return int(Path(f"/proc/{server.pid}/schedstat").read_text().split()[0]) / 1e9


def seconds():
    """The seconds on a processor from a change of a long document to its diagnostics and hints, of which the least is taken."""
    script = ["A REGION BELOW=2048"]
    while len(script) < LONG:
        number = len(script)
        script += [f"A GETMAIN RC,LV={8 * (number % 200 + 1)},A=X{number % 1000},SP={number % 100}", f"A SHOW X{number % 1000},8", f"A FREEMAIN RC,LV=8,A=X{number % 1000},SP={number % 100}"]
    live = Live()
    live.send(opened("\n".join(script[:LONG])))
    live.read()
    taken = []
    for version in range(2, 12):
        text = "\n".join(script[: LONG - 1] + [f"A WHERE X{version}"])
        begun = on_processor(live.server)
        live.send(changed(text, version) + whole_of("inlayHint", version))
        live.read()
        live.read()
        taken.append(on_processor(live.server) - begun)
    live.close()
    yield f"{LONG} lines within {MOST_SECONDS} s", min(taken) <= MOST_SECONDS


# ---- editors


def typed(tool, words, wanted, **names):
    """Whether an editor that runs a script of its own prints these lines."""
    if shutil.which(tool) is None:
        return {name: Lacking(tool) for name in wanted}
    with tempfile.TemporaryDirectory() as folder:
        for name in ("mvsjob-lsp", "mvsjob"):
            (Path(folder) / name).symlink_to(SERVER if name == "mvsjob-lsp" else TOP / "crates/mvsjob/out/mvsjob")
        (Path(folder) / "a.job").write_text(SCRIPT)
        found = os.environ | {"PATH": f"{folder}:{os.environ['PATH']}", "HOME": folder, "XDG_CONFIG_HOME": folder, "TERM": "dumb"} | names
        ran = subprocess.run([tool, *words, "a.job"] if tool != "emacs" else [tool, *words], cwd=folder, env=found, capture_output=True, text=True, timeout=600, stdin=subprocess.DEVNULL)
        lines = (ran.stdout + ran.stderr).replace("\r", "").splitlines()
        return {name: any(re.fullmatch(text, line) for line in lines) for name, text in wanted.items()}


NEOVIM = {
    "the file type": "filetype mvsjob",
    "diagnostics": "diagnostics 6",
    "hints": "hints 7",
    "hints that are shown": "shown (7|by Neovim)",
    "hover": r"hover .*GETMAIN R\|EC\|EU,LV=n,.*",
    "completion": "completion REGION GETMAIN .*",
    "a keyword right again": "mended leak .*leak",
    "a keyword wrong": "broken .*JS04.*",
}
EMACS = {"the mode": "mode mvsjob-mode", "diagnostics": "diagnostics 6", "a keyword right again": "mended 4"}


LOADS_EGLOT = """(progn (dolist (folder (file-expand-wildcards "/usr/share/emacs/site-lisp/elpa/*")) (add-to-list 'load-path folder)) (require 'eglot))"""


def lacks_eglot():
    """Whether Emacs is there without its client of language servers: before version 29 that is a package of its own."""
    return shutil.which("emacs") is not None and subprocess.run(["emacs", "--batch", "--eval", LOADS_EGLOT], capture_output=True).returncode != 0


def of_emacs():
    emacs = ["--batch", "-L", f"{TOP}/editors/emacs", "-l", str(TOP / "tests/lsp.el")]
    return {name: Lacking("elpa-eglot") for name in EMACS} if lacks_eglot() else typed("emacs", emacs, EMACS)


def editors():
    nvim = ["--headless", "-u", "NORC", "--cmd", f"set rtp^={TOP}/editors/vim,{TOP}/editors/nvim", "-S", str(TOP / "tests/lsp.lua")]
    yield from ((f"Neovim: {name}", well) for name, well in typed("nvim", nvim, NEOVIM).items())
    yield from ((f"Emacs: {name}", well) for name, well in of_emacs().items())


def groups(program):
    yield "server: sessions", whole(lifecycle)
    yield "server: malformed messages", whole(malformed)
    yield "server: diagnostics", whole(diagnostics)
    yield "server: views", whole(views)
    yield "server: faults", each(partial(faulty, program), faulty_lines(), str)
    for kind in ("storage", "anything", "steps"):
        yield f"server: hints of random {kind}", each(partial(agrees, program, kind), seeds(100), str)
    yield "server: random messages", each(survives, seeds(RANDOM // FEW), str)
    yield "server: responses", each(once, seeds(RANDOM // FEW), str)
    yield "server: limits", whole(limits)
    yield "server: time", whole(seconds)
    yield "server: editors", whole(editors)
