"""`--page`: its items beside the printing, in a reader of its own and in a browser; hostile scripts; how long it takes.

The browser is Chromium: `apt-get install -y chromium` where it is missing.
"""

import base64
import os
import re
import subprocess
import tempfile
from functools import partial
from html.parser import HTMLParser
from pathlib import Path

import annotated
import browser
import firefox
from cases import Lacking, each, seeds, whole

TOP = Path(__file__).resolve().parent.parent
PAGE = 4096
RANDOM_SCRIPTS = 200
# At most this many times what the calibration page takes in the same browser: a page of 2,000 statements until it is open and for a
# step, and one of 10,240 pages until it is open.
OPENS, STEPS, OPENS_LARGE = 12, 4, 4


class Reader(HTMLParser):
    """A page without its fixed part: the texts of its `<pre>` without a class, and of each item by its line."""

    def __init__(self, text):
        super().__init__(convert_charrefs=True)
        self.printed, self.items, self.tags, self.open = "", {}, [], []
        self.number, self.inside = None, None
        self.feed(text[text.index("<body>") + len("<body>") :])
        self.close()

    def handle_starttag(self, tag, attributes):
        attributes = dict(attributes)
        self.tags.append(tag)
        self.open.append(tag)
        if "id" in attributes:
            self.number = int(attributes["id"][1:])
            self.items[self.number] = {"class": attributes.get("class"), "line": "", "words": "", "changes": ""}
        self.inside = "changes" if attributes.get("class") == "d" else {"pre": "printed", "code": "line", "p": "words"}.get(tag)
        if tag == "p" and self.items and "id" in attributes:
            self.inside = "line"

    def handle_endtag(self, tag):
        assert self.open.pop() == tag, tag
        self.inside = None

    def handle_data(self, text):
        if self.inside == "printed":
            self.printed += text
        elif self.inside:
            self.items[self.number][self.inside] += text


def called(program, script, *words):
    ran = subprocess.run([program, *words], input=script, capture_output=True, timeout=600)
    return ran.stdout, ran.stderr, ran.returncode


def scripts():
    """All examples and lessons."""
    return [*sorted((TOP / "examples").glob("*.job")), *sorted((TOP / "lessons").glob("*.job"))]


def statements(path):
    """A script without the answers after its statements."""
    return "".join(line.partition(" => ")[0] + "\n" for line in path.read_text().splitlines()).encode()


def shows(program, script):
    """Whether the page of a script has the printing in its `<pre>`, an item for each line up to a fault with what the line says, and
    the words of `--explain`; and whether the program ends as without the word."""
    plain, page, explained = (called(program, script, *words) for words in ((), ("--page",), ("--explain",)))
    read = Reader(page[0].decode())
    lines = [re.sub(r"[^ -~]", "?", line[:255]) for line in script.decode("latin-1").removesuffix("\n").split("\n")]
    words = "".join(line[2:] + "\n" for line in explained[0].decode().splitlines() if line.startswith("* "))
    explained_words = "".join(item["words"] for item in read.items.values() if item["class"] not in (None, "js"))
    return (
        read.printed.encode() == plain[0]
        and page[1:] == plain[1:]
        and all(lines[number - 1] == item["line"] for number, item in read.items.items())
        and list(read.items) == list(range(1, len(read.items) + 1))
        and explained_words == words
        and not read.open
        and set(read.tags) <= {"article", "h2", "code", "pre", "p"}
    )


# What the picture draws of pages one by one: their addresses, their subpools, and the bytes held; None where some are drawn together.
DRAWN = """(function(){
  var t=Array.from(document.querySelectorAll("#now>svg")).pop().querySelectorAll("text"),pages=[],p=null;
  t.forEach(function(e){var s=e.textContent;
    if(/^[0-9A-F]{8}$/.test(s)){p={address:s,subpool:null,held:0};pages.push(p)}
    else if(p&&/^SP [0-9]+ of /.test(s))p.subpool=s;
    else if(p&&/^[0-9]+ held$/.test(s))p.held=parseInt(s)});
  return pages})()"""


def reported(printed):
    """What a REPORT SP prints: the bytes held of each subpool that the task owns."""
    found = {}
    for line in printed.splitlines():
        words = line.split()
        if words[2:3] == ["SP"] and words[4:5] == ["OWNED"]:
            found[f"SP {words[3]} of {words[1]}"] = int(words[6]) + int(words[8])
    return found


def as_reported(view, statement):
    """Whether the drawn pages of each subpool that a REPORT SP prints hold what it prints. Pages that are drawn together have no number."""
    drawn = view.tell(DRAWN)
    for subpool, held in reported(statement["printed"]).items():
        pages = [page for page in drawn if page["subpool"] == subpool]
        if held < 2 * PAGE and sum(page["held"] for page in pages) != held:
            return False
    return True


STATE = """({at:[...document.querySelectorAll("#list .statement")].findIndex(e=>e.hasAttribute("aria-current"))+1,
  line:document.querySelector("#now h2 i").textContent,printed:document.querySelector("#now .printed").textContent})"""


def in_browser(view, path, count):
    """Whether a page opens with a picture and without an error, agrees with its printing, and has each of a number of statements reached by
    keys, with what REPORT printed drawn."""
    view.open(path)
    if view.tell('document.documentElement.className') != "on" or view.tell('!!document.getElementById("wrong")'):
        return False
    view.press("Home")
    for number in range(1, count + 1):
        state = view.tell(STATE)
        if state["at"] != number or not as_reported(view, state):
            return False
        view.press("ArrowRight")
    view.press("a")
    figures = view.tell('document.querySelectorAll("#all article").length')
    view.press("a")
    return figures == count and view.errors == []


def drawn(program, folder, view):
    """Each example and lesson in a browser."""
    for path in scripts():
        text = called(program, statements(path), "--page")[0]
        page = folder / f"{path.stem}.html"
        page.write_bytes(text)
        count = text[text.index(b"<body>") :].count(b"<article ")
        yield path.name, in_browser(view, page, count)


def without_script(program, folder, view):
    """The page without its script: each statement has its line, what it printed, and its words."""
    view.scripts(False)
    for name in ("abend_tree", "pools"):
        text = called(program, (TOP / f"examples/{name}.job").read_bytes(), "--page")[0]
        page = folder / f"{name}.plain.html"
        page.write_bytes(text)
        view.open(page)
        seen = view.tell("document.body.innerText")
        read = Reader(text.decode())
        said = [item["line"] for item in read.items.values() if item["line"]] + read.printed.splitlines()
        yield name, all(line in seen for line in said) and not view.tell('!!document.querySelector("svg")')
    view.scripts(True)


def luminance(colour):
    parts = [int(part) / 255 for part in re.findall(r"\d+", colour)[:3]]
    red, green, blue = (part / 12.92 if part <= 0.03928 else ((part + 0.055) / 1.055) ** 2.4 for part in parts)
    return 0.2126 * red + 0.7152 * green + 0.0722 * blue


def contrast(one, other):
    low, high = sorted((luminance(one), luminance(other)))
    return (high + 0.05) / (low + 0.05)


# The colour of each text beside that of the nearest ground below it.
TEXTS = """(function(){var found={};
  document.querySelectorAll("h1,h2,p,pre,li,span,b,small,td,button,svg text").forEach(function(e){
    if(!e.textContent.trim()||!e.getClientRects().length)return;
    var s=getComputedStyle(e),c=e.namespaceURI.indexOf("svg")>0?s.fill:s.color,g=e,b="rgba(0, 0, 0, 0)";
    while(g&&b==="rgba(0, 0, 0, 0)"){b=getComputedStyle(g).backgroundColor;g=g.parentElement}
    if(/^rgb\\(/.test(c)&&/^rgb\\(/.test(b))found[c+" on "+b]=1});
  return Object.keys(found)})()"""


def legible(program, folder, view):
    """Texts differ from their ground, by the ratio that WCAG asks for, light and dark."""
    page = folder / "legible.html"
    page.write_bytes(called(program, (TOP / "examples/abend_tree.job").read_bytes(), "--page")[0])
    for scheme in ("light", "dark"):
        view.scheme(scheme)
        view.open(page, "#l12")
        pairs = [pair.split(" on ") for pair in view.tell(TEXTS)]
        yield scheme, len(pairs) > 3 and all(contrast(*pair) >= 4.5 for pair in pairs)
    view.scheme("light")


def opened(view, page):
    """In how many seconds a page opens, until it is drawn."""
    view.open(page)
    return view.tell("(performance.getEntriesByType('navigation')[0].loadEventEnd)/1000")


def compared(view, plain, page):
    """How much longer a page takes to open than the calibration page, and its seconds: the best of five pairs, since a busy machine
    may hold up either page."""
    pairs = [(opened(view, plain), opened(view, page)) for _ in range(5)]
    return min((took / base, took) for base, took in pairs)


MOVES = """(function(){var took=[];for(var i=0;i<20;i++){var b=performance.now();
  dispatchEvent(new KeyboardEvent("keydown",{key:"ArrowRight"}));document.body.getBoundingClientRect();took.push(performance.now()-b)}
  took.sort(function(a,b){return a-b});return took[10]/1000})()"""


# A page of 2,000 items, each of which a script draws again: it measures the speed of the browser on this machine at this time.
CALIBRATION = """<!DOCTYPE html><meta charset="utf-8"><body>%s<svg id="now" width="900" height="900"></svg><script>
var items=document.querySelectorAll("article"),now=document.getElementById("now");
function draw(from,count){now.textContent="";for(var i=0;i<count;i++){
  var text=document.createElementNS("http://www.w3.org/2000/svg","text");text.setAttribute("x",i%%30*30);text.setAttribute("y",(i/30|0)*12);
  text.textContent=items[(from+i)%%items.length].textContent.slice(0,8);now.appendChild(text)}}
draw(0,2000);var at=0;addEventListener("keydown",function(){draw(++at,200)})</script></body>""" % "".join(
    f"<article id=l{k}><h2>{k} <code>JOB GETMAIN RU,LV={k},A=X</code></h2><pre>{k} JOB RC 0</pre><p>{k} bytes</p></article>" for k in range(2000)
)


def quick(program, folder, view):
    """Whether a page of 2,000 statements, and one of 10,240 pages, take at most a number of times what the calibration page takes."""
    plain = folder / "calibration.html"
    plain.write_text(CALIBRATION)
    opened(view, plain)
    steps = min(view.tell(MOVES) for _ in range(3))
    script = called(program, b"", "--random", "1", "--lines", "2000")[0]
    page = folder / "long.html"
    page.write_bytes(called(program, script, "--page")[0])
    times, took = compared(view, plain, page)
    print(f"a page of 2,000 statements opens in {took:.2f} s, {times:.1f} times the calibration page", flush=True)
    yield "2,000 statements open", times < OPENS and view.errors == []
    view.tell('dispatchEvent(new KeyboardEvent("keydown",{key:"End"}));for(var i=0;i<60;i++)dispatchEvent(new KeyboardEvent("keydown",{key:"PageUp"}))')
    move = min(view.tell(MOVES) for _ in range(3))
    print(f"a step takes {1000 * move:.1f} ms, {move / steps:.1f} times one of the calibration page", flush=True)
    yield "2,000 statements, a step", move < STEPS * steps
    lines = ["JOB REGION BELOW=2048,ABOVE=8192"]
    lines += [f"JOB STORAGE OBTAIN,LENGTH={PAGE * 7},ADDR=A{k},SP={k % 100},LOC=31" for k in range(1000)]
    large = folder / "large.html"
    large.write_bytes(called(program, ("\n".join(lines) + "\n").encode(), "--page")[0])
    times, took = compared(view, plain, large)
    print(f"10,240 pages open in {took:.2f} s, {times:.1f} times the calibration page", flush=True)
    yield "10,240 pages open", times < OPENS_LARGE and view.errors == []


MARKUP = b"""* </p><script>document.title="taken"</script><img src=x onerror=alert(1)>
JOB REGION BELOW=1 </code></h2></article><script>document.title="taken"</script>
JOB WHERE X &amp; &lt;pre&gt; "quoted" 'quoted' <pre>9 JOB RC 0</pre>
* -->]]><!--<svg onload=alert(1)>
JOB GETMAIN R,LV=8,A=PRE <pre class="d">FREE 00006000 00000008</pre>
JOB REPORT SP </body></html><plaintext>
"""


def hostile(program, folder, view):
    """Lines that look like markup."""
    page = folder / "markup.html"
    page.write_bytes(called(program, MARKUP, "--page")[0])
    view.open(page)
    inert = view.tell('document.title!=="taken"&&document.scripts.length===1&&document.images.length===0')
    yield "markup in a browser", inert and view.errors == [] and not view.tell('!!document.getElementById("wrong")') and shows(program, MARKUP)


def named(program, folder, view):
    """Pages whose file names are not ASCII, or not UTF-8."""
    page = called(program, b"JOB REGION BELOW=1\n", "--page")[0]
    for name, title in ((b"pr\xc3\xbcfung.html", "pr\u00fcfung"), (b"pr\xfcfung.html", "pr%FCfung")):
        path = folder / os.fsdecode(name)
        path.write_bytes(page)
        view.open(path)
        drawn = view.tell("document.documentElement.className") == "on" and view.errors == []
        yield f"a page named {name}", drawn and view.tell("document.title") == title


# Areas of two tasks: line 4 is freed by line 8 and used after it; those of lines 5 and 10 are never released.
STORY = """* A story.
JOB REGION BELOW=4,ABOVE=0
JOB ATTACH TASK=SUB,SZERO=NO
JOB GETMAIN RU,LV=24,A=BUF,SP=3
SUB GETMAIN RU,LV=100,A=LOG
JOB PUT BUF,X'C1C2'
SUB WHERE LOG
JOB FREEMAIN RU,LV=24,A=BUF,SP=3
JOB FREEMAIN RC,LV=24,A=BUF,SP=3
JOB GETMAIN RU,LV=8,A=NEXT,SP=3
JOB SHOW BUF,24
JOB RETURN
"""
LINE = "location.hash"
HISTORY = "[...document.querySelectorAll('.history tr')].map(e=>[...e.children].map(c=>c.textContent))"
NAMES = "[...document.querySelectorAll('.names tr:not(.says)')].slice(1).map(e=>e.firstElementChild.textContent)"


def at_line(view, line):
    view.tell(f'location.hash="#l{line}"')
    view.tell("new Promise(done=>setTimeout(done,50))")


def jumps(view, line, *keys):
    """The line that is shown after some keys, pressed at a line."""
    at_line(view, line)
    for key in keys:
        view.press(key)
    view.tell("new Promise(done=>setTimeout(done,80))")
    return view.tell(LINE)


def searched(program, folder, view):
    """What is found, what is alike, and who touched the bytes of a story."""
    page = folder / "story.html"
    page.write_bytes(called(program, STORY.encode(), "--page")[0])
    view.open(page)
    view.press("/")
    view.type("freemain")
    yield "found", view.tell('document.getElementById("found").textContent') == "2 statements"
    view.press("Enter")
    view.tell("new Promise(done=>setTimeout(done,80))")
    yield "Enter", view.tell(LINE) == "#l8"
    view.press("Escape")
    yield "Escape", view.tell('document.getElementById("found").textContent+document.activeElement.tagName') == "BODY"
    for keys, line, expected in (("t", 5, "#l7"), ("T", 5, "#l7"), ("s", 8, "#l10"), ("m", 4, "#l6"), ("M", 6, "#l4"), ("r", 2, "#l9"), ("tb", 5, "#l5")):
        yield f"key {keys}", jumps(view, line, *keys) == expected
    at_line(view, 9)
    yield "who and when", view.tell(HISTORY) == [
        ["name", "bytes", "obtained", "last written", "freed"], ["BUF", "24", "JOB, line 4", "JOB, line 6", "JOB, line 8"]
    ]
    at_line(view, 6)
    row = view.tell("[...document.querySelector('.bytes tr').children].map(e=>e.textContent)")
    yield "bytes", row == ["00006000", "C1C20000 00000000 00000000 00000000", "AB.............."]
    yield "bytes that were written", view.tell("document.querySelector('.bytes .wrote').textContent") == "C1C2"
    view.click(".history a")
    view.tell("new Promise(done=>setTimeout(done,80))")
    yield "a line", view.tell(LINE) == "#l4"
    for address, lines in (("00006010", "4,8"), ("00006018", "")):
        view.press("/")
        view.type(address)
        yield f"the address {address}", view.tell("[...document.querySelectorAll('#list .hit i')].map(e=>e.textContent).join()") == lines
        view.press("Escape")
    at_line(view, 11)
    yield "names", view.tell(NAMES) == ["NEXT", "LOG", "BUF"]
    view.click("[data-sort=name]")
    yield "names by name", view.tell(NAMES) == ["BUF", "LOG", "NEXT"]
    view.click("[data-sort=length]")
    yield "names by bytes", view.tell(NAMES) == ["LOG", "BUF", "NEXT"]
    yield "names of leaks", view.tell("[...document.querySelectorAll('.leak td:first-child')].map(e=>e.textContent)") == ["LOG", "NEXT"]
    yield "leaks in the listing", view.tell('document.querySelector("#list .ending u").textContent') == "2 areas never released, 112 bytes"
    view.click("#list .ending")
    rows = view.tell("[...document.querySelectorAll('#note tr')].slice(1).map(e=>[...e.children].map(c=>c.textContent))")
    view.press("Escape")
    view.press("e")
    yield "End of the step by its key", view.tell('document.querySelector("#note pre").textContent') == "STEP ENDED RC 8"
    yield "End of the step", rows == [["LOG", "104", "00007000", "SP 0 of SUB", "SUB, line 5"], ["NEXT", "8", "00006000", "SP 3 of JOB", "JOB, line 10"]]
    view.press("Escape")
    at_line(view, 9)
    sentence = re.search(r"\n\| 26 \| ([^|]*) \|", (TOP / "docs/RULES.md").read_text())[1]
    yield "a rule", view.tell('document.querySelector(".why a.note").title') == sentence
    view.click(".why a.note")
    yield "a rule in a note", sentence in view.tell('document.getElementById("note").innerText')
    view.press("Escape")
    at_line(view, 11)
    yield "a code", view.tell('document.querySelector(".printed a.note").title').startswith("PUT, SHOW, MOVE: ")
    view.press("?")
    yield "the keys", "next statement of this task" in view.tell('document.getElementById("note").innerText')
    view.press("Escape")
    for line, code in ((9, "RC 4"), (12, "NOT RUN")):
        at_line(view, line)
        view.click(".printed a.note")
        yield f"the code {code}", code in view.tell('document.querySelector("#note code").textContent')
        view.press("Escape")
    view.open(page)
    for _ in range(3):
        view.press("b")
    view.tell("new Promise(done=>setTimeout(done,80))")
    yield "b stays on the page", view.tell("location.pathname.endsWith('story.html')&&document.querySelector('#now h2 i').textContent") == "2"
    yield "no error", view.errors == [] and view.tell('document.getElementById("note").open') is False


# An area whose name is set to another one, a MOVE to a cell that is far from its source, and a pool that is left.
TWICE = """JOB REGION BELOW=4,ABOVE=0
JOB GETMAIN RU,LV=24,A=X
JOB PUT X,X'C1C2'
JOB GETMAIN RU,LV=24,A=X
JOB CPOOL BUILD,CPID=P,PCELLCT=4,CSIZE=16,SP=5
JOB CPOOL GET,CPID=P,CELL=C
JOB MOVE C,X,2
JOB FREEMAIN RC,LV=24,A=X
JOB REPORT SP
JOB RETURN
"""


def left(program, folder, view):
    """Each area of the close-up and each pool is there, also one that no name refers to."""
    page = folder / "twice.html"
    page.write_bytes(called(program, TWICE.encode(), "--page")[0])
    view.open(page, "#l4")
    yield "an area without a name", view.tell(HISTORY)[1:] == [
        ["X, until line 4", "24", "JOB, line 2", "JOB, line 3", "\u2013"], ["X", "24", "JOB, line 4", "\u2013", "\u2013"]
    ]
    yield "who wrote a byte", view.tell("document.querySelector('.bytes a.set').title") == "written by JOB in line 3"
    view.click(".bytes a.set")
    view.tell("new Promise(done=>setTimeout(done,80))")
    yield "a byte", view.tell(LINE) == "#l3"
    at_line(view, 7)
    yield "a MOVE shows what it wrote", view.tell("[...document.querySelectorAll('.bytes .wrote')].map(e=>e.textContent).join()") == "0000,.."
    yield "a pool in the listing", view.tell('document.querySelector("#list .ending u").innerText') == "1 area never released, 24 bytes\n1 pool never deleted, 88 bytes"
    view.press("e")
    rows = view.tell("[...document.querySelectorAll('#note tr')].slice(1).map(e=>[...e.children].map(c=>c.textContent))")
    yield "a pool at the end of the step", rows == [["X", "24", "00006000", "SP 0 of JOB", "JOB, line 2"], ["pool P", "88", "00007000", "SP 5 of JOB", "JOB, line 5"]]
    reported = called(program, TWICE.encode(), "--leaks")[0].decode()
    for word in ("released", "deleted"):
        line = re.search(rf"\* (Never {word}: \S+ \w+)", reported)[1]
        yield f"never {word}, as in --leaks", line in view.tell('document.getElementById("note").innerText')
    view.press("Escape")
    at_line(view, 8)
    grounds = view.tell("[...document.querySelectorAll('#now text.gone.halo')].map(e=>e.previousElementSibling.classList.contains('paper')).join()")
    yield "a label on freed storage has a ground", grounds == "true"
    view.press("a")
    columns = "[...new Set([...document.querySelectorAll('#all article')].map(e=>(e.querySelector('figure')?'figure ':'')+getComputedStyle(e).gridTemplateColumns.split(' ').length))].sort().join()"
    yield "a reply without a figure is as wide as the page", view.tell(columns) == "1,figure 2"
    view.press("a")
    yield "no error on what is left", view.errors == []


def large(program, folder, view):
    """32 tasks, 17 subpools in regions of 10,240 pages."""
    lines = ["JOB REGION BELOW=2048,ABOVE=8192"]
    lines += [f"JOB ATTACH TASK=T{k},SZERO=NO" for k in range(1, 32)]
    lines += [f"T{k} GETMAIN RU,LV=4096,A=A{k},SP={k},LOC=31" for k in range(1, 21)]
    page = folder / "tasks.html"
    page.write_bytes(called(program, ("\n".join(lines) + "\n").encode(), "--page")[0])
    view.open(page, "#l52")
    lanes = 'document.getElementById("lanes")'
    yield "lanes have names", view.tell(f"[...{lanes}.querySelectorAll('text.right')].map(e=>e.textContent).join()") == ",".join(["JOB", *(f"T{k}" for k in range(1, 32))])
    yield "lanes scroll", view.tell(f"{lanes}.scrollHeight>{lanes}.clientHeight&&{lanes}.scrollTop>0")
    kinds = view.tell("[...document.querySelectorAll('.chip')].map(e=>[...e.classList].filter(c=>/^[hp][0-9]$/.test(c)).join(' '))")
    yield "subpools look different", len(kinds) == len(set(kinds)) == 20
    yield "20 pages of 8,192 are seen", view.tell("[...document.querySelectorAll('.map')].pop().querySelector('.level').getBoundingClientRect().width") >= 3
    view.tell("var map=[...document.querySelectorAll('.map')].pop();map.id='map';map.scrollIntoView({block:'center'})")
    place = view.tell("(function(){var b=document.querySelector('#map rect').getBoundingClientRect();return[b.x+2,b.y+b.height/2]})()")
    view.click_at(*place)
    yield "a map is zoomed", view.tell("[...document.querySelectorAll('.map')].pop().dataset.to") == str(0x1000000 // PAGE + 1024)
    view.press("z")
    yield "a map out again", view.tell("[...document.querySelectorAll('.map')].pop().dataset.to") == str(0x1000000 // PAGE + 8192)
    view.press("z")
    yield "a map is zoomed to the close-up", view.tell("[...document.querySelectorAll('.map')].pop().dataset.to") == str(0x1000000 // PAGE + 1024)
    view.press("z")
    edges = view.tell("[...document.querySelectorAll('#time .cursor')].map(e=>e.getBoundingClientRect()).map(box=>[Math.round(box.left),Math.round(box.right)].join())")
    yield "both parts of the timeline have one scale", len(edges) == 2 and len(set(edges)) == 1
    yield "a line breaks after a comma", view.tell("document.querySelectorAll('#list .statement wbr').length") > 50
    yield "no error on a large job", view.errors == []


# What is wider than the page, and labels of one picture that lie on each other.
WIDE = "document.documentElement.scrollWidth-document.documentElement.clientWidth"
COVERED = """[...document.querySelectorAll('#now svg')].flatMap(svg=>{
  const boxes=[...svg.querySelectorAll('text')].filter(e=>e.textContent.trim()).map(e=>e.getBoundingClientRect());
  return boxes.flatMap((one,k)=>boxes.slice(k+1).filter(other=>one.left+1<other.right&&other.left+1<one.right&&one.top+5<other.bottom&&other.top+5<one.bottom))}).length"""


def sized(program, folder, view):
    """A page on a telephone and on a large screen, light and dark, and on paper."""
    page = folder / "sized.html"
    page.write_bytes(called(program, STORY.encode(), "--page")[0])
    for width in (420, 1600):
        for scheme in ("light", "dark"):
            view.size(width, 900)
            view.scheme(scheme)
            view.open(page, "#l11")
            fits = view.tell(WIDE) <= 0 and view.tell("document.querySelectorAll('#now svg').length") >= 1
            pairs = [pair.split(" on ") for pair in view.tell(TEXTS)]
            yield f"{width} pixels, {scheme}", fits and view.errors == [] and all(contrast(*pair) >= 4.5 for pair in pairs)
            yield f"labels at {width} pixels, {scheme}", view.tell(COVERED) == 0
            view.press("?")
            yield f"the keys at {width} pixels, {scheme}", view.tell("(function(){var e=document.getElementById('note');return e.scrollWidth<=e.clientWidth})()")
            view.press("Escape")
    view.scheme("light")
    view.size(1400, 900)
    view.open(page)
    paper = base64.b64decode(view.printed())
    yield "on paper", paper.startswith(b"%PDF") and view.tell("document.querySelectorAll('#all article').length") == STORY.count("JOB ") + STORY.count("\nSUB ") and view.errors == []


def unused(lines):
    """The names that a script declares, each of which it has once."""
    code = re.sub(r"(?m)//.*$", "", "\n".join(lines))
    names = re.findall(r"\b(?:const|let|var|function\*?|class)\s+([A-Za-z_$]\w*)", code) + re.findall(r"[,;{ ](\w+)=(?:\(?[\w,{} ]*\)?=>|function)", code)
    return [name for name in set(names) if len(re.findall(rf"\b{re.escape(name)}\b", code)) < 2]


def policy(program, folder, view):
    """The page runs no script but its own."""
    page = folder / "policy.html"
    text = called(program, STORY.encode(), "--page")[0].decode()
    page.write_text(text)
    markup = re.sub(r"<(script|style)>.*?</\1>", "", text, flags=re.S)
    yield "no handler and no style in the markup", not re.search(r"<[^>]*\s(on[a-z]+|style)=", markup)
    view.open(page)
    view.tell('var s=document.createElement("script");s.textContent="window.taken=1";document.body.append(s)')
    view.tell('document.body.insertAdjacentHTML("beforeend","<img src=x onerror=window.taken=1>")')
    view.tell("new Promise(done=>setTimeout(done,200))")
    yield "another script does not run", view.tell("window.taken===undefined")
    made = subprocess.run([TOP / "tools/page_frame", "--check"], capture_output=True, text=True)
    yield "the page's script is that of its file", made.returncode == 0
    lines = [line for path in sorted((TOP / "crates/page/frame").glob("*.js")) for line in path.read_text().split("\n")]
    yield "the lines of the script", all(len(line) <= 150 and line == line.rstrip() and "\t" not in line for line in lines)
    yield "the script has no name that it does not use", unused(lines) == []


# The story with a line less, another line 11, and one more.
OTHER = STORY.replace("JOB FREEMAIN RC,LV=24,A=BUF,SP=3\n", "").replace("JOB SHOW BUF,24\n", "JOB SHOW NEXT,8\nJOB FREEMAIN RU,LV=8,A=NEXT,SP=3\n")
DIFFERS = "[...document.querySelectorAll('#list .differs i,#list .other i')].map(e=>e.textContent)"


def two_runs(program, folder, view):
    """A run beside that of another script, and beside one with the other placement."""
    one, other, page = folder / "one.job", folder / "other.job", folder / "two.html"
    one.write_text(STORY)
    other.write_text(OTHER)
    first, printed = called(program, b"", "--page", one), called(program, STORY.encode())
    both = called(program, b"", "--page", one, "--with", other)
    page.write_bytes(both[0])
    second = called(program, OTHER.encode(), "--page")[0]
    items = second[second.index(b"<body>\n") + len(b"<body>\n") :]
    yield "two runs", both == (first[0] + b'<hr id="with">\n' + items, b"", printed[2])
    view.open(page)
    yield "what differs", view.tell(DIFFERS) == ["9", "11", "+", "+", "12"]
    yield "how many differ", view.tell('document.getElementById("compared").innerText') == "Two runs: 3 statements differ (keys d and D), and the other run has 2 more."
    for keys, line, expected in (("d", 2, "#l9"), ("dd", 2, "#l11"), ("D", 2, "#l12")):
        yield f"key {keys}, two runs", jumps(view, line, *keys) == expected
    at_line(view, 10)
    yield "the other run", view.tell("document.querySelectorAll('.runs svg').length") == 2 and "line 9" in view.tell("document.querySelector('.runs').innerText").lower()
    page.write_bytes(called(program, b"", "--page", one, "--with", one)[0])
    view.open(page)
    yield "both placements", view.tell(DIFFERS) == ["7"] and view.errors == []
    yield "no second script", called(program, b"", "--page", one, "--with", folder / "none.job")[1:] == (
        f"mvsjob: cannot read the second script\n    {folder}/none.job: no such file\n".encode(), 16
    )


def at_a_terminal(program):
    """A page is refused where standard output is a terminal."""
    ours, theirs = os.openpty()
    ran = subprocess.run([program, "--page"], stdin=subprocess.DEVNULL, stdout=theirs, stderr=subprocess.PIPE, timeout=600)
    os.close(ours)
    os.close(theirs)
    return [("a page at a terminal", ran.returncode == 16 and b"--page FILE > page.html" in ran.stderr)]


def in_new_files(program, folder):
    """`--open` writes each page to a file of its own, and prints its name."""
    script, room = folder / "story.job", folder / "temporary"
    script.write_text(STORY)
    room.mkdir()
    ran = [subprocess.run([program, "--page", "--open", script], env={"TMPDIR": str(room)}, capture_output=True, text=True, timeout=600) for _ in range(2)]
    names = [Path(one.stdout.removesuffix("\n")) for one in ran]
    plain = called(program, STORY.encode(), "--page")
    yield "pages in new files", sorted(names) == sorted(room.iterdir()) and len(set(names)) == 2
    yield "the page in a file", all(name.read_bytes() == plain[0] for name in names) and all((one.returncode, one.stderr) == (plain[2], "") for one in ran)
    ran = subprocess.run([program, "--page", "--open", script], env={"TMPDIR": str(folder / "none")}, capture_output=True, text=True, timeout=600)
    yield "no folder for a page", (ran.returncode, ran.stdout) == (16, "") and ran.stderr.startswith("mvsjob: cannot create a file for the page\n    ")


FIRST = b"JOB REGION BELOW=1\n"
HOSTILE = {
    "each byte of a comment": [FIRST + b"* a" + bytes([byte]) + b"b\nJOB REPORT MAP\n" for byte in range(256)],
    "each byte of a remark": [FIRST + b"JOB REPORT MAP a" + bytes([byte]) + b"b\n" for byte in range(256)],
    "each length": [FIRST + b"*" * length + b"\nJOB REPORT MAP\n" for length in range(300)],
    "no statement": [b"* note\n", b"\n\n"],
    "16 MB": [(FIRST + b"* a comment of some length, which is there many times\n" * 316000)[: (1 << 24) - 1]],
}


def is_shown(program, name):
    """Whether the pages of some scripts show them."""
    if name == "16 MB":
        page, _, status = called(program, HOSTILE[name][0], "--page")
        return status == 0 and page.count(b"\n<p id=") == HOSTILE[name][0].count(b"\n* ")
    return all(shows(program, script) for script in HOSTILE[name])


def of_path(program, path):
    return shows(program, statements(path))


def of_case(program, case):
    return shows(program, case.script().encode())


def groups(program):
    yield "pages of examples and lessons", each(partial(of_path, program), scripts(), chunksize=5)
    yield "pages of scripts", each(partial(of_case, program), annotated.all_scripts(), chunksize=5)
    yield "pages of random scripts", each(partial(as_random, program), seeds(RANDOM_SCRIPTS), str, chunksize=5)
    yield "pages in a browser", whole(in_a_browser, program)
    yield "pages in Firefox", whole(in_firefox, program)
    yield "pages at a terminal", whole(at_a_terminal, program)
    yield "pages in files", whole(in_files, program)
    yield "hostile pages", each(partial(is_shown, program), HOSTILE, str)


def as_random(program, seed):
    profile = ("storage", "tasks", "pools", "tidy", "faults")[seed % 5]
    return shows(program, called(program, b"", "--random", str(seed), "--lines", "60", "--profile", profile)[0])


# What is tried in Firefox too.
PARTS = (legible, hostile, named, searched, left, large, policy, two_runs, sized)


def in_firefox(program):
    """A case for each part, so that their number does not depend on the browser."""
    if not firefox.found():
        return [(part.__name__, Lacking("firefox-esr")) for part in PARTS]
    with tempfile.TemporaryDirectory() as name, firefox.Firefox() as view:
        return [(part.__name__, passes(part, program, Path(name), view)) for part in PARTS]


def passes(part, program, folder, view):
    bad = [case for case, well in part(program, folder, view) if not well]
    if bad:
        print(f"Firefox: {part.__name__}: {', '.join(bad)}", flush=True)
    return not bad


def in_files(program):
    with tempfile.TemporaryDirectory() as name:
        return list(in_new_files(program, Path(name)))


def in_a_browser(program):
    if not browser.found():
        return [("no browser: apt-get install -y chromium", False)]
    with tempfile.TemporaryDirectory() as name, browser.Browser() as view:
        folder = Path(name)
        return [case for part in (drawn, without_script, legible, quick, hostile, named, searched, left, large, policy, two_runs, sized) for case in part(program, folder, view)]
