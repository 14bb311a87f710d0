"""Tries tools/page on the examples: what stands in a page is what the file and its report say, and it loads nothing.

A page of a store is that of the file that it holds, and so are its tables (tools/table), also while a server that is shared has the
store. What a browser shows of a page is tried by trials/page.
"""
import glob
import json
import os
import re
import subprocess
import tempfile
import time

HERE = os.path.dirname(os.path.realpath(__file__))
TOP = os.path.dirname(HERE)
PAGE, TABLE, EXPLAIN, SHARE = (os.path.join(TOP, "tools", name) for name in ("page", "table", "explain", "share"))
# A file of format 3, which a server makes the same of.
GROWING = os.path.join(TOP, "examples", "help-desk.adept")
TEXT = """adept 1
type t
act a
element e text
write a e
end
actor ann
case c t
phase
ann create c
ann start c a
ann end c a e="</script><script>alert(1)</script>"
"""


# A case of which a node went, one was moved, and another reads, writes and waits for something else.
OWN = """adept 1
type t
act a role 2
act b
act d
act g
element e int
write a e
read d e
end
actor ann roles 2
case c t
phase
ann create c
ann change c
delete g
move d after a
role b 3
write b e
unwrite a e
unread d e
insert n after a
end
"""


def page_of(command, *words, given=None):
    done = subprocess.run([PAGE, "--program", command[0], *words], input=given, stdout=subprocess.PIPE, stderr=subprocess.PIPE)
    return done.returncode, done.stdout.decode(), done.stderr.decode()


def data_of(page):
    return json.loads(re.search(r'<script type="application/json" id="data">(.*?)</script>', page, re.S).group(1))


def lines_of(report, word):
    return [line.split()[1:] for line in report.splitlines() if line.split()[:1] == [word]]


def what_differs(command, path):
    """What a page of an example says otherwise than the example's report."""
    with open(path[:-len("adept")] + "report", encoding="utf-8") as file:
        report = file.read()
    status, page, said = page_of(command, path)
    if status:
        return "status %d, %s" % (status, said)
    if re.search(r"(src|href)=\"(?!#)|@import|url\(|fetch\(|https?://(?!www\.w3\.org/2000/svg)", page):
        return "the page loads something"
    data = data_of(page)
    created = [case for case in data["cases"] if case["state"] != "none"]
    wanted = {
        "cases": ([case["name"] for case in data["cases"]], [words[0] for words in lines_of(report, "case")]),
        "states": ([[str(case["version"]), case["state"], "own=%d" % case["own"]] for case in created],
                   [words for words in lines_of(report, "state") if words != ["none"]]),
        "markings": ([["%s=%s" % pair for pair in zip(shown_on(case, data)["order"], case["marking"])] for case in created], lines_of(report, "marking")),
        "items": ([["".join(item) for item in case["items"]] for case in created], lines_of(report, "items")),
        "entries": (sum(len(case["journal"]) for case in data["cases"]), int(re.search(r"entries=(\d+)", report).group(1))),
    }
    return next(("%s: wanted %r, got %r" % (name, right, found) for name, (found, right) in wanted.items() if found != right), None)


def shown_on(case, data):
    """The schema on which a case is drawn."""
    return case.get("schema") or data["types"][case["type"]]["versions"][case["version"] - 1]


def single(command):
    """What else is wanted of a page."""
    status, page, _ = page_of(command, given=TEXT.encode())
    if status or "</script><script>alert" in page or data_of(page)["cases"][0]["values"] != [["e", '"</script><script>alert(1)</script>"']]:
        return "a text is no text there"
    status, page, said = page_of(command, given=b"adept 1\nact\n")
    if (status, page) != (1, "") or not said.startswith("adept: line 2: form\n"):
        return "a file that is refused: %d, %r" % (status, said)
    if page_of(command, "none")[::2] != (3, "page: cannot read none\n"):
        return "a file that is not there"
    wedding = os.path.join(TOP, "examples", "wedding-cake")
    status, page, _ = page_of(command, "--report", wedding + ".report", wedding + ".adept")
    own = data_of(page)["cases"][0]["schema"]["own"]
    if status or not {"sift-flour", "write-card", "candles"} <= set(own) or "dough" in own:
        return "own nodes: %r" % own
    return own_differs(data_of(page_of(command, given=OWN.encode())[1])["cases"][0]["schema"])


def own_differs(schema):
    """What is told otherwise of the changes of a case."""
    wanted = {"own": ["n"], "gone": ["g"], "moved": ["d"], "besides": {"b": {"role": [3], "writes": ["e"]}},
              "lost": {"a": {"writes": ["e"]}, "d": {"reads": ["e"]}}}
    found = {name: schema[name] for name in wanted}
    return None if found == wanted else "own changes: wanted %r, got %r" % (wanted, found)


def of_store(command, server):
    """What a page or a table of a store has otherwise than those of its file."""
    def unnumbered(data):
        for cell in (*data["types"], *data["cases"]):
            cell["journal"] = [[number, *rest] for number, _, *rest in cell["journal"]]
        return {**data, "place": ""}

    with tempfile.TemporaryDirectory(prefix="acceptance-") as folder, open(GROWING, "rb") as file:
        store = os.path.join(folder, "store")
        subprocess.run([server, store], stdin=file, stdout=subprocess.DEVNULL, check=True)
        status, page, said = page_of([server], "--store", store)
        wanted = data_of(page_of(command, GROWING)[1])
        if status or unnumbered(data_of(page)) != unnumbered(wanted) or data_of(page)["place"] != "unit":
            return "the page of a store: status %d, %s" % (status, said)
        with open(GROWING[:-len("adept")] + "report", "rb") as report:
            right = subprocess.run([TABLE, "--file", GROWING, "--json"], stdin=report, stdout=subprocess.PIPE).stdout
        found = subprocess.run([TABLE, "--program", server, "--store", store, "--json"], stdout=subprocess.PIPE).stdout
        if json.loads(found) != json.loads(right):
            return "the tables of a store: wanted %r, got %r" % (right[:200], found[:200])
        for tool in (PAGE, TABLE):
            done = subprocess.run([tool, "--program", server, "--store", store + "s"], stdout=subprocess.PIPE, stderr=subprocess.PIPE)
            if (done.returncode, done.stdout, os.path.exists(store + "s")) != (3, b"", False):
                return "a store that is not there: %d, %r" % (done.returncode, done.stdout)
    return None


def while_shared(server):
    """What is said of a store otherwise where it is in use, by a server that is shared, than where it is at rest."""
    def said(tool):
        return subprocess.run([tool, "--program", server, "--store", store], stdout=subprocess.PIPE, stderr=subprocess.STDOUT).stdout

    tools = PAGE, TABLE, EXPLAIN
    with tempfile.TemporaryDirectory(prefix="acceptance-") as folder, open(GROWING, "rb") as file:
        store = os.path.join(folder, "store")
        subprocess.run([server, store], stdin=file, stdout=subprocess.DEVNULL, check=True)
        at_rest = [said(tool) for tool in tools]
        sharing = subprocess.Popen([SHARE, "--program", server, store], stdin=subprocess.DEVNULL, stderr=subprocess.DEVNULL)
        try:
            while sharing.poll() is None and not os.path.exists(store + ".socket"):
                time.sleep(0.01)
            in_use = [said(tool) for tool in tools]
        finally:
            sharing.terminate()
            sharing.wait()
    return next(("%s: %r" % (os.path.basename(tool), found[:200]) for tool, right, found in zip(tools, at_rest, in_use) if found != right), None)


def tried(command, server):
    """The name of each case with what differs, or None. Stores are made where there is a server."""
    for path in sorted(glob.glob(os.path.join(TOP, "examples", "*.adept"))):
        yield "page of " + os.path.relpath(path, TOP), what_differs(command, path)
    yield "pages", single(command)
    if server:
        yield "page and tables of a store", of_store(command, server)
        yield "page, tables and explanations of a store in use", while_shared(server)
    else:
        print("not tried pages of stores: there is no proved serve_main", flush=True)
