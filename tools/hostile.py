#!/usr/bin/env python3
"""Hostile use of the built program: closed and full ends, odd files, little memory, and mutated texts.

    tools/hostile.py PROGRAM [CASES [SEED]]      CASES mutated texts, 2,000 if left out

Whatever comes, a run ends by itself, with one of the statuses 0 to 8 and its line on standard error; a refused line is
one that the text has, and nothing is written where a script or a table of the input is refused. The first part also knows
the status. What is against this is printed with the least that is needed to see it again; the last line counts. Mutated
texts that failed stay in the folder that is named then.
"""
import contextlib
import os
import pathlib
import random
import re
import resource
import shutil
import signal
import subprocess
import sys
import tempfile

TOP = pathlib.Path(__file__).resolve().parent.parent
SECONDS = 30
# memory for a mutated text, which may ask for a large room
MOST = 2 << 30
LINES = {
    1: r"bad words",
    2: r"bad script, line (?P<line>\d+)",
    3: r"bad table (?P<file>\S+), line (?P<line>\d+)",
    4: r"no file (?P<file>\S+)",
    5: r"read fault",
    6: r"write fault",
    7: r"table full (?P<file>\S+), line (?P<line>\d+)",
    8: r"no memory",
}
TABLES = "region nation supplier customer part partsupp orders lineitem".split()
SCRIPT = b"room region 64\nadd region moon 9|MOON|far|\nload region region.tbl\nget moon\nquery from region show count()\ncompact region\n"
REPLIES = b"added moon\nloaded region 2\n9|MOON|far|\nrows 1\n3\npacked region objects 3 blocks 1\n"
# texts of scripts that no example has
SCRIPTS = [
    b"room region 64\nroom nation 128\nadd region a 1|A||\nadd nation b 2|B|1|x|\nset b nationkey 7\nget b\nremove a\nget a\nquery from nation by region.name show count()\nupdate nation set nationkey = nationkey * 2 - 1 where name <> 'C' and [nationkey between 1 and 9 or not regionkey = 1]\nget b\nstat nation\ncompact nation\n",
    b"# a group\nroom region 64\nadd region a 1|A||\ngroup\nworker\nget a\nadd region b 2|B||\nworker\nstat region\ncompact region\nend\nget b\n",
    b"room region 64\n\ndrop fold median\nquery from region show fold range(regionkey), fold distinct(regionkey * 2), min(name), max(name), avg(regionkey), sum(regionkey) as s sort s desc first 3\n",
    b"room orders 64\nadd orders o 1|1|F|100.00|1994-03-01|5-LOW|Clerk#000000001|0|a|\r\nset o orderdate 9999-12-31\nset o totalprice -9999999999.99\nupdate orders set orderdate = orderdate + 1\nupdate orders set totalprice = -totalprice * 2\nget o\nquery from orders where orderdate > 1998-12-01 - 90 show min(orderdate), max(totalprice)\n",
    b"room part 64\nload part part.tbl\nload part part.tbl\ndelete part where size > 5 or name = 'x'\nstat part\nload part no.tbl\n",
]


class Failures:
    """The runs that were made, and those of them that came out wrong."""

    def __init__(self, folder):
        self.folder, self.runs, self.wrong = folder, 0, 0

    def tell(self, name, why, ran, text=None):
        """Counts a run, and prints why it is wrong, where it is. Keeps the text of a wrong one."""
        self.runs += 1
        if not why:
            return
        self.wrong += 1
        print(f"FAILED {name}: {why}\n    {ran!r}"[:1500])
        if text is not None:
            kept = self.folder / f"failed-{self.wrong}"
            kept.mkdir(parents=True, exist_ok=True)
            (kept / "stdin").write_bytes(text)
            for file in pathlib.Path().iterdir():
                if file.is_file():
                    shutil.copy(file, kept)
            print(f"    kept in {kept}")


class Ran:
    """How a run ended, and what it printed."""

    def __init__(self, status, out, err):
        self.status, self.out, self.err = status, out, err

    def __repr__(self):
        return f"status {self.status}, {self.out[-200:]!r}, {self.err[-200:]!r}"


def run(words, text=b"", memory=None, before=lambda: None, **ends):
    """Runs the program in the current folder over a text, or with these ends, and what is to be done before in its process."""

    def prepare():
        if memory:
            resource.setrlimit(resource.RLIMIT_AS, (memory, memory))
        resource.setrlimit(resource.RLIMIT_CORE, (0, 0))
        before()

    ends = {"stdout": subprocess.PIPE, "stderr": subprocess.PIPE, "preexec_fn": prepare} | ends
    if "stdin" not in ends:
        ends["input"] = text
    try:
        ran = subprocess.run(words, timeout=SECONDS, **ends)
    except subprocess.TimeoutExpired as late:
        return Ran("none in time", late.stdout or b"", b"")
    return Ran(ran.returncode, ran.stdout or b"", ran.stderr or b"")


def count_lines(text):
    """How many lines a text has; the last one may lack its newline."""
    return text.count(b"\n") + (not text.endswith(b"\n") and text != b"")


def may_end_behind(form, text):
    """Whether the line behind the last one may be refused: of a schedule without a line, and of a group that is not ended."""
    counted = [line for line in text.splitlines() if line.strip(b"\r") and not line.startswith(b"#")]
    return form == "play" and not counted or form == "run" and b"group" in counted


def wrong_line(form, text, line, file):
    """Why there can be no fault at this line of the input, or of a file."""
    if file in (None, "-"):
        behind = may_end_behind(form, text)
        return "" if 1 <= line <= count_lines(text) + behind else f"the input has no line {line}"
    path = pathlib.Path(file)
    return "" if path.exists() and 1 <= line <= count_lines(path.read_bytes()) else f"{file} has no line {line}"


def judge(ran, form, text, closed=False):
    """Why the end of a run is wrong, whatever it was given; nothing where it is right."""
    if ran.status == "none in time":
        return "it did not end"
    if not 0 <= ran.status <= 8:
        return "no status of the program"
    if ran.status == 0 or closed:
        return "" if not ran.err else "a line with status 0"
    said = re.fullmatch(rf"smc: {ran.status} {LINES[ran.status]}\n", ran.err.decode("utf-8", "replace"))
    if not said:
        return "not the line of its status"
    if ran.out and (ran.status in (1, 5) and form != "run" or ran.status in (1, 2, 3) and form in ("run", "tally") and ran.status != (3 if form == "run" else 0)):
        return "something was written"
    found = said.groupdict()
    if "line" in found:
        return wrong_line(form, text, int(found["line"]), found.get("file"))
    return ""


# ---- ends, files and memory


def ends(program, failures):
    """Closed ends, a full device, and a pipe that closes early."""
    script, replies = SCRIPT, REPLIES
    tell = failures.tell

    def see(name, ran, status, form="run", closed=False, out=None):
        why = judge(ran, form, script, closed)
        if not why and ran.status != status:
            why = f"status {ran.status}, not {status}"
        if not why and out is not None and ran.out != out:
            why = "another output"
        tell(name, why, ran)

    see("a script", run([program, "run"], script), 0, out=replies)
    for form in (["run"], ["play"], ["tally", "region"]):
        see(f"{form[0]}, input closed", run([program, *form], stdin=None, before=lambda: os.close(0)), 5, form[0])
        for name, end in (("a folder as input", os.open(".", os.O_RDONLY)), ("input that is only written", os.open("/dev/null", os.O_WRONLY))):
            see(f"{form[0]}, {name}", run([program, *form], stdin=end), 5, form[0])
            os.close(end)
    see("output closed", run([program, "run"], script, stdout=None, before=lambda: os.close(1)), 6)
    see("output closed, nothing to write", run([program, "run"], b"", stdout=None, before=lambda: os.close(1)), 0)
    see("errors closed", run([program, "run"], b"x", stderr=None, before=lambda: os.close(2)), 2, closed=True)
    see("all closed", run([program, "run"], stdin=None, stdout=None, stderr=None, before=lambda: os.closerange(0, 3)), 5, closed=True)
    with open("/dev/full", "wb") as full:
        see("a full device", run([program, "run"], script, stdout=full), 6)
        see("a full device, nothing to write", run([program, "run"], b"", stdout=full), 0)
        see("errors on a full device", run([program, "run"], b"x", stderr=full), 2, closed=True)
    early(program, see)


def early(program, see):
    """A pipe whose reader is gone, before the first byte or while there is more to come."""
    many = b"room region 64\nadd region a 1|A||\n" + b"get a\n" * 60_000
    for name, taken in (("before all", 0), ("behind a front", 10)):
        out, into = os.pipe()
        ran = subprocess.Popen([program, "run"], stdin=subprocess.PIPE, stdout=into, stderr=subprocess.PIPE)
        os.close(into)
        if taken == 0:
            os.close(out)
        ran.stdin.write(many)
        ran.stdin.close()
        if taken:
            os.read(out, taken)
            os.close(out)
        err = ran.stderr.read()
        see(f"a pipe that closes {name}", Ran(ran.wait(SECONDS), b"", err), 6)


def drips(program, failures):
    """An input of one byte at a time."""
    for form, text, out in (("run", SCRIPT, REPLIES), ("tally", b"0|AFRICA|a|\n4|ASIA|b|", b"objects 2, sum 4\n")):
        out_of, into = os.pipe()
        ran = subprocess.Popen([program, form, *["region"] * (form == "tally")], stdin=out_of, stdout=subprocess.PIPE, stderr=subprocess.PIPE)
        os.close(out_of)
        for byte in text:
            os.write(into, bytes([byte]))
        os.close(into)
        said, err = ran.communicate(timeout=SECONDS)
        came = Ran(ran.returncode, said, err)
        failures.tell(f"{form}, a byte at a time", judge(came, form, text) or ("another output" if said != out else ""), came)


def files(program, failures):
    """Folders, links, names that lead out, files that can't be read, and a file that is cut while it is read."""
    os.mkdir("folder")
    os.mkdir("below")
    shutil.copy("region.tbl", "below/region.tbl")
    shutil.copy("region.tbl", "../outside.tbl")
    shutil.copy("region.tbl", "shut.tbl")
    os.chmod("shut.tbl", 0)
    os.symlink("region.tbl", "link.tbl")
    os.symlink("nowhere.tbl", "dangling.tbl")
    os.symlink("loop.tbl", "loop.tbl")
    pathlib.Path("empty.tbl").write_bytes(b"")
    nobody = (lambda: os.setuid(65534)) if os.getuid() == 0 else (lambda: None)
    wanted = {
        "region.tbl": 0,
        "./region.tbl": 0,
        "below/region.tbl": 0,
        "below/./region.tbl": 0,
        "link.tbl": 0,
        "empty.tbl": 0,
        "folder": 5,
        "folder/": 5,
        ".": 5,
        "region.tbl/": 5,
        "region.tbl/region.tbl": 5,
        "shut.tbl": 5,
        "loop.tbl": 5,
        "nowhere.tbl": 4,
        "dangling.tbl": 4,
        "folder/region.tbl": 4,
        "../outside.tbl": 4,
        "below/../region.tbl": 4,
        "below/../../outside.tbl": 4,
        "..": 4,
        "/dev/zero": 4,
        "/etc/passwd": 4,
        os.path.abspath("region.tbl"): 4,
        "a" * 255: 4,
        "~/region.tbl": 4,
        "*.tbl": 4,
        "-": 4,
    }
    for name, status in wanted.items():
        text = f"room region 64\nstat region\nload region {name}\nstat region\n".encode()
        ran = run([program, "run"], text, before=nobody)
        why = judge(ran, "run", text)
        if not why and ran.status != status:
            why = f"status {ran.status}, not {status}"
        if not why and status and ran.out != b"objects 0\n":
            why = "not the replies before the load"
        failures.tell(f"load {name}", why, ran)


def cuts(program, failures):
    """A file that is cut, or grows, while it is read."""
    row = b"7|" + b"n" * 25 + b"|" + b"c" * 150 + b"|\n"
    text = b"room region 65536\nload region moving.tbl\nstat region\n"
    for turn in range(40):
        moving = pathlib.Path("moving.tbl")
        moving.write_bytes(row * 60_000)
        ran = subprocess.Popen([program, "run"], stdin=subprocess.PIPE, stdout=subprocess.PIPE, stderr=subprocess.PIPE)
        ran.stdin.write(text)
        ran.stdin.close()
        with contextlib.suppress(subprocess.TimeoutExpired):
            ran.wait(0.0005 * turn)
        os.truncate(moving, (100 + 977 * turn) * (turn % 4))
        out, err = ran.stdout.read(), ran.stderr.read()
        came = Ran(ran.wait(SECONDS), out, err)
        # the last line may be cut within its row, and was there when it was read
        why = judge(came, "play", text) if came.status != 3 else ""
        if not why and came.status not in (0, 3, 7):
            why = "neither read nor refused"
        failures.tell(f"a file that is cut, turn {turn}", why, came)


def memory(program, failures):
    """An address space that grows from what the program needs to start, until the script runs."""
    small = "".join(f"room {table} 64\n" for table in TABLES) + "".join(f"load {table} {table}.tbl\n" for table in TABLES)
    small = (small + "query from lineitem by order.customer.name show sum(quantity), fold median(tax)\ndelete lineitem where tax > 0.01\ncompact lineitem\n").encode()
    for name, text in (("small", small), ("a large room", b"room lineitem 400000\nload lineitem lineitem.tbl\nstat lineitem\n")):
        size, seen = 1 << 20, set()
        while 0 not in seen and size < 1 << 31:
            started = run([program], memory=size)
            if started.status == 1:
                ran = run([program, "run"], text, memory=size)
                why = judge(ran, "run", text) or ("neither run nor refused" if ran.status not in (0, 8) else "")
                seen.add(ran.status)
                failures.tell(f"{name}, {size} bytes of address space", why, ran)
            size += 4096 if size < 1 << 23 else size >> 5
        if seen != {0, 8}:
            failures.tell(f"{name}: memory is refused, then there", "not both were seen", sorted(seen))


# ---- mutated texts


def corpus():
    """The texts that are mutated: their words and their bytes. Their files are those of examples/tpch."""
    yield ["run"], SCRIPT
    for text in SCRIPTS:
        yield ["run"], text
    for path in sorted(TOP.glob("examples/*/*")):
        words = {".smc": ["run"], ".play": ["play"], ".tbl": ["tally", path.stem]}.get(path.suffix)
        if words and (words[0] != "tally" or path.stem in TABLES):
            yield words, path.read_bytes()


WORDS = [b"", b"0", b"1", b"64", b"65", b"999999999999", b"9999999999999", b"268435456", b"-1", b"1.5", b"9999-12-31", b"0000-00-00", b"'", b"''", b"|", b"[", b"((((", b"- - -", b"not not", b"group", b"worker", b"end", b"room", b"region", b"lineitem", b"order.customer.nation.region.name", b"fold median(", b"count()", b"between", b"desc", b"!", b".", b"begin", b"finish", b"cancel", b"epoch 68719476734 inc 16777215", b"\xc3\xa9", b"\xff", b"\0", b"\r", b"#", b" ", b"  ", b"\t"]


def mutate(chance, text, other):
    """A text that differs from this one at a few places; it may have lines of another one."""
    lines = text.split(b"\n")
    for _ in range(chance.choice((1, 1, 1, 2, 3, 8))):
        kind = chance.randrange(12)
        at = chance.randrange(len(lines))
        if kind == 0 and lines[at]:
            place = chance.randrange(len(lines[at]))
            lines[at] = lines[at][:place] + bytes([lines[at][place] ^ 1 << chance.randrange(8)]) + lines[at][place + 1 :]
        elif kind == 1:
            lines[at] = lines[at][: chance.randrange(len(lines[at]) + 1)]
        elif kind == 2:
            lines.insert(chance.randrange(len(lines) + 1), lines[at])
        elif kind == 3:
            to = chance.randrange(len(lines))
            lines[at], lines[to] = lines[to], lines[at]
        elif kind == 4 and len(lines) > 1:
            del lines[at]
        elif kind == 5:
            lines.insert(at, chance.choice(other.split(b"\n")))
        elif kind == 6:
            words = lines[at].split(b" ")
            words[chance.randrange(len(words))] = chance.choice(WORDS)
            lines[at] = b" ".join(words)
        elif kind == 7:
            words = lines[at].split(b" ")
            words.insert(chance.randrange(len(words) + 1), chance.choice(WORDS))
            lines[at] = b" ".join(words)
        elif kind == 8:
            lines[at] = re.sub(rb"\d+", lambda _: chance.choice(WORDS[1:10]), lines[at], count=1)
        elif kind == 9:
            lines[at] = lines[at] * chance.choice((2, 3, 40))
        elif kind == 10:
            lines = lines[: at + 1]
        elif kind == 11:
            lines[at] += chance.choice(WORDS) * chance.choice((1, 2, 64, 65, 1025))
    return b"\n".join(lines)


def fuzz(program, failures, cases, seed):
    """Mutated scripts, schedules and tables, and scripts over a mutated file. Prints how often each status came."""
    texts = list(corpus())
    statuses = {}
    for case in range(cases):
        chance = random.Random(f"{seed} {case}")
        words, text = chance.choice(texts)
        table = None
        if words == ["run"] and chance.randrange(4) == 0:
            table = pathlib.Path(chance.choice(TABLES) + ".tbl")
            whole = table.read_bytes()
            table.write_bytes(mutate(chance, whole, whole))
        else:
            text = mutate(chance, text, chance.choice(texts)[1])
        ran = run([program, *words], text, memory=MOST)
        statuses[ran.status] = statuses.get(ran.status, 0) + 1
        failures.tell(f"case {case} of seed {seed}, {' '.join(words)}", judge(ran, words[0], text), ran, text)
        if table:
            table.write_bytes(whole)
    print("mutated texts:", ", ".join(f"{count} of status {status}" for status, count in sorted(statuses.items(), key=str)))


def main():
    program = str(pathlib.Path(sys.argv[1]).resolve())
    cases = int(sys.argv[2]) if len(sys.argv) > 2 else 2_000
    seed = int(sys.argv[3]) if len(sys.argv) > 3 else 1
    signal.signal(signal.SIGPIPE, signal.SIG_DFL)
    with tempfile.TemporaryDirectory(prefix="hostile-") as home:
        os.chmod(home, 0o755)
        failures = Failures(pathlib.Path(tempfile.gettempdir()) / f"hostile-failed-{os.getpid()}")
        for part in (ends, drips, files, cuts, memory, lambda p, f: fuzz(p, f, cases, seed)):
            place = pathlib.Path(tempfile.mkdtemp(dir=home)) / "here"
            place.mkdir()
            os.chmod(place.parent, 0o755)
            for table in TABLES:
                shutil.copy(TOP / f"examples/tpch/{table}.tbl", place)
            os.chdir(place)
            part(program, failures)
        os.chdir("/")
    print(f"hostile: {failures.runs} runs, {failures.wrong} failures")
    return 1 if failures.wrong or not failures.runs else 0


if __name__ == "__main__":
    sys.exit(main())
