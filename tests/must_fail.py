#!/usr/bin/env python3
"""Tries the must-fail edits: the check must refuse each of them, at the fact that it names.

  python3 tests/must_fail.py [NAME...]           every edit, or those of a crate (terms) or single ones (span_zero)
  python3 tests/must_fail.py --list [NAME...]    whether each edit still applies; nothing is checked
  python3 tests/must_fail.py --tables            write the tables of docs/MUST-FAIL.md anew

An edit is a file NAME.edit in tests/must-fail/CRATE or in crates/CRATE/must-fail. rt ci tries the latter too, each by a check of the whole
crate. Its lines:

  kind: code                one of KINDS below
  program: TEXT             the wrong program
  promise: TEXT             what it breaks
  fact: PLACE NAME: TEXT    where it is refused; there may be several
  shows: TEXT               what the message at the fact above it has; there may be several
  file: src/numbers.rt      old and new, one or more times, as rt must-fail has them
  after: TEXT               a text that is in the file once, where the old text is meant that comes first after it
  old: TEXT
  new: TEXT

An old text without one must be in its file exactly once. PLACE is a file under proofs, or specs/FILE, without Proof, a folder +..+ and the ending; NAME is
the declaration in it. The edit counts as refused if the check ends with logic=not-proved and has, at each fact, an error that says that
something does not hold (FAILS below). An error of form (a name that is missing, a case too many, something that was not admitted) does not count,
and an edit of the code is to leave the needs of each proof, and so the code's shape, as they are. The edits tool_.. test this command itself:
each has a line 'wanted: TEXT' with the fault that it must be told for, and no page names them.

Edits are tried in copies of the crates by rt check, over what it keeps in out/incremental: what an earlier check kept in the crate's own out is taken
over, and is filled first where there is none. It is put back after each edit, so that each starts from that of the crate as it is. The libraries of
the crates below come from their out folders too, where rt ci or rt check left them.

With --together N up to N edits of the code are tried in one check, where no two of them name facts of one place. The proof of a function sees its
own code and the contracts of others, so an error in it comes from the edit of that function. An edit that does not count as refused in
company is tried alone, and that is what counts.

Seconds are processor time. The last line is 'N passed, 0 failed'.
"""

import argparse
import collections
import concurrent.futures
import os
import queue
import re
import shutil
import signal
import subprocess
import sys
import tempfile
import threading

ROOT = os.path.dirname(os.path.dirname(os.path.abspath(__file__)))
PAGE = os.path.join(ROOT, "docs", "MUST-FAIL.md")
NAMING = (PAGE, os.path.join(ROOT, "README.md"))
COLUMNS = ("Edit", "Edits of the code", "Of a definition")      # of tables that name edits
KINDS = {"code": ("src/",), "definition": ("specs/",), "statement": ("src/", "specs/")}
CONTRACT = ("requires", "ensures", "⌜", "ghost")       # no code
FAILS = (
    re.compile(r"expected type .* but this has type ", re.S),
    re.compile(r"computed as far as (they go|it goes), the two (types|values) ", re.S),
    re.compile(r"as printed, the two types ", re.S),
    re.compile(r"` ≟ `.*` does not hold ", re.S),
    re.compile(r"`omega`: .* does not follow from what it read", re.S),
    re.compile(r"`search`: no proof of .* was found. Every way was tried", re.S),
    re.compile(r"^no answer, and `search` does not prove it"),
)
NEEDS = re.compile(r"_spec: |has no field `|has no `Need-|Goals` has no `")     # a proof's needs are others
ERROR = re.compile(r"^(\./\S.*?\.antt):\d+:\d+: error: (?:`([^`]+)`: )?(.*)$")
UNPROVED = re.compile(r"^fn \S+: no proof: expected answers in (\S+\.antt); `search` did not prove ([^;]*)")

Change = collections.namedtuple("Change", "file old new after")
Fact = collections.namedtuple("Fact", "place name words shows")
Checked = collections.namedtuple("Checked", "status text seconds megabytes")


class Bad(Exception):
    """An edit that cannot be tried."""


# Edits

class Edit:
    """What a file NAME.edit says."""

    def __init__(self, crate, path):
        self.crate, self.path, self.name = crate, path, os.path.basename(path)[:-len(".edit")]
        self.kind = self.program = self.promise = self.wanted = None
        self.facts, self.changes = [], []
        self.read()

    def read(self):
        file = old = after = None
        with open(self.path, encoding="utf-8") as lines:
            for line in lines.read().splitlines():
                word, _, text = line.partition(": ") if line != "new:" else ("new", "", "")
                if word in ("kind", "program", "promise", "wanted"):
                    setattr(self, word, text)
                elif word == "fact":
                    self.facts.append(fact_of(text))
                elif word == "shows" and self.facts:
                    self.facts[-1].shows.append(text)
                elif word == "file":
                    file = text
                elif word == "after" and file:
                    after = text
                elif word == "old" and file:
                    old = text
                elif word == "new" and old:
                    self.changes.append(Change(file, old, text, after))
                    old = after = None
                else:
                    raise Bad("a line that is not understood: %s" % line)

    def check(self):
        """Raises Bad where something is missing, or the kind is not what is changed."""
        for word in ("kind", "program", "promise", "facts", "changes"):
            if not getattr(self, word):
                raise Bad("it has no line for %s" % word)
        if self.kind not in KINDS:
            raise Bad("the kind %s is none of %s" % (self.kind, ", ".join(KINDS)))
        for change in self.changes:
            if not change.file.startswith(KINDS[self.kind]) or ".." in change.file:
                raise Bad("an edit of the kind %s does not change %s" % (self.kind, change.file))
            if self.kind == "code" and any(word in change.old for word in CONTRACT):
                raise Bad("it changes a contract, so it is no edit of the code")

    def applied(self, directory, others=()):
        """The files of the crate in that directory with the edit in them, over what others have made of them: {path: text}."""
        texts = dict(others)
        for file, old, new, after in self.changes:
            path = os.path.join(directory, "crates", self.crate, file)
            if not os.path.isfile(path):
                raise Bad("there is no file %s" % file)
            text = texts.get(path) or read_text(path)
            if text.count(after or old) != 1:
                raise Bad("its text is in %s %d times, and must be there once: %s" % (file, text.count(after or old), (after or old).strip()))
            at = text.find(old, text.index(after) if after else 0)
            if at < 0:
                raise Bad("its old text is not in %s after %s" % (file, after))
            texts[path] = text[:at] + new + text[at + len(old):]
        return texts


def apart(one, other):
    """Whether two edits can be tried in one check: both of the code, with facts in proofs of other functions, and no text of one in a text of the other."""
    if (one.kind, other.kind) != ("code", "code") or one.wanted or other.wanted:
        return False
    if {fact.place for fact in one.facts} & {fact.place for fact in other.facts}:
        return False
    return not any(a.file == b.file and (a.old in b.old + "\n" + b.new or b.old in a.old + "\n" + a.new)
                   for a in one.changes for b in other.changes)


def grouped(edits, most):
    """The edits in groups of at most so many that can be tried together."""
    groups = []
    for edit in edits:
        group = next((group for group in groups if len(group) < most and all(apart(edit, each) for each in group)), None)
        if group is None:
            groups.append([edit])
        else:
            group.append(edit)
    return groups


def fact_of(text):
    found = re.fullmatch(r"(\S+) ([^\s:]+)(?:: (.+))?", text)
    if not found:
        raise Bad("a fact is PLACE NAME: TEXT, and not %s" % text)
    return Fact(*found.groups(), [])


def read_text(path):
    with open(path, encoding="utf-8") as file:
        return file.read()


def write_text(path, text):
    with open(path, "w", encoding="utf-8") as file:
        file.write(text)


def dependencies():
    """The crates of the repository in the order of crates.txt, each with those it depends on, and those below them."""
    found = {}
    for line in read_text(os.path.join(ROOT, "crates.txt")).splitlines():
        name, colon, names = line.partition("#")[0].partition(":")
        if colon:
            found[name.split()[0]] = [each for each in names.split() if each in found]
    for name, below in found.items():
        for each in list(below):
            below += [more for more in found[each] if more not in below]
    return found


def edits_of(crates):
    """Every edit, by crate and name, and what is wrong with those that are none."""
    edits, wrong = {}, {}
    for crate in crates:
        for folder in (os.path.join("crates", crate, "must-fail"), os.path.join("tests", "must-fail", crate)):
            directory = os.path.join(ROOT, folder)
            for file in sorted(os.listdir(directory)) if os.path.isdir(directory) else []:
                name = file[:-len(".edit")]
                try:
                    if not file.endswith(".edit"):
                        raise Bad("%s/%s is no edit" % (folder, file))
                    if name in edits:
                        raise Bad("two edits have this name")
                    edits[name] = Edit(crate, os.path.join(directory, file))
                    edits[name].check()
                    edits[name].applied(ROOT)
                except Bad as fault:
                    wrong["%s/%s" % (crate, name)] = str(fault)
    return edits, wrong


def chosen(names, edits, crates):
    """The edits that the names stand for."""
    unknown = [name for name in names if name not in edits and name not in crates]
    if unknown:
        sys.exit("there is no crate and no edit %s" % ", ".join(unknown))
    return [edit for edit in edits.values() if not names or edit.name in names or edit.crate in names]


# What the check says

def errors_in(text, crate):
    """The errors of a log: place, declaration, message."""
    found = []
    for line in text.splitlines():
        start, none = ERROR.match(line), UNPROVED.match(line)
        if start:
            found.append([place_of(start.group(1)), start.group(2), start.group(3)])
        elif none:
            found += [[place_of(none.group(1)), name, "no answer, and `search` does not prove it"]
                      for name in re.findall("`([^`]+)`", none.group(2))]
        elif found and line.startswith("  "):
            found[-1][2] += " " + line.strip()
        elif found:
            found.append([None, None, ""])
    return [each for each in found if each[0]]


def place_of(path):
    parts = path[len("./"):-len(".antt")].split("/")
    parts = [part for part in parts if part not in ("Proof", "Answers", "Invariants") and not part.startswith("+")]
    return "/".join(parts[1:] if parts[0] == "proofs" else parts)


def does_not_hold(message):
    return any(each.search(message) for each in FAILS)


def own_errors(errors):
    """Those that do not come from another declaration that was not admitted."""
    return [each for each in errors if "was not admitted" not in each[2]]


def fault_of(edit, checked):
    """Why the check's answer to an edit is not the wanted one, or None."""
    fault = refusal_fault(edit, checked)
    if edit.wanted:
        return None if (fault or "").startswith(edit.wanted) else "NOT TOLD for %s: %s" % (edit.wanted, fault)
    return fault


def refusal_fault(edit, checked):
    """Why an edit does not count as refused at its facts, or None."""
    if re.search("^logic=proved", checked.text, re.M):
        return "NOT REFUSED: the crate is still proved with this edit"
    if checked.status != 1 or not re.search("^logic=not-proved", checked.text, re.M):
        return "BAD EDIT: it did not reach the prover (status %d)\n%s" % (checked.status, "\n".join(checked.text.splitlines()[:5]))
    errors = own_errors(errors_in(checked.text, edit.crate))
    shape = ["%s %s" % (place, name) for place, name, message in errors if NEEDS.search("%s: %s" % (name, message))]
    if edit.kind == "code" and shape:
        return "ANOTHER SHAPE of the code: what its proof needs is no longer the same, at " + ", ".join(shape)
    for fact in edit.facts:
        here = [message for place, name, message in errors if (place, name) == (fact.place, fact.name)]
        where = "%s %s" % (fact.place, fact.name)
        if not here:
            return "REFUSED ELSEWHERE, not at %s\n%s" % (where, "\n".join("%s %s: %.300s" % tuple(each) for each in errors[:6]))
        if not any(map(does_not_hold, here)):
            return "REFUSED BY FORM at %s\n%s" % (where, "\n".join(each[:600] for each in here))
        for words in fact.shows:
            if not any(words in each for each in here if does_not_hold(each)):
                return "REFUSED OTHERWISE at %s, without %s\n%s" % (where, words, "\n".join(each[:600] for each in here))
    return None


# Copies

RUNNING = set()
STOPPED = threading.Event()


def stop(*_):
    """Ends what runs, and then the command."""
    STOPPED.set()
    for process in list(RUNNING):
        try:
            os.killpg(process.pid, signal.SIGTERM)
        except ProcessLookupError:
            pass
    sys.exit(1)


# What rt check notes of a linked program, in a file that it writes into.
WRITTEN_INTO = "linked-compared"


def link_tree(source, to):
    """The files of a directory in another one, by links where that can be, and by copies of those that rt check writes into."""
    for directory, _, files in os.walk(source):
        there = os.path.join(to, os.path.relpath(directory, source))
        os.makedirs(there, exist_ok=True)
        for file in files:
            old, new = os.path.join(directory, file), os.path.join(there, file)
            try:
                (shutil.copy2 if file == WRITTEN_INTO else os.link)(old, new)
            except OSError:
                shutil.copy2(old, new)


def manifest(directory):
    """What tells a file that was written anew, by its path."""
    found = {}
    for here, _, files in os.walk(directory):
        for file in files:
            about = os.stat(os.path.join(here, file))
            found[os.path.relpath(os.path.join(here, file), directory)] = (about.st_ino, about.st_size, about.st_mtime_ns)
    return found


class Copy:
    """A copy of the crates, where edits are tried."""

    def __init__(self, directory):
        self.directory, self.kept = directory, {}
        shutil.copytree(os.path.join(ROOT, "crates"), os.path.join(directory, "crates"), ignore=shutil.ignore_patterns("out"))
        shutil.copy(os.path.join(ROOT, "crates.txt"), directory)

    def out(self, crate, *parts):
        return os.path.join(self.directory, "crates", crate, "out", *parts)

    def take(self, crate, part, root):
        """What a check under that root left of a crate: its library (rlib), or what it kept of its modules (incremental)."""
        there = os.path.join(root, "crates", crate, "out", part)
        if os.path.isdir(there) and not os.path.isdir(self.out(crate, part)):
            link_tree(there, self.out(crate, part))

    def keep(self, crate):
        """From here on put_back gives this state of what is kept of the crate's modules."""
        link_tree(self.out(crate, "incremental"), os.path.join(self.directory, "kept", crate))
        self.kept[crate] = manifest(self.out(crate, "incremental"))

    def put_back(self, crate):
        """rt check writes a module's file anew and never into the old one, so that the kept links have the old ones. (What it notes for checks in other
        places, under -offers, is no module's.)"""
        now, kept = manifest(self.out(crate, "incremental")), self.kept[crate]
        for file, (node, size, _) in now.items():
            if file not in kept:
                os.unlink(self.out(crate, "incremental", file))
            elif os.path.basename(file) == WRITTEN_INTO:
                shutil.copy2(os.path.join(self.directory, "kept", crate, file), self.out(crate, "incremental", file))
            elif node == kept[file][0] and now[file] != kept[file] and size and "-offers" not in file:
                raise RuntimeError("rt check wrote into %s in place: it cannot be put back" % file)
        for file, (node, _, _) in kept.items():
            if now.get(file, (0,))[0] != node:
                if file in now:
                    os.unlink(self.out(crate, "incremental", file))
                os.makedirs(os.path.dirname(self.out(crate, "incremental", file)), exist_ok=True)
                os.link(os.path.join(self.directory, "kept", crate, file), self.out(crate, "incremental", file))

    def check(self, crate):
        """rt check of a crate: its status, what it says, its processor time, its memory."""
        process = subprocess.Popen(["rt", "check"], cwd=os.path.join(self.directory, "crates", crate), stdout=subprocess.PIPE,
                                   stderr=subprocess.STDOUT, stdin=subprocess.DEVNULL, start_new_session=True)
        RUNNING.add(process)
        with process.stdout as output:
            text = output.read().decode(errors="replace")
        _, status, used = os.wait4(process.pid, 0)
        RUNNING.discard(process)
        process.returncode = os.waitstatus_to_exitcode(status)
        return Checked(process.returncode, text, used.ru_utime + used.ru_stime, used.ru_maxrss // 1024)

    def tried(self, group):
        """What the check says of the crate with these edits."""
        texts = {}
        for edit in group:
            texts = edit.applied(self.directory, texts)
        before = {path: read_text(path) for path in texts}
        for path, text in texts.items():
            write_text(path, text)
        try:
            return self.check(group[0].crate)
        finally:
            for path, text in before.items():
                write_text(path, text)
            self.put_back(group[0].crate)


# Running

class Run:
    """One call of the command: its copies, and what passed and failed."""

    def __init__(self, options, directory):
        self.options = options
        self.copies = [Copy(os.path.join(directory, str(at))) for at in range(options.jobs)]
        self.passed = self.failed = self.seconds = self.megabytes = 0

    def ready(self, crate, below):
        """Whether the crate as it is is proved, with its cache in every copy."""
        first = self.copies[0]
        for each in below:
            first.take(each, "rlib", ROOT)
        first.take(crate, "incremental", ROOT)
        checked = first.check(crate)
        self.megabytes = max(self.megabytes, checked.megabytes)
        modules = re.findall("^crate %s: modules loaded=([0-9]+) checked=([0-9]+)" % crate, checked.text, re.M)
        if checked.status != 0 or not re.search("^logic=proved", checked.text, re.M):
            print("%s: as it is it is not proved (status %d)\n%s" % (crate, checked.status, "\n".join(checked.text.splitlines()[-12:])))
            return False
        print("%s: proved as it is, %s modules checked (%d s)" % (crate, modules[0][1] if modules else "?", checked.seconds), flush=True)
        first.keep(crate)
        for other in self.copies[1:]:
            for each in below:
                other.take(each, "rlib", first.directory)
            other.take(crate, "incremental", first.directory)
            other.keep(crate)
        return True

    def crate(self, crate, below, edits):
        if not self.ready(crate, below):
            self.failed += len(edits)
            return
        waiting = queue.SimpleQueue()
        for group in grouped(edits, self.options.together):
            waiting.put(group)
        with concurrent.futures.ThreadPoolExecutor(len(self.copies)) as pool:
            told = [pool.submit(self.work, copy, waiting) for copy in self.copies]
        for each in told:
            each.result()

    def work(self, copy, waiting):
        """Tries edits until none is left."""
        while not STOPPED.is_set():
            try:
                group = waiting.get_nowait()
            except queue.Empty:
                return
            left = self.told(group, self.tried(copy, group))
            for edit in left:
                self.told([edit], self.tried(copy, [edit]))

    def tried(self, copy, group):
        checked = copy.tried(group)
        self.seconds += checked.seconds
        self.megabytes = max(self.megabytes, checked.megabytes)
        return checked

    def told(self, group, checked):
        """Tells what came of each edit; gives those that are to be tried alone."""
        left = []
        for edit in group:
            fault = fault_of(edit, checked)
            if fault and len(group) > 1:
                left.append(edit)
                continue
            if self.options.logs:
                os.makedirs(os.path.join(self.options.logs, edit.crate), exist_ok=True)
                write_text(os.path.join(self.options.logs, edit.crate, edit.name + ".log"), checked.text)
            self.tell(edit, fault, checked, len(group) - 1)
        return left

    def tell(self, edit, fault, checked, others):
        self.passed += fault is None
        self.failed += fault is not None
        good = "told as %s" % edit.wanted if edit.wanted else "refused at " + ", ".join("%s %s" % fact[:2] for fact in edit.facts)
        with_others = ", with %d others" % others if others else ""
        print("%s/%s: %s (%d s%s)" % (edit.crate, edit.name, fault or good, checked.seconds, with_others), flush=True)


# The page

def row(edit):
    facts = "; ".join("`%s`, `%s`%s" % (fact.place, fact.name, ": " + fact.words if fact.words else "") for fact in edit.facts)
    return "| `%s` | %s | %s | %s |" % (edit.name, edit.program, edit.promise, facts)


def table(crate, kinds, edits):
    own = [edit for edit in edits.values() if edit.crate == crate and edit.kind in kinds and not edit.wanted]
    rows = sorted(own, key=lambda edit: edit.name)
    return "\n".join(["| Edit | The wrong program | Promise | Fact that refuses it |", "|---|---|---|---|"] + list(map(row, rows)))


def page_of(text, edits):
    """The page with its tables anew: a line <!-- CRATE KIND --> stands before each, an empty line behind it."""
    def replaced(found):
        crate, *kinds = found.group(2).split()
        return found.group(1) + table(crate, kinds, edits) + "\n"
    return re.sub(r"(<!-- ([a-z_ ]+) -->\n)(?:\|.*\n)*", replaced, text)


def names_in(text):
    """What the tables of a page have in the columns that name edits."""
    columns = None
    for line in text.splitlines():
        cells = [cell.strip() for cell in line.split("|")] if line.startswith("|") else []
        if not cells:
            columns = None
        elif columns is None:
            columns = [at for at, cell in enumerate(cells) if cell in COLUMNS]
        else:
            for at in columns:
                yield from re.findall("`([a-z0-9_]+)`", cells[at])


def page_faults(edits, crates):
    """What is wrong with the pages that name edits."""
    if read_text(PAGE) != page_of(read_text(PAGE), edits):
        yield PAGE, "its tables are not those of the edits: --tables writes them"
    for page in NAMING:
        lost = [name for name in names_in(read_text(page)) if name not in edits and name not in crates]
        if lost:
            yield page, "there is no edit " + ", ".join(lost)


def main():
    parser = argparse.ArgumentParser(description=__doc__, formatter_class=argparse.RawDescriptionHelpFormatter)
    parser.add_argument("names", nargs="*", metavar="NAME")
    parser.add_argument("--list", action="store_true")
    parser.add_argument("--tables", action="store_true")
    parser.add_argument("--jobs", type=int, default=1, choices=(1, 2, 3, 4), help="how many are tried at a time (1)")
    parser.add_argument("--together", type=int, default=1, metavar="N", help="how many edits of the code may share a check (1)")
    parser.add_argument("--work", metavar="DIR", help="where the copies are made, for the time of the run (the system's)")
    parser.add_argument("--logs", metavar="DIR", help="keep there what the check said of each edit")
    options = parser.parse_args()
    crates = dependencies()
    edits, wrong = edits_of(crates)
    if options.tables:
        write_text(PAGE, page_of(read_text(PAGE), edits))
        return 0
    mine = [edit for edit in chosen(options.names, edits, crates) if "%s/%s" % (edit.crate, edit.name) not in wrong]
    wrong = {name: fault for name, fault in wrong.items() if not options.names or set(name.split("/")) & set(options.names)}
    for name, fault in wrong.items():
        print("%s: BAD EDIT: %s" % (name, fault))
    if not options.names:
        pages = dict(page_faults(edits, crates))
        for name, fault in pages.items():
            print("%s: %s" % (os.path.relpath(name, ROOT), fault))
        wrong.update(pages)
    passed, failed = (len(mine), 0) if options.list else tried(options, crates, mine)
    print("%d passed, %d failed" % (passed, failed + len(wrong)))
    return 1 if failed or wrong else 0


def tried(options, crates, edits):
    for each in (signal.SIGTERM, signal.SIGINT):
        signal.signal(each, stop)
    with tempfile.TemporaryDirectory(prefix="must-fail-", dir=options.work) as directory:
        run = Run(options, directory)
        for crate, below in crates.items():
            own = [edit for edit in edits if edit.crate == crate]
            if own:
                run.crate(crate, below, own)
    print("%d edits in %d s of processor time, at most %d MB" % (len(edits), run.seconds, run.megabytes))
    return run.passed, run.failed


if __name__ == "__main__":
    sys.exit(main())
