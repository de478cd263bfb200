"""Computes the page that `report` should write; like the text of a report, it is computed by the Python in reference/.
tests/reports.py compares it with what the program writes.

The styles of the page are taken from the source of the program, where they are a single text in the same spelling as on
the page.
"""
import datetime
import itertools
import re
from pathlib import Path

import sets
from reports import ADDRESS, BEGIN, END, Report, all_of_fact, may_write, shown

STYLE = Path(__file__).parent.parent / "crates" / "reports" / "src" / "style.rt"
MOST_SAME = 8
LARGER = (" If the count were larger, the pointer would go further; if the program could then write outside its variables, the "
          "verdict would be no (V5).")
DIRECT = re.compile(r"(AND|TAD|ISZ|DCA|JMS|JMP) [ZC][0-7]{3}$")


def constant(name):
    text = re.search(rf'const {name}: &\[u8\] =\s+b"(.*)";\n', STYLE.read_text("utf-8"))[1]
    return text.replace("\\n", "\n").replace('\\"', '"')


def sum_and_date(path):
    """What is said about a file: its name, the sum of its bytes, and the day of its last change."""
    day = datetime.datetime.fromtimestamp(path.stat().st_mtime, datetime.timezone.utc).date()
    return f"{path}, sum {sum(path.read_bytes()) % 65536:06o}, changed {day}"


def escaped(text):
    for sign, name in (("&", "&amp;"), ("<", "&lt;"), (">", "&gt;"), ('"', "&quot;"), ("'", "&#39;")):
        text = text.replace(sign, name)
    return text


def circle(at, top, kind, size):
    return f"<circle class={kind} cx={34 + 10 * (at % 64) + 5} cy={top + 5} r={size} />"


def square(at, top, kind):
    return f"<rect class={kind} x={34 + 10 * (at % 64)} y={top} width=9 height=9 />"


def point(text, members):
    return f"<li>{text}{shown(members, ADDRESS) if members else 'none'}\n"


def asserted(said):
    """The line about something that is declared to hold: at an address, or when a routine returns."""
    words = (f"{min(said.words)}" if said.subject == "link" else shown(sets.of(said.words)))
    what = {"ac": "AC", "mq": "MQ", "link": "the link"}.get(said.subject) or "the cell " + ADDRESS.format(said.subject)
    by = "" if said.offsets is None or len(said.offsets) == 64 else " by " + ",".join(f"{it:o}" for it in sorted(said.offsets))
    where = (f"whenever control is at {shown(sets.of(said.places), ADDRESS)}" if said.entry is None
             else f"whenever the routine {ADDRESS.format(said.entry)} returns{by}")
    return f"<li>{where}, {what} is {'' if len(said.words) == 1 else 'one of '}{words}\n"


class Page(Report):
    """A report as a page."""

    def page(self, front, files):
        line, why = front.partition("\n")[::2]
        self.rows = set(self.lines())
        said = ("yes", self.yes()) if self.refused is None else ("no", self.no(why))
        name = escaped(files[0].stem)
        parts = [constant("FRONT"), name, constant("STYLE"), f"{name}</p>\n<h1>", line]
        parts += [f"\n</h1>\n<p class={said[0]}>", said[1]]
        parts.append("<p>Files: " + escaped("; ".join(map(sum_and_date, files))) + escaped(
            ". A sum is that of the file's bytes, in octal, modulo 200000; a date is that of its last change, in UTC.") + "</p>\n")
        parts.append("<p>A declaration says where the program starts and may halt, which cells are its instructions, which it may "
                     "write, and which routines it has. A certificate says what holds before each instruction, so that compliance "
                     "with the declaration can be checked.</p>\n")
        parts.append("<p>On this page: <a href=#memory>memory</a>, <a href=#routines>routines</a>, "
                     "<a href=#variables>variables</a>, <a href=#listing>listing</a>.</p>\n")
        parts += [self.map(), self.graph(), self.variables(), self.guide(), self.table(), "</table>\n</body>\n</html>\n"]
        return re.sub(f"{BEGIN}([0-7]*){END}", self.link, "".join(parts))

    def link(self, found):
        address = found[1]
        return f"<a href=#a{address}>{address}</a>" if int(address, 8) in self.rows else address

    def has_line(self, at):
        if self.kind(at)[0] == "unset":
            return at in self.certificate.facts or self.is_refused_at(at)
        return at == 0 or not self.is_quiet(at) or not self.is_quiet(at - 1)

    def lines(self):
        return [at for at in range(4096) if self.has_line(at)]

    # What the verdict means

    def yes(self):
        it = self.declared
        bodies = sets.of(set(it.main).union(*(body for body, _ in it.routines.values())))
        reads = ("<li>any cell may be read: the declaration has no list of reads\n" if it.reads is None
                 else point("only these cells and the entry of the running routine are read: ", sets.of(it.reads)))
        return "".join((
            f"Proved: no run violates the declaration. This holds for <b>every</b> run on a PDP-8/{'E' if it.profile == '8e' else 'I'} that starts at ",
            ADDRESS.format(it.start), " with these words in memory, whatever all other cells, AC, the link and MQ hold, ",
            "and whenever keys and tape frames come, devices complete and switches change:</p>\n<ul>\n",
            point("only these cells are executed: ", bodies),
            point("only these cells, the variables, are written: ", sets.of(it.variables)),
            point("and these entries, by the JMS that calls the routine or by an ISZ of the routine that skips an argument: ", sets.of(set(it.routines))),
            point("of these, a routine itself may store its return word, by a DCA, only in: ", sets.of(it.moves)) if it.moves else "",
            reads, point("each return reaches a declared place after its own call, or all calls are abandoned for a declared place: ",
                         sets.of(it.abandons)) if it.abandons
            else "<li>each routine returns to the address after its own call plus a declared offset\n",
            point("if it halts, it halts only at: ", sets.of(set(it.stops) | set(it.pauses))),
            point("of these, CONTINUE may be pressed only at: ", sets.of(it.pauses)), *map(asserted, sorted(it.asserted, key=lambda said: said.entry is not None)), "</ul>\n",
            "<p>It is not proved that the program ends, that it prints or computes what was intended, or that the declaration is a sensible one: "
            "if all cells may be written, a yes says little.</p>\n"))

    def no(self, why):
        return ("This certificate shows nothing. A condition on it fails at " + ADDRESS.format(self.refused[1])
                + ", which is marked below. The program may comply with its declaration all the same. Everything below is what the "
                f"certificate claims, and it may be wrong.</p>\n<pre>{escaped(why)}</pre>\n")

    # Memory

    def colour(self, entry):
        return f"r{list(self.declared.routines).index(entry) % 6}"

    def map(self):
        tops, empty, height = self.rows_of_map()
        parts = [f'<h2 id=memory>Memory, addresses in octal</h2>\n<svg viewBox="0 0 680 {height + 20}" width=680 role=img aria-label="map of memory">\n'
                 f"<rect class=u x=34 y=14 width=640 height={height} />\n"]
        parts += [f"<text x=4 y={top + 8}>{64 * row:04o}</text>" for row, top in tops.items()]
        parts += [f"<text x=4 y={top + 8}>{128 * first:04o}-{128 * last + 127:04o}: nothing</text>" for first, last, top in empty]
        parts += [f"<text x={34 + 80 * column} y=10>+{10 * column}</text>" for column in range(8)]
        parts.append("\n")
        line = 0
        for at in range(4096):
            line = at if at in self.rows else line
            if self.kind(at)[0] != "unset" or self.is_refused_at(at):
                parts.append(f"<a href=#a{line:04o}>{self.title(at)}{self.cell(at)}</a>\n")
        parts += ["</svg>\n<p>", '<span class="k m"></span>main\n']
        parts += [f'<span class="k {self.colour(entry)}"></span>routine {ADDRESS.format(entry)}\n' for entry in self.declared.routines]
        parts.append('<span class="k e"></span>entry of a routine\n<span class="k v"></span>variable\n'
                     '<span class="k o"></span>other word of the tape\n'
                     "<br>A red ring is a declared halt, a black frame the start, a yellow dot a variable among instructions, a red "
                     "frame the place of a no. Each row has 0100 cells; consecutive pages of memory in which nothing stands are one row. A cell leads to its line of the "
                     "listing.</p>\n")
        return "".join(parts)

    def rows_of_map(self):
        """The upper edge of each row that is drawn, the runs of empty pages with the edge of their row, and the height of the whole."""
        full = {at >> 7 for at in range(4096) if self.kind(at)[0] != "unset" or self.is_refused_at(at)}
        tops, empty, top = {}, [], 14
        for page, runs in itertools.groupby(range(32), lambda page: page if page in full else -1):
            runs = list(runs)
            if page in full:
                tops |= {2 * page: top, 2 * page + 1: top + 10}
                top += 20
            else:
                empty.append((runs[0], runs[-1], top))
                top += 10
        self.tops = tops
        return tops, empty, top - 14

    def top(self, at):
        return self.tops[at // 64]

    def is_code(self, at):
        return self.kind(at)[0] == "body" or at in self.certificate.facts

    def title(self, at):
        kind, owner = self.kind(at)
        text = {"body": "main" if owner is None else f"routine {owner:04o}", "other": "other word"}.get(kind, kind)
        if at in self.image:
            text += f": {self.image[at]:04o}" + (" " + escaped(self.names[at]) if self.is_code(at) else "")
        return f"<title>{at:04o} {text}</title>"

    def cell(self, at):
        kind, owner = self.kind(at)
        body = "m" if kind == "body" and owner is None else self.colour(owner) if kind == "body" else kind[0]
        top = self.top(at)
        marks = [square(at, top, body)]
        if at in self.declared.variables and kind != "variable":
            marks.append(circle(at, top, "w", "2.5"))
        if at in self.declared.stops or at in self.declared.pauses:
            marks.append(circle(at, top, "h", "3"))
        if at == self.declared.start:
            marks.append(square(at, top, "s"))
        if self.is_refused_at(at):
            marks.append(square(at, top, '"s bad"'))
        return "".join(marks)

    # Routines

    def graph(self):
        routines, claims = self.declared.routines, self.certificate.routines
        if not routines:
            return "<h2 id=routines>Routines, addresses in octal and ranks in decimal</h2>\n<p>There are none: everything is main.</p>\n"
        rank = {entry: claims[entry].rank if entry in claims else 0 for entry in routines}
        places = {entry: place for place, entry in enumerate([None, *sorted(routines, key=lambda it: -rank[it])])}
        width, height = 150 + 24 * len(routines), 60 * len(routines) + 50
        parts = [f'<h2 id=routines>Routines, addresses in octal and ranks in decimal</h2>\n<svg role=img aria-label="graph of calls" width={width} viewBox="0 0 {width} {height}">\n']
        for entry in routines:
            owners = {self.judge.owner(site) for site in sets.words(claims[entry].sites)} if entry in claims else set()
            parts += [self.arrow(places[caller], places[entry]) for caller in [None, *routines] if caller in owners]
        parts.append(self.box(0, "m", "main"))
        for entry in routines:
            parts.append(f"<a href=#a{entry:04o}>{self.box(places[entry], self.colour(entry), f'{entry:04o}')}</a>")
        parts.append("</svg>\n<p>An arc leads from a caller down to what it calls. ")
        parts.append("Ranks fall from caller to callee, so no routine is called again before it has returned." if self.refused is None
                     else "Ranks should fall from caller to callee; this certificate does not show that they do.")
        parts.append("</p>\n<table>\n<tr><th>entry<th>rank<th>called from<th>the routine and what it calls may write"
                     "<th>words skipped after the call when it returns\n")
        for entry in routines:
            offsets = self.declared.offsets(entry)
            line = claims.get(entry)
            said = ("<td colspan=3>nothing is claimed about it" if line is None
                    else f"<td>{line.rank}<td>{shown(line.sites, ADDRESS)}<td>{may_write(line)}")
            parts.append(f"<tr><td>{ADDRESS.format(entry)}{said}<td>{','.join(f'{offset:o}' for offset in sorted(offsets)) or '-'}\n")
        return "".join(parts) + "</table>\n"

    @staticmethod
    def arrow(caller, callee):
        start, end, aside = 60 * caller + 33, 60 * callee + 17, 130 + 24 * abs(caller - callee)
        return f'<path class=l d="M130 {start}C{aside} {start} {aside} {end} 130 {end}" />'

    @staticmethod
    def box(place, kind, name):
        top = 60 * place + 5
        return (f"<rect class=b width=120 height=40 x=10 y={top} /><rect width=10 height=40 class={kind} x=10 y={top} />"
                f"<text class=n x=28 y={top + 24}>{name}</text>\n")

    # Variables

    def variables(self):
        rows = "".join(f"<tr><td>{ADDRESS.format(cell)}<td>{f'{self.image[cell]:04o}' if cell in self.image else '----'}"
                       f"<td>{'; '.join(self.variable(cell))}\n" for cell in sorted(self.known))
        return (f"<h2 id=variables>Variables, in octal</h2>\n<p>The declared variables: {shown(sets.of(self.declared.variables), ADDRESS)}. According to the "
                "certificate, each of the variables below holds one of the words beside it at every address where something is said about "
                f"it; all others may hold any word:</p>\n<table>\n<tr><th>cell<th>on the tape<th>what it may hold\n{rows}</table>\n")

    # The listing

    def guide(self):
        said = ("what is known in every run <b>before</b> it is executed" if self.refused is None
                else "what the certificate claims <b>before</b> it is executed, which is not proved")
        return (f"<h2 id=listing>Listing, in octal</h2>\n<p>Beside each instruction is {said}; what is the same as on the line above is grey, "
                "and if there are more than eight such items, only the number of the others is shown.\n"
                "<code>AC in 0305,0310</code>: the accumulator holds one of these words. "
                "<code>0010 in 0224-0230</code>: the cell 0010 holds one of these words. <code>any</code>: nothing is claimed. "
                "<code>[0010] = [0224] + 0231, so 0224-0230</code>: the word in the cell 0010 is the word in the cell 0224 plus 0231, "
                "modulo 10000; with what is known about both, the cell 0010 holds one of the words after <code>so</code>. If a pointer "
                f"and a count are incremented together, the pointer ends where the count does.{LARGER if self.writes_through() else ''}\n"
                "<code>reads</code>, <code>writes</code>: the cells that the instruction may read through a pointer (the pointer is "
                "one of them), and those that it may write.\n"
                "All numbers are octal, except the numbers of omitted items, which are decimal. <code>TAD Z010</code> names the cell 0010, and <code>TAD C024</code> the cell 024 of the page "
                "of the instruction; after <code>I</code> comes the cell that holds the address, and a cell from 0010 to 0017 is "
                "incremented first. <code>ISZ</code> increments a word, and skips if it is then 0000. <code>JMS</code> stores the "
                "address after it in the cell that it names, the entry of a routine, and continues after that cell; <code>JMP I</code> "
                "through the entry continues at the address that is stored there: it returns.</p>\n<table>\n")

    def writes_through(self):
        """Whether an instruction of the tape writes through a pointer."""
        return any(self.is_code(at) and word & 0o400 and word >> 9 in (2, 3) for at, word in self.image.items())

    @staticmethod
    def of_fact(fact, above, offsets=True):
        items, count = [], 0
        for item, same in all_of_fact(fact, above, offsets):
            count += same
            if not same or count <= MOST_SAME:
                items.append(f"<i>{item}</i>" if same else item)
        return items + ([f"<i>and {count - MOST_SAME} more as above</i>"] if count > MOST_SAME else [])

    def table(self):
        parts, last = [], None
        for at in sorted(self.rows):
            kind = self.kind(at)
            for line in self.heading(at, last):
                parts.append(self.heading_row(line) + "\n")
            last = kind
            parts.append(self.quiet_row(at) if self.is_quiet(at) else self.row(at))
        return "".join(parts)

    @staticmethod
    def heading_row(line):
        if line.startswith("return by "):
            front, items = line[:11], line[11:].lstrip()
            return f"<tr><td colspan=3>{front}<td>{items}"
        return f"<tr><th colspan=4>{line}" if line else ""

    def quiet_row(self, at):
        end = at
        while end < 4095 and self.is_quiet(end + 1):
            end += 1
        run = f"{at:04o}" if at == end else f"{at:04o}-{end:04o}"
        return f"<tr id=a{at:04o}><td colspan=3>{run}<td>any word\n"

    def row(self, at):
        bad = " class=bad" if self.is_refused_at(at) else ""
        word = "----<td>" if at not in self.image else f"{self.image[at]:04o}<td class=c>{self.named(at)}"
        items = "; ".join(self.items(at))
        mark = "".join(f"<b>{'; ' if items else ''}{it}</b>" for it in self.mark(at))
        return f"<tr{bad} id=a{at:04o}><td>{at:04o} <td>{word}<td>{items}{mark}\n"

    def named(self, at):
        if not self.is_code(at):
            return ""
        name = self.names[at]
        if DIRECT.match(name):
            cell = (at & 0o7600 if " C" in name else 0) | int(name[-3:], 8)
            if cell in self.rows:
                return f" <a href=#a{cell:04o}>{escaped(name)}</a>"
        return " " + escaped(name)
