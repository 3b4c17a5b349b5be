"""What each crate takes of the gate, in table seconds, by the file tools/gate-budget: a run compared with it, what is left of a run, and the
table of docs/CONTRIBUTING.md."""
import os
import re
import statistics
import sys

from common import TOP, crates

FILE = f"{TOP}/tools/gate-budget"
PAGE = f"{TOP}/docs/CONTRIBUTING.md"
KINDS = ("proof", "tests", "edits")
ABOUT = """\
# What each crate took of the gate when that was read last, in table seconds: its proof, its tests, its edits of must-fail/. `tools/gate-times
# --budget --write` writes this file and the table of docs/CONTRIBUTING.md. The seconds of a run are divided by its machine's factor: what those of
# the crates after `factor` that it proves take there together, by their rows here.
"""
HEAD = "| Seconds | Crates |\n|---|---|\n"
# From how many seconds on a group of the table is.
GROUPS = (500, 300, 200, 100, 0)
# How many crates tell a factor if none of those do that are there for it.
MANY = 5


def of_row(row, kinds=KINDS):
    return sum(row.get(kind, 0) for kind in kinds)


class Budget:
    def __init__(self, rows=None, by=()):
        self.rows, self.by = rows or {}, list(by)

    @classmethod
    def read(cls):
        found = cls()
        with open(FILE, encoding="utf-8") as it:
            for line in it:
                words = line.partition("#")[0].split()
                if words[:1] == ["factor"]:
                    found.by = words[1:]
                elif words:
                    found.rows[words[0]] = dict(zip(KINDS, map(int, words[1:])))
        return found

    def write(self):
        rows = [f"{name} {' '.join(str(row[kind]) for kind in KINDS)}\n" for name, row in self.rows.items()]
        with open(FILE, "w", encoding="utf-8") as it:
            it.writelines([ABOUT, f"factor {' '.join(self.by)}\n", *rows])

    def of(self, name, kind):
        return self.rows.get(name, {}).get(kind, 0)

    def warn(self, below):
        """Says which rows are of no crate."""
        unknown = [it for it in self.rows if it not in below]
        if unknown:
            print(f"gate-times: crates.txt has no line for {', '.join(unknown)} of tools/gate-budget", file=sys.stderr)

    def factor(self, table):
        """A machine's factor by what a run took there, or None, and what to say of it."""
        took, has = {}, {}
        for name, row in self.rows.items():
            kinds = [kind for kind in KINDS if row[kind] and table.get(name, {}).get(kind)]
            if kinds:
                took[name], has[name] = of_row(table[name], kinds), of_row(row, kinds)
        told = [it for it in self.by if it in took]
        if told:
            seconds, rows = sum(took[it] for it in told), sum(has[it] for it in told)
            each = f" ({', '.join(f'{it} {took[it] / has[it]:.2f}' for it in told)})" if len(told) > 1 else ""
            others = [it for it in self.by if it not in told]
            lacks = f"{', '.join(others)} {'was' if len(others) == 1 else 'were'} not proved in this run. " if others else ""
            return seconds / rows, f"{lacks}{', '.join(told)} took {seconds:,.0f} seconds, and have {rows:,}: the factor is {seconds / rows:.2f}{each}."
        if len(took) >= MANY:
            found = statistics.median(took[it] / has[it] for it in took)
            return found, f"{', '.join(self.by)} were not proved in this run: the factor is {found:.2f}, the middle one of {len(took)} crates."
        return None, f"This run has no factor: of the crates that tell it, {', '.join(self.by)}, none was proved."

    def with_run(self, table, factor, below):
        """The budget as a run leaves it: rows that it took anew, in table seconds, and those that it kept, of the crates that there are."""
        part = lambda name, kind: table.get(name, {}).get(kind, 0)
        taken = lambda name, kind: max(round(part(name, kind) / factor), 1) if part(name, kind) else self.of(name, kind)
        return Budget({name: {kind: taken(name, kind) for kind in KINDS} for name in below}, self.by)

    def compared(self, table, below):
        """Lines that say how a run compares with the budget."""
        factor, said = self.factor(table)
        yield said
        if not factor:
            return
        run, over = self.with_run(table, factor, below), []
        for name in [it for it in below if it in table and it in self.rows]:
            kinds = [kind for kind in KINDS if table[name][kind]]
            more = of_row(run.rows[name], kinds) - of_row(self.rows[name], kinds)
            if more > max(3, of_row(self.rows[name], kinds) / 10):
                over.append(f"{name} by {more} ({of_row(run.rows[name], kinds)} of {of_row(self.rows[name], kinds)})")
        new = [f"{name} {of_row(run.rows[name])}" for name in below if name in table and name not in self.rows]
        kept = sum(run.of(name, kind) for name in below for kind in KINDS if not table.get(name, {}).get(kind))
        total, seconds = sum(map(of_row, run.rows.values())), sum(of_row(row) for name, row in self.rows.items() if name in below)
        yield f"In table seconds all crates take {total:,} of a budget of {seconds:,}" + (f"; {kept:,} of them weren't done in this run." if kept else ".")
        chain, budget = (sum(it[1] for it in longest_chain(rows, below)) / 60 for rows in (run.rows, self.rows))
        yield f"The longest chain takes {chain:.1f} table minutes of {budget:.1f}."
        yield f"Over budget, by more than a tenth and 3 seconds: {', '.join(over) or 'no crate'}."
        if new:
            yield f"tools/gate-budget has no row for {', '.join(new)}."

    def page(self, below):
        """The table of docs/CONTRIBUTING.md."""
        rows = {name: of_row(self.rows.get(name, {})) for name in below}
        dearest = sorted(rows, key=lambda it: -rows[it])
        listed = lambda names: ", ".join(f"`{it}` {rows[it]:,}" for it in names)
        found, most = [], None
        for least in GROUPS:
            label = f"{least} and more" if most is None else f"{least} to {most}" if least else f"below {most}"
            group = [it for it in dearest if max(least, 1) <= rows[it] < (most or 1e9) and not it.endswith("_tests")]
            found += [(label, listed(group))] if group else []
            most = least
        tests = [it for it in dearest if rows[it] and it.endswith("_tests")]
        found += [("tests", listed(tests))] if tests else []
        new = [it for it in below if not rows[it]]
        found += [("not counted", ", ".join(f"`{it}`" for it in new))] if new else []
        chain = [it for it in longest_chain(self.rows, below) if it[1]]
        told = ", ".join(f"{name} {seconds:,}" for name, seconds in chain)
        found += [("all", f"{sum(rows.values()):,}"), ("the longest chain", f"{sum(it[1] for it in chain) / 60:.1f} minutes: {told}")]
        return HEAD + "".join(f"| {label} | {names} |\n" for label, names in found)

    def left(self, below, done, running, lanes, pace):
        """About how many seconds of the clock a run still takes: what its lanes share and its longest chain both bound it. done are the
        tasks that have ended, running those at work with the seconds for which they are, and pace the seconds of the clock a table second."""
        rest = lambda name, kind: 0 if (name, kind) in done else max(self.of(name, kind) * pace - running.get((name, kind), 0), 0)
        rows = {name: {kind: rest(name, kind) for kind in KINDS} for name in below}
        return max(sum(map(of_row, rows.values())) / lanes, sum(it[1] for it in longest_chain(rows, below)))


def longest_chain(table, below):
    """The tasks that wait for one another longest, first to last, each with its seconds: no number of processors ends the gate sooner.
    Tests wait for the proofs below, edits for the crate's own proof and tests."""
    chains = {}
    seconds = lambda name, kind: table.get(name, {}).get(kind, 0)
    total = lambda chain: sum(it[1] for it in chain)

    def before(name):
        return max((proofs(it) for it in below[name] if it in below), key=total, default=[])

    def proofs(name):
        if name not in chains:
            chains[name] = [*before(name), (f"`{name}`", seconds(name, "proof"))]
        return chains[name]

    def whole(name):
        tests = [*before(name), (f"`{name}` (tests)", seconds(name, "tests"))]
        chain = max(proofs(name), tests, key=total)
        return [*chain, (f"`{name}` (edits)", seconds(name, "edits"))] if seconds(name, "edits") else chain

    return max(map(whole, below), key=total, default=[])


def write_page(check):
    """Writes the table of docs/CONTRIBUTING.md, which begins with its head, or looks whether it is this. Returns the exit status."""
    budget, below = Budget.read(), crates()
    budget.warn(below)
    with open(PAGE, encoding="utf-8") as it:
        text = it.read()
    found = re.findall(rf"{re.escape(HEAD)}(?:\|.*\n)*", text)
    if len(found) != 1:
        print(f"gate-times: {os.path.relpath(PAGE, TOP)} has {len(found)} tables that begin with {HEAD.splitlines()[0]}", file=sys.stderr)
        return 1
    written = text.replace(found[0], budget.page(below))
    if written == text:
        return 0
    if check:
        print("gate-times: the table of docs/CONTRIBUTING.md isn't that of tools/gate-budget: run tools/gate-times --budget --write", file=sys.stderr)
        return 1
    with open(PAGE, "w", encoding="utf-8") as it:
        it.write(written)
    return 0
