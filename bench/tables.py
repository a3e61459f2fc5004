"""Writes the tables of docs/BENCHMARKS.md, between its two marks, and prints the rows that miss a target."""

import os
import subprocess

from figures import ROOT, rows

DOCUMENT = ROOT / "docs/BENCHMARKS.md"
BEGIN = "<!-- written by make bench -->\n"
END = "<!-- end -->\n"
TITLES = {
    "feed": "Feed: one list, from an empty slot until it is whole",
    "split": "Split: one list, all its chunks written by one call",
    "chunk by chunk": "Split, chunk by chunk: one list, its chunks counted, and each written by a call of its own",
    "readers": "Readers: one call",
    "growth": "Growth: one feed, by the records that its slot holds before",
    "open lists": "Open lists: one call, by the order of the ticks",
    "turns": "Turns: one chunk handed out, by the lists that wait",
    "files": "Files: one .syx file, all its messages listed",
    "headers": "Headers: one name looked up",
    "tapes": "Tapes: one tape played by the program `tape`",
}


def ns(value):
    if value is None:
        return ""
    if value < 100:
        return f"{value:.1f} ns"
    if value < 10_000:
        return f"{value:,.0f} ns"
    return f"{value / 1000:,.1f} µs" if value < 100_000 else f"{value / 1000:,.0f} µs"


def ms(value):
    return f"{value / 1_000_000:.2f} ms"


def ratio(value):
    return "" if value is None else f"{value:.3f}" if value < 0.1 else f"{value:.2f}"


def count(value):
    return "" if value is None else f"{value:,.0f}"


def marked(value, target, written=ratio):
    return f"**{written(value)}**" if value and target and value > target else written(value)


def cells(row, copies):
    own = [row.label(), marked(row.median["port"], row.time_target(), ns), ns(row.median["rust"]), marked(row.ratio(), row.target())]
    own += [ratio(row.quickest_ratio()), count(row.count.get("port")), count(row.count.get("rust")), ratio(row.count_ratio())]
    return own + [ratio(row.copy_rate()) or marked(row.copies_ratio(), row.copies_target())] if copies else own


def line(words):
    return "| " + " | ".join(words) + " |\n"


def grid(title, head, found):
    rule = ["---"] + ["--:"] * (len(head) - 1)
    return f"### {title}\n\n" + line(head) + line(rule) + "".join(map(line, found))


def table(title, found):
    copies = any("copies" in row.median for row in found)
    port, rust = ("turn", "`split_chunk`") if title == TITLES["turns"] else ("port", "Rust")
    head = ["", port, rust, f"{port} / {rust}", "quickest", f"instructions, {port}", rust, f"{port} / {rust}"]
    last = "share of memcpy's rate" if title == TITLES["files"] else "port / two copies"
    head += [last] if copies else []
    return grid(title, head, [cells(row, copies) for row in found])


def tape_cells(row):
    own = [row.label(), ms(row.median["tape"]), f"{row.tape_rate():,.0f}", ms(row.median["reading"])]
    for side in ("calls", "lines"):
        own += [ms(row.median[side]), ratio(row.by[side]), ratio(row.quickest_ratio(side))]
    return own


def tape_table(title, found):
    head = ["", "tape", "MB/s", "reading alone", "calls from C", "tape / calls", "quickest"]
    head += ["calls and lines from C", "tape / these", "quickest"]
    return grid(title, head, [tape_cells(row) for row in found])


def first_line(*command):
    try:
        return subprocess.run(command, capture_output=True, text=True, check=True).stdout.splitlines()[0]
    except (OSError, subprocess.CalledProcessError, IndexError):
        return f"no {command[0]}"


def machine(counted):
    tools = [first_line(name, "--version") for name in ("rt", "rustc") + (("valgrind",) if counted else ())]
    before = "" if counted else " Instructions as they were counted before, since valgrind was not at hand."
    return f"Measured on {os.cpu_count()} cores, with {', '.join(tools)}.{before}\n"


def missed(found):
    names = [f"- {row.table}, {row.label()}: {ratio(row.ratio())} of the Rust{over_copies(row)}\n" for row in found if row.misses()]
    return "### Rows that miss a target\n\n" + ("".join(names) or "None.\n")


def over_copies(row):
    return f", {ratio(row.copies_ratio())} of two copies" if row.copies_target() else ""


def counts_in(text):
    """The instructions of port and Rust that the tables have now, by table and label."""
    counts, name = {}, None
    for words in text.splitlines():
        if words.startswith("### "):
            name = next((name for name, title in TITLES.items() if words == f"### {title}" and name != "tapes"), None)
        elif name and words.startswith("| ") and not words.startswith("| ---"):
            label, *told = [cell.strip() for cell in words.strip("|").split("|")]
            if label and told[4] and told[5]:
                counts[name, label] = {side: float(cell.replace(",", "")) for side, cell in zip(("port", "rust"), told[4:])}
    return counts


def keep_counts(found, text):
    """Where nothing was counted, the tables keep what they have."""
    kept = counts_in(text)
    for row in found:
        row.count = kept.get((row.table, row.label()), {})


def written(found, counted):
    drawn = {"tapes": tape_table}
    tables = [drawn.get(name, table)(title, [row for row in found if row.table == name]) for name, title in TITLES.items()]
    return "\n".join([machine(counted)] + tables + [missed(found)])


def main():
    found = rows()
    before, rest = DOCUMENT.read_text().split(BEGIN)
    tables, behind = rest.split(END)
    counted = any(row.count for row in found)
    if not counted:
        keep_counts(found, tables)
    DOCUMENT.write_text(before + BEGIN + "\n" + written(found, counted) + "\n" + END + behind)
    print(missed(found).removeprefix("### "), end="")


main()
