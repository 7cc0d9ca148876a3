"""The table that bench/run prints, which is that of docs/PERFORMANCE.md."""

import datetime
import hashlib
import os

HEAD = ("Row", "Work", "Input", "Program", "Peer", "Limit", "Memory", "Figure", "Wanted", "Within")
COUNTED = ("Row", "Program, M instructions", "Peer", "Limit", "Program to peer")


def line(cells):
    """A line of a Markdown table."""
    return f"| {' | '.join(cells)} |"


def head(cells):
    """The head of a Markdown table."""
    return line(cells) + "\n|" + "---|" * len(cells)


def figure_text(value, unit):
    """A figure with its unit."""
    if unit == "%":
        return f"{value:.0f} %"
    if unit == "M":
        return f"{value:,.0f} M instructions"
    return f"{value:.2f} of {unit}" if unit in ("peer", "original", "off line", "without", "upgrade") else f"{value:.1f} × {unit}"


def verdict(row, result, is_judged):
    """Whether a row is within what is wanted of it."""
    wanted = row.target(result)[1]
    if wanted is None or not is_judged:
        return ""
    if result.figure is None:
        return "not measured"
    return "yes" if result.figure <= wanted else "no"


def row_text(row, result, is_judged):
    """The line of a row."""
    seconds = {name: f"{cost.seconds:.4f} s" if cost.seconds < 0.01 else f"{cost.seconds:.3f} s"
               for name, cost in result.costs.items()}
    own, (unit, wanted) = result.costs["program"], row.target(result)
    return line([
        f"`{row.name}`", row.work, "; ".join(filter(None, (result.size, result.note))), seconds["program"],
        seconds.get("peer", ""), seconds.get("limit", ""), f"{own.kilobytes / 1000:.1f} MB",
        "" if result.figure is None else figure_text(result.figure, unit),
        figure_text(wanted, unit) if wanted and is_judged else "",
        verdict(row, result, is_judged)])


def counted_text(row, room, result):
    """The line of a row with the instructions of each program."""
    names = ("program", "peer", "limit")
    counts = [room.instructions(name, result.job) if result.job else None for name in names]
    own, peer, _ = counts
    return line([f"`{row.name}`", *("" if it is None else f"{it / 1e6:,.1f}" for it in counts),
                 f"{own / peer:.2f}" if own and peer else ""])


def machine():
    """A description of the machine."""
    model = "a processor"
    if os.path.exists("/proc/cpuinfo"):
        with open("/proc/cpuinfo", encoding="utf-8") as file:
            names = [text.partition(":")[2].strip() for text in file if text.startswith("model name")]
        model = names[0] if names else model
    return f"{os.cpu_count()} × {model}"


def circumstances(program, rounds):
    """What a figure has to be read with: the day, the machine, its load, the rounds, and the program's
    checksum."""
    with open(program, "rb") as file:
        checksum = hashlib.sha256(file.read()).hexdigest()[:12]
    load = " ".join(f"{value:.1f}" for value in os.getloadavg())
    now = datetime.datetime.now().strftime("%Y-%m-%d %H:%M")
    return f"{now}, {machine()}, load {load}, least of {rounds} rounds, program {checksum}"
