"""Figures of the loop in the text format that node_exporter's textfile collector reads."""
import os

HELP = {
    "last_cycle_timestamp_seconds": ("gauge", "When the last cycle ended well."),
    "last_try_timestamp_seconds": ("gauge", "When the last cycle ended, well or not."),
    "cycle_duration_seconds": ("gauge", "How long the last cycle took."),
    "cycles_total": ("counter", "Cycles since the loop started, by how they ended."),
    "greedy_cycles_total": ("counter", "Cycles since the loop started whose plan is greedy since the search took too long."),
    "jobs": ("gauge", "Pending jobs of the last cycle, by what becomes of them."),
    "orders_total": ("counter", "Orders that were given since the loop started."),
    "order_failures_total": ("counter", "Orders since the loop started that Slurm refused, or whose job had changed."),
    "taken_back_total": ("counter", "Orders since the loop started that came to nothing and were taken back."),
    "handed_over_total": ("counter", "Jobs that were handed over to Slurm since the loop started."),
    "plan_value": ("gauge", "What the last plan is worth."),
    "plan_bound": ("gauge", "What no plan of that cycle is worth more than."),
    "log_bytes": ("gauge", "Size of the cycles that are kept."),
}
PREFIX = "tetri_slurm_"


def text(values):
    """The file of metrics. A value is a number, or numbers by a label's value under (label, {value: number})."""
    lines = []
    for name, (kind, told) in HELP.items():
        if name not in values:
            continue
        lines += [f"# HELP {PREFIX}{name} {told}", f"# TYPE {PREFIX}{name} {kind}"]
        value = values[name]
        if isinstance(value, tuple):
            label, numbers = value
            lines += [f'{PREFIX}{name}{{{label}="{it}"}} {_number(count)}' for it, count in sorted(numbers.items())]
        else:
            lines.append(f"{PREFIX}{name} {_number(value)}")
    return "\n".join(lines) + "\n"


def _number(value):
    return str(value) if isinstance(value, int) else f"{value:.3f}"


def write(path, values):
    """Puts the file in the place of the last one at once, so that a collector never reads half of it."""
    fresh = f"{path}.{os.getpid()}.new"
    try:
        with open(os.open(fresh, os.O_WRONLY | os.O_CREAT | os.O_TRUNC | os.O_NOFOLLOW, 0o644), "w", encoding="ascii") as file:
            file.write(text(values))
        os.rename(fresh, path)
    except OSError:
        try:
            os.unlink(fresh)
        except OSError:
            pass
        raise
