"""A trail as a picture: requests and denials by minute, the failovers that began epochs, and where generations began. Needs pygal."""

from __future__ import annotations

from datetime import datetime

import pygal

from pagelog.trail.question import MINUTE, Summary


def draw(summary: Summary, title: str, file: str) -> None:
    """Writes the picture as SVG. A minute without lines between two others has zeros."""
    counts = summary.by_minute()
    minutes = range(min(counts), max(counts) + 1, MINUTE) if counts else range(0)
    most = max((requests for requests, _ in counts.values()), default=0)
    chart = pygal.Line(
        title=title,
        x_title="minute in which they were seen",
        y_title="lines",
        x_label_rotation=45,
        no_data_text="no lines",
        x_labels_major_count=12,
        show_minor_x_labels=False,
        include_x_axis=True,
        js=[],
    )
    chart.x_labels = [
        datetime.fromtimestamp(minute / 1e6).strftime("%Y-%m-%d %H:%M") for minute in minutes
    ]
    chart.add("requests", [counts.get(minute, (0, 0))[0] for minute in minutes])
    chart.add("denials", [counts.get(minute, (0, 0))[1] for minute in minutes])
    for what, height, begun in (
        ("epoch", most, summary.epochs),
        ("generation", most / 2, summary.generations),
    ):
        if begun:
            labels = _labels(what, begun)
            marks = [
                {"value": height, "label": labels[minute]} if minute in labels else None
                for minute in minutes
            ]
            chart.add(f"{what}s", marks, stroke=False, dots_size=6, print_labels=True)
    chart.render_to_file(file)


def _labels(what: str, begun: list[tuple[int, int]]) -> dict[int, str]:
    """By minute, `epoch 2`, or `epochs 2 to 9`."""
    found: dict[int, list[int]] = {}
    for seen, number in begun:
        found.setdefault(seen // MINUTE * MINUTE, []).append(number)
    return {
        minute: f"{what} {numbers[0]}"
        if len(numbers) == 1
        else f"{what}s {numbers[0]} to {numbers[-1]}"
        for minute, numbers in found.items()
    }
