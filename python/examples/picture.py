"""Draws the picture of the README: the carbon dioxide of the air at Mauna Loa, from 1958 to 2001.

Usage: python/examples/picture.py [OUT.svg]

The weekly means of `co2.csv` go into a store in memory. The picture has the mean of each quarter
of a year with its band, and over it the readings themselves.
"""

# %% The readings go into a store.
from __future__ import annotations

import csv
import datetime
import sys
import tempfile
from decimal import Decimal
from pathlib import Path

import matplotlib

import summarystore

matplotlib.use("svg")
HERE = Path(__file__).resolve().parent
OUT = HERE.parents[1] / "docs/pictures/python.svg"
NAME = "air/Mauna Loa/CO2"


def readings() -> list[tuple[datetime.date, Decimal]]:
    """The days and the values of the file."""
    with open(HERE / "co2.csv", encoding="ascii") as text:
        return [(datetime.date.fromisoformat(row["date"]), Decimal(row["CO2"]))
                for row in csv.DictReader(text)]


def main(out: Path) -> None:
    """Stores the readings, asks for quarters, and draws."""
    rows = readings()
    with tempfile.TemporaryDirectory() as folder, summarystore.open(f"{folder}/air.store") as store:
        store.create(NAME, "exp 2 60 1", scale="0.1", time="day", since="1958-01-01", unit="ppm")
        store.append_many(NAME, rows)

        # %% What is asked, and drawn.
        axes = store.plot(NAME, "mean", step="91d")
        windows = sum(1 for _ in store.windows(NAME))
    axes.plot([day for day, _ in rows], [float(value) for _, value in rows], color="#e6550d",
              linewidth=0.5, zorder=1.5)
    axes.set_title(f"CO2 of the air at Mauna Loa: {len(rows):,} weekly means, kept in {windows} windows")
    axes.set_ylabel("mean of 91 days, ppm")
    matplotlib.rcParams.update({"svg.hashsalt": "summarystore", "svg.fonttype": "none"})
    axes.figure.savefig(out, metadata={"Date": None})


if __name__ == "__main__":
    main(Path(sys.argv[1]) if len(sys.argv) > 1 else OUT)
