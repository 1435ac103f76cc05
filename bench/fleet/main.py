"""What a gate does for a forge, by simulation.

main.py PROGRAM                   the default forge
main.py PROGRAM SETTINGS.json     a forge of one's own
main.py PROGRAM capacity          the figures and plots of docs/CAPACITY.md
"""
import os
import signal
import sys

import capacity
import measures
import plot
import settings as given
from checks import Refused
from simulate import run_gate, run_models


def simulate(program, path):
    settings = given.read(path)
    runs = []
    for name, variant in given.variants(settings):
        figures, lines = run_gate(program, name, variant)
        runs.append(figures)
        each = 1000 * figures["seconds"] / len(lines)
        print(f"{name}: the gate took {figures['seconds']:.1f} s of a processor for {len(lines)} deliveries and the"
              f" questions between them, {each:.2f} ms a delivery", file=sys.stderr)
        print(f"checked: {figures['landed']} landings of '{name}' by {figures['shown']} builds;"
              f" {len(figures['turned'])} kinds of turned evidence were refused")
    runs += run_models(settings)
    print()
    print(measures.as_text(measures.rows_of(runs)))
    points = [(run["gate"], [(run["thrown"] / run["landed"], run["median"] / 60)]) for run in runs if run["landed"]]
    plot.lines(os.environ["PLOT"], "Waiting against waste", "builds thrown away, a landing",
               "minutes from approval to landing, median", points, y_powers=True)
    print(f"\nplot: {os.environ['PLOT']}")


def main():
    # so that a gate that is served ends with its run
    signal.signal(signal.SIGTERM, lambda number, _: sys.exit(128 + number))
    program, words = sys.argv[1], sys.argv[2:]
    try:
        if words == ["capacity"]:
            capacity.main(program)
        else:
            simulate(program, words[0] if words else None)
    except (given.BadSettings, Refused) as fault:
        sys.exit(f"fleet: {fault}")
    print("ok")


if __name__ == "__main__":
    main()
