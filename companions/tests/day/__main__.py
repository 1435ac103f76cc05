"""A day of a gate and its companions: python3 -m companions.tests.day SEED, or [--turn NAME | --scene NAME].

The repositories are their own forge, by their hooks. With `--forge FORM` a stand-in forge of that form is there, and
the companion adapter before it. The scenes of the adapter need one. With `--ci` there is a team's CI too, which runs
the jobs of some projects, by companions.ci. Its scenes are those that begin with `ci`.

It says `ok SEED`, or what differs, and leaves its folder then. A scene is a short day that is written down; turned, one
of its parts is a wrong one, and the scene has to differ.
"""
from __future__ import annotations

import argparse
import shutil
import signal
import sys
import tempfile
from pathlib import Path

from companions.gate import NoAnswer
from companions.settings import FORMS
from companions.tests.day.ci_course import CI_SCENES, CiDay, CiScene
from companions.tests.day.ci_stage import CiStage
from companions.tests.day.course import Course, Day
from companions.tests.day.forge_course import ForgeDay
from companions.tests.day.forge_scenes import FORGE_SCENES, ForgeScene
from companions.tests.day.forge_stage import ForgeStage
from companions.tests.day.parts import Differs
from companions.tests.day.scenes import SCENES, Scene, scene, turned
from companions.tests.day.stage import Stage, missing


WITH_FORGE = {**FORGE_SCENES, **CI_SCENES}
ALL_SCENES = {**SCENES, **WITH_FORGE}


def arguments() -> argparse.Namespace:
    names = sorted(ALL_SCENES)
    words = argparse.ArgumentParser(prog="companions.tests.day", description="A day of a gate and its companions.")
    what = words.add_mutually_exclusive_group(required=True)
    what.add_argument("seed", nargs="?", type=int, metavar="SEED", help="a whole day by this seed")
    what.add_argument("--turn", choices=names, help="this scene with a wrong part, which has to be found")
    what.add_argument("--scene", choices=names, help="the same scene with all parts right")
    words.add_argument("--forge", choices=FORMS, metavar="FORM", help=f"a forge of this form: {', '.join(FORMS)}")
    words.add_argument("--ci", action="store_true", help="a CI that runs the jobs of some projects, of that forge")
    given = words.parse_args()
    given.name = given.turn or given.scene
    if given.name and (given.name in WITH_FORGE) != bool(given.forge):
        words.error(f"{given.name} is a scene {'with' if given.name in WITH_FORGE else 'without'} --forge")
    if given.ci and (given.name or not given.forge):
        words.error("--ci is for a SEED with --forge")
    given.ci |= given.name in CI_SCENES
    return given


def course_of(given: argparse.Namespace, folder: Path) -> Course:
    """What is to be played, on its stage."""
    if given.ci:
        with_ci = CiStage(folder, given.forge, given.turn)
        return CiScene(with_ci) if given.name else CiDay(with_ci, given.seed)
    stage = ForgeStage(folder, given.forge, given.turn) if given.forge else Stage(folder, given.turn)
    if given.name:
        return ForgeScene(stage) if isinstance(stage, ForgeStage) else Scene(stage)
    return ForgeDay(stage, given.seed) if isinstance(stage, ForgeStage) else Day(stage, given.seed)


def main() -> int:
    given = arguments()
    lacking = missing()
    if lacking is not None:
        print(f"differs: {lacking}")
        return 1
    folder = Path(tempfile.mkdtemp(prefix="day-")).resolve()
    course = course_of(given, folder)
    signal.signal(signal.SIGTERM, lambda number, frame: sys.exit(128 + number))
    try:
        if given.turn:
            print(f"found: {turned(course, ALL_SCENES[given.turn])[0]}")
            found = []
        else:
            found = course.run() if isinstance(course, Day) else scene(course, ALL_SCENES[given.scene])
    except (Differs, NoAnswer) as fault:
        found = [str(fault)]
    finally:
        course.stage.end()
    for it in found:
        print(f"differs: {it}")
    if found:
        print(f"what was left lies in {folder}", file=sys.stderr)
        return 1
    shutil.rmtree(folder, ignore_errors=True)
    print(f"ok {given.name or given.seed}")
    return 0


if __name__ == "__main__":
    sys.exit(main())
