"""Each form of forge has all that a form needs: a client, statuses, a stand-in, and its line in the pages."""
from __future__ import annotations

import subprocess
import unittest
from pathlib import Path

from companions.forms import CLIENTS
from companions.settings import FORMS
from companions.statuses import OF_FORM
from companions.tests import forges

TOP = Path(__file__).resolve().parents[2]


class FormsTest(unittest.TestCase):
    def test_each_form_has_its_parts(self) -> None:
        for has in (set(CLIENTS), set(OF_FORM), set(forges.FORMS)):
            self.assertEqual(has, set(FORMS))

    def test_days_run_with_each_form(self) -> None:
        script = (TOP / "companions/test.sh").read_text(encoding="utf-8")
        found = next(line for line in script.splitlines() if line.startswith("forms="))
        said = subprocess.run(["sh", "-c", f"{found}; echo $forms"], cwd=TOP, capture_output=True, text=True,
                              check=True)
        self.assertEqual(said.stdout.split(), list(FORMS))
        self.assertIn('for form in $forms; do\n      echo "companions.tests.day $seed --forge $form"', script)

    def test_a_stand_in_is_asked_by_its_own_client(self) -> None:
        for form in FORMS:
            with self.subTest(form), forges.StandInForge(form) as forge:
                self.assertIs(type(forge.client()), CLIENTS[form])


if __name__ == "__main__":
    unittest.main()
