"""Comments that name the commit that they approve: the whole hash does, in either case of letters, and nothing else."""
from __future__ import annotations

import unittest
from datetime import datetime, timezone
from typing import Any

from companions.forges import approves, vote_of
from companions.requests import Request, Revision, State, Told, Vote, tellings, uncounted

SHORT, LONG = "6dcb09b5b57875f334f61aebed695e2e4193db5e", "af5626b4a114abcb82d63db7c8082c3c4756e51b" + "0c8d" * 6
OTHER = "ecdd80bb57125d7ba9641ffaa4d7d2c19d3f3091"
AT = "2024-05-01T10:00:00Z"
MORE = "wrote more than the line /gate approve"


def digits(number: int) -> str:
    return f"named a commit by {number} digits, and a whole hash has 40 or 64"


def voted(text: str, head: str | None = None, **more: Any) -> Vote:
    """The vote of a comment on a request that had this head then, where the forge says so."""
    return vote_of({"body": text, "created_at": AT, "updated_at": AT, **more}, "comment 4", "ada", 11, head)


class NamedCommits(unittest.TestCase):
    def test_a_whole_hash_is_the_commit_that_is_approved(self) -> None:
        for text, commit in ((SHORT, SHORT), (LONG, LONG), (SHORT.upper(), SHORT), (LONG.upper(), LONG),
                             (SHORT[:20].upper() + SHORT[20:], SHORT), ("0" * 40, "0" * 40), (OTHER, OTHER)):
            for before, behind in ((" ", ""), ("\t \t", ""), ("  ", "  \t"), (" ", "\r\n"), (" ", "\n\n \n")):
                said = f"/gate approve{before}{text}{behind}"
                with self.subTest(said):
                    self.assertTrue(approves(said, "mark"))
                    it = voted(said, OTHER)
                    self.assertEqual((it.commit, it.flaw, it.said, it.names_none), (commit, None, None, False))
                    self.assertEqual(voted("\r\n " + said), it)

    def test_one_that_names_none_is_of_the_head_that_the_forge_tells_and_has_its_time(self) -> None:
        for head in (None, SHORT):
            it = voted("\n/gate approve \r\n", head)
            self.assertEqual((it.commit, it.flaw, it.names_none), (head, None, True))
            self.assertEqual(it.said, datetime(2024, 5, 1, 10, tzinfo=timezone.utc))

    def test_what_is_no_whole_hash_approves_nothing_and_says_so(self) -> None:
        for text in ("a", SHORT[:7], SHORT[:12], SHORT[:39], SHORT + "0", LONG[:63], LONG + "f", LONG * 2,
                     "f" * 60_000):
            with self.subTest(text[:80]):
                self.assertTrue(approves(f"/gate approve {text}", "mark"))
                self.assertEqual(voted(f"/gate approve {text}", SHORT).flaw, digits(len(text)))

    def test_what_stands_beside_a_hash_makes_it_none(self) -> None:
        for text in (f"{SHORT}.", f"{SHORT},", f"`{SHORT}`", f"{SHORT[:39]}g", f"0x{SHORT}", f"-{SHORT}", f"{SHORT}\0",
                     f"{SHORT} please", f"{SHORT} {SHORT}", f"{SHORT}\n{OTHER}", f"{SHORT}\nWell\nwell", f"of {SHORT}",
                     f"{SHORT[:20]} {SHORT[20:]}", f"{SHORT[:20]}\n{SHORT[20:]}", f"\n{SHORT}", f"\u00a0{SHORT}",
                     f"{SHORT}\u200b", f"{SHORT} <!-- {OTHER} -->", f"{SHORT}\n```\nWell\n```", "please",
                     # The last letter looks like one of the first six.
                     f"{SHORT[:39]}\u0435", f"{SHORT[:39]}\uff15"):
            with self.subTest(text):
                self.assertTrue(approves(f"/gate approve {text}", "mark"))
                self.assertEqual(voted(f"/gate approve {text}", SHORT).flaw, MORE)
        for said in ("/gate approve!", "/gate approve, please", "/gate approve:\n"):
            self.assertTrue(approves(said, "mark"), said)
            self.assertEqual(voted(said, SHORT).flaw, MORE)
        for text in (f"> /gate approve {SHORT}", f"    - /gate approve {SHORT}", f"x /gate approve {SHORT}",
                     f"/gate approved {SHORT}", f"/gate approve{SHORT}", f"/gate  approve {SHORT}", SHORT, ""):
            self.assertFalse(approves(text, "mark"), text)

    def test_an_edited_one_approves_nothing_whatever_it_names(self) -> None:
        it = voted(f"/gate approve {SHORT}", updated_at="2024-05-01T10:00:01Z")
        self.assertEqual(it.flaw, "approved by a comment that somebody has edited")

    def test_it_counts_for_this_commit_alone(self) -> None:
        """Without a word of when people were told, and though another head was there meanwhile."""
        for text, head, commits, counts, why in (
                (SHORT, SHORT, (SHORT,), True, None), (SHORT.upper(), SHORT, (SHORT,), True, None),
                (LONG, LONG, (LONG,), True, None), (SHORT, SHORT, (SHORT, OTHER, SHORT), True, None),
                (OTHER, SHORT, (SHORT,), False, "approved another commit than that of now"),
                (OTHER, SHORT, (OTHER, SHORT), False, "approved another commit than that of now"),
                # All digits of another hash, which is the beginning of this one.
                (LONG[:40], LONG, (LONG,), False, "approved another commit than that of now"),
                (SHORT[:39], SHORT, (SHORT,), False, digits(39)), (SHORT + "0", SHORT, (SHORT,), False, digits(41))):
            with self.subTest(text=text, head=head):
                so = Request("acme/lib", 12, State.OPEN, head, "main", "Title", "", (voted(f"/gate approve {text}"),))
                told = Told(5, tuple(Revision(it, ()) for it in commits))
                self.assertEqual([it.kind for it in tellings(so, told, (), frozenset({"ada"}))], ["approved"] * counts)
                self.assertEqual(uncounted(so, told, (), frozenset({"ada"})),
                                 [f"ada {why}: comment 4 doesn't count"] if why else [])


if __name__ == "__main__":
    unittest.main()
