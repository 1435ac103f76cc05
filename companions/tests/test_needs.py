"""From the text of a request to the changes that it needs."""
from __future__ import annotations

import unittest
from dataclasses import replace

from companions.forges import Place
from companions.needs import Known, Needs, clean, message, named, needs_of
from companions.requests import Request, State

WEB = "https://forge.example"
SO = Request("acme/lib", 12, State.OPEN, "a" * 40, "main", "Add a thing", "")


class Named(unittest.TestCase):
    def named(self, text: str) -> list[Place | None]:
        return [place for _, place in named(text, "acme/lib", WEB + "/")]

    def test_each_form_of_an_address(self) -> None:
        for said, place in (
                ("#7", Place("acme/lib", 7)), ("!7", Place("acme/lib", 7)),
                ("acme/app#7", Place("acme/app", 7)), ("acme/app!7", Place("acme/app", 7)),
                ("group/sub/app!7", Place("group/sub/app", 7)),
                (f"{WEB}/acme/app/pulls/7", Place("acme/app", 7)), (f"{WEB}/acme/app/pull/7", Place("acme/app", 7)),
                (f"{WEB}/group/sub/app/-/merge_requests/7", Place("group/sub/app", 7)),
                (f"{WEB}/group/sub/app/merge_requests/7", Place("group/sub/app", 7)),
                (f"{WEB}/acme/app/pull/7/files", Place("acme/app", 7)),
                (f"{WEB}/acme/app/pull/7#issuecomment-1", Place("acme/app", 7)),
                (f"{WEB}/acme/my.app-2_x/pull/999999999?x=1", Place("acme/my.app-2_x", 999999999))):
            with self.subTest(said):
                self.assertEqual(self.named(f"Depends-On: {said}"), [place])

    def test_what_names_no_request_is_given_back(self) -> None:
        for said in ("", "7", "#0", "#07", "#1234567890", "# 7", "#7 and more", "#7, #8", "app#7", "the other one",
                     f"{WEB}/acme/app/issues/7", f"{WEB}/acme/app", f"{WEB}.evil/acme/app/pull/7",
                     "https://other.example/acme/app/pull/7", f"{WEB}/app/pull/7", f"{WEB}/acme/app/pull/7x",
                     "acme/app@7", "#٧"):
            with self.subTest(said):
                self.assertEqual(named(f"Depends-On: {said}", "acme/lib", WEB), [(said, None)])

    def test_lines_are_found_in_a_text(self) -> None:
        text = ("Adds it.\r\n\r\nDEPENDS-ON:#1  \r\n  depends-on: #2\n- Depends-On:\t#3\r* Depends-On: #4\n"
                "Depends-On:  #1")
        self.assertEqual([it and it.number for it in self.named(text)], [1, 2, 3, 4, 1])

    def test_other_lines_are_none(self) -> None:
        for text in ("", "It depends-on: #1", "Depends on #1", "> Depends-On: #1", "Depends-On #1", "`Depends-On: #1`"):
            with self.subTest(text):
                self.assertEqual(self.named(text), [])

    def test_a_long_line_is_read_at_once(self) -> None:
        self.assertEqual(self.named("Depends-On: " + "a/" * 200_000), [None])
        self.assertEqual(self.named("Depends-On: " + "x" + " \t" * 200_000 + "x"), [None])


class Found(unittest.TestCase):
    """A forge with requests of `acme/lib`. A change's number is ten times that of its request."""

    def setUp(self) -> None:
        self.requests = {number: Known("main", State.OPEN) for number in range(1, 50)}
        self.stands = set(range(10, 500, 10))
        self.asked: list[Place] = []

    def ask(self, place: Place) -> Known | None:
        self.asked.append(place)
        return self.requests.get(place.number)

    def change_of(self, place: Place, target: str) -> tuple[int, bool] | None:
        return None if target == "topic" else (place.number * 10, place.number * 10 in self.stands)

    def needs(self, *lines: str) -> Needs:
        text = "\n".join(f"Depends-On: {it}" for it in lines)
        return needs_of(replace(SO, text=text), WEB, {"acme/lib": "acme/lib"}, self.ask, self.change_of)

    def test_needs_are_numbers_in_order_each_once(self) -> None:
        found = self.needs("#3", "acme/lib#1", "#3", f"{WEB}/acme/lib/pull/1", "acme/app#1", "#12", "#77")
        self.assertEqual((found.changes, found.places), ((30, 10), tuple(Place("acme/lib", it) for it in (3, 1, 77))))

    def test_each_line_that_names_no_change_is_told_once(self) -> None:
        self.requests[5] = Known("topic", State.OPEN)
        found = self.needs("x", "#12", "#77", "acme/app#1", "#5", "x", "#3", "\x00\ud800" + "y" * 300)
        self.assertEqual(found.changes, (30,))
        self.assertEqual(found.remarks, (
            "Depends-On: x: names no request of this forge",
            "Depends-On: #12: names this request itself",
            "Depends-On: #77: there is no such request",
            "Depends-On: acme/app#1: there is no such request",
            "Depends-On: #5: its branch, topic, isn't gated",
            f"Depends-On: {'y' * 198}: names no request of this forge"))

    def test_what_was_merged_without_the_gate_is_left_out(self) -> None:
        self.requests[3] = Known("main", State.MERGED)
        self.assertEqual(self.needs("#3", "#1").changes, (30, 10))
        self.stands.discard(30)
        self.assertEqual(replace(self.needs("#3", "#1"), places=()), replace(self.needs("#1"), places=()))

    def test_what_is_open_or_closed_stays_needed(self) -> None:
        self.stands.clear()
        self.requests[3] = Known("main", State.CLOSED)
        self.assertEqual(self.needs("#3", "#1").changes, (30, 10))

    def test_so_many_needs_are_given_that_the_gate_refuses_them(self) -> None:
        self.assertEqual(len(self.needs(*(f"#{it}" for it in range(13, 50))).changes), 33)

    def test_a_request_is_asked_for_once_however_its_name_is_written(self) -> None:
        found = self.needs(*["#3", "acme/lib#3", "Acme/LIB!3", f"{WEB}/acme/lib/pull/3/files"] * 1000, "ACME/lib#12")
        self.assertEqual(found.changes, (30,))
        self.assertEqual(found.remarks, ("Depends-On: ACME/lib#12: names this request itself",))
        self.assertEqual(self.asked, [Place("acme/lib", 3)])

    def test_a_long_text_has_33_requests_asked_for_and_ten_lines_told(self) -> None:
        found = self.needs(*(f"#{it}" for it in range(50, 4000)), "#3")
        self.assertEqual((found.changes, len(self.asked)), ((), 33))
        self.assertEqual(found.remarks[8:], ("Depends-On: #58: there is no such request", "and 3942 more lines"))
        self.asked.clear()
        found = self.needs(*(f"#{it}" for it in range(13, 47)))
        self.assertEqual((len(found.changes), len(self.asked)), (33, 33))
        self.assertEqual(found.remarks, ("Depends-On: #46: isn't looked up, since 33 others stand before it",))

    def test_nothing_is_asked_of_repositories_that_are_not_gated(self) -> None:
        found = self.needs(*(f"acme/app#{it}" for it in range(1, 4)))
        self.assertEqual((found.changes, self.asked), ((), []))
        self.assertEqual(found.remarks[0], "Depends-On: acme/app#1: there is no such request")


class Messages(unittest.TestCase):
    def test_a_message_names_the_needs_by_number(self) -> None:
        self.assertEqual(message(SO, (3, 4), "https://forge/c/"),
                         "acme/lib 12: Add a thing\n\nDepends-On: https://forge/c/3\nDepends-On: https://forge/c/4")

    def test_no_title_is_taken_for_a_need(self) -> None:
        title = "Depends-On: https://forge/c/9\nDepends-On: https://forge/c/9\r\n" + "x" * 70_000
        said = message(replace(SO, title=title), tuple(range(999_999_900, 999_999_933)), "https://forge/c/")
        self.assertEqual([line for line in said.split("\n") if line.endswith("/c/9")], [])
        self.assertLess(len(said.encode()), 16_384)

    def test_what_no_text_may_hold_is_taken_out(self) -> None:
        self.assertEqual(clean("a\x00b\ud800c\u2028d\te "), "a b c d e")


if __name__ == "__main__":
    unittest.main()
