"""The contracts that carry each promise of docs/PROMISES.md, in the order in which docs/READING.md goes through them.

A contract is the path of its file, its function and the clauses that carry the promise (without any: all of them). A
member is a ghost member of an impl, by which a trait's contract is read at one type. A token is a definition that one
of the contracts gives and another asks for: the promise holds whatever it says.
"""
from __future__ import annotations

from dataclasses import dataclass


@dataclass(frozen=True)
class Promise:
    """A promise: its heading in the page of promises, what it is called here, and what carries it."""
    heading: str
    title: str
    contracts: tuple[str, ...]
    members: tuple[str, ...] = ()
    tokens: tuple[str, ...] = ()


def each(path: str, names: str) -> tuple[str, ...]:
    """The contracts of these functions of one file, with all of their clauses."""
    return tuple(f"{path}.{name}" for name in names.split())


LANDS = each("gate_laws.landings", "every_change_lands_at_most_once every_landing_is_shown")
ONCE = ("gate_core.replaying.calls_are_answered", "gate_types.laws.only_acting_deliveries_count")
IN_MEMORY = tuple(f"gate_book.memory.MemBook.Book.{it}" for it in ("Holds", "IsTrusted", "LeavesOneOf"))
IN_A_FILE = tuple(f"gate_sql.reads.SqlBook.Book.{it}" for it in ("Holds", "IsTrusted", "LeavesOneOf", "MayFault"))
LIVE = tuple(f"gate_live.live_book.LiveBook.Book.{it}" for it in ("Holds", "IsTrusted", "LeavesOneOf", "MayFault"))
READS = ("delivery change window item_count landing_count reports landing_before items item queued next_item "
         "next_items last_item needing plan plans_between live_builds builds_between build ready approval "
         "ready_needing counters history apply")

PROMISES = (
    Promise("What lands", "What lands", LANDS),
    Promise("The headline", "The headline, in memory",
            ("gate_core.replaying.replay anew", "gate_core.gate.new anew", "gate_book.memory.new",
             "gate_types.config.show_sound", *ONCE, *LANDS), IN_MEMORY,
            ("Rattle.gate_book.specs.Memory.held", "gate_book.memory.MemBook.Model.Value",
             "Rattle.gate_core.specs.Holding.IsNew", "gate_core.recent.Recent")),
    Promise("The headline", "The headline, over a file",
            ("gated_cli.run.over_file.deliver ok", "gate_types.config.show_sound", *ONCE, *LANDS)),
    Promise("What lands", "What lands: its other laws", (
        "gate_core.gate.deliver lands",
        *each("gate_laws.runs", "start_is_lawful step_is_lawful run_is_lawful start_with_is_lawful raw_step_is_sound"),
        *each("gate_laws.settling", "rebase_is_sound sweep_is_sound admit_is_sound settle_is_sound settling_settles"),
        *each("gate_laws.rest", "settled_is_at_rest rest_is_settled live_builds_count live_builds_are_wanted"),
        *each("gate_laws.orders", "a_shown_order_stays only_shown_orders_are_answered"),
        *each("gate_laws.touch", "only_one_queue_is_touched other_queues_stay other_builds_stay"),
        *each("gate_laws.forms", "start_is_in_form empty_is_in_form step_is_in_form reply_is_in_form run_is_in_form "
              "next_content_is_in_form next_content_is_lawful rows_are_few ahead_is_short"),
        *each("gate_laws.typed", "delivery_is_in_form settings_are_in_form counters_are_in_form id_is_in_form"),
        *each("gate_laws.adoption", "adopted_is_sound adopted_is_lawful adopted_content_is_lawful adopted_orders_stay "
              "adopted_itself same_settings_stay events_are_lawful events_are_in_form calls_are_once "
              "every_change_lands_once_through_events every_landing_is_shown_through_events sessions_are_through"),
        *each("gate_laws.migration", "migrated_is_lawful migrated_content_is_lawful nothing_was_cut"),
        *each("gate_laws.feed", "log_is_the_gate kept_told_again acting_calls_are_kept forms_are_in_range "
              "sessions_told_again"),
        "gate_archive.laws.a_line_is_its_delivery_under_its_id", "gate_core.laws.each_line_reads_back")),
    Promise("The exact gate", "The exact gate", (
        *each("gate_core.gate", "deliver new into_book config book orders build status history"),
        *each("gate_core.asking", "change item running history_from feed deliveries"),
        "gate_core.delivering.deliver", "gate_core.replaying.replay"), IN_MEMORY),
    Promise("One request over HTTP", "One request over HTTP", (
        *each("gate_http.laws", "a_request_is_found_once few_lines_fit silence_is_for_nothing"),
        *each("gate_http.getting", "get get_one"), "gate_http.serving.serve_one", "gate_http.request_fault.text",
        *each("gate_http.connections", "write_fault serve serve_whole"), "gate_http.engine.answer_request")),
    Promise("The gate over a file", "The gate over a file", (
        *each("gate_book_trait.book", READS), *each("gate_archive.archive", "left build_count last_builds history_from "
                                                    "deliveries"),
        *each("gate_live.live_book", f"new into_book {READS}"), "gate_live.filling.fill",
        *each("gate_live.archived", "left build_count last_builds history_from deliveries"),
        "gate_live.laws.reads_fail_between_two_contents", "gate_rows.apply.apply_one",
        "gate_rows.laws.every_edit_is_told",
        *each("gate_table_laws.laws", "the_rows_are_whole every_read_is_told"), "gate_found_rows.read.check_open",
        "gate_found_rows.fault.book_fault", "gate_file_changes.applying.commit_all all none",
        "gate_sql.opening.open", *each("gate_sql.laws", "an_empty_file_has_no_meta a_file_that_lists_nothing_is_empty"),
        "gate_sql.creating.create", "gate_schema.laws.the_texts_make_the_schema", "gate_migration.migrating.migrate",
        *each("gated_cli.run.over_file", "make migrate deliver show serve"),
        "gate_laws.adoption.adopted_content_is_lawful",
        "gate_laws.migration.migrated_is_lawful"), IN_A_FILE + LIVE),
    Promise("Crash safety", "Crash safety", (
        *each("gate_book_trait.book", "apply"), "gate_core.gate.deliver answered", "gate_sql.creating.create",
        "gate_sql.opening.open", "gate_sql.book.into_conn", "gate_sql.reopening.open_store",
        *each("gated_cli.run.over_file", "deliver serve")), IN_A_FILE),
    Promise("The program", "The program", (
        "gated_command.words.command", "gated_cli.run.run", "gated_cli.entry.program"),
        ("gated_cli.machine.M.GateFiles.Led",)),
)
# Definitions that a law gives the only value that they can have, so that the law is read in their place: what the texts
# of the tables make.
PINNED = {f"Rattle.gate_schema.specs.Schema.{name}": "gate_schema.laws.the_texts_make_the_schema"
          for name in ("gate_tables", "gate_indexes")}
# Laws that compute an example: no promise stands on them.
EXAMPLES = {"paths_have_routes", "the_example_is_read", "the_post_is_read", "the_example_is_answered"}
# What no list is made of, and why.
NONE = {
    "Safe and total": "no clause says it",
    "Each part meets its definition": "its contracts are those of the steps inside, which the promises above stand on "
                                      "only through their proofs",
    "Worked examples": "each is proved by computing it",
    "Not promised": "it has no contract",
}
