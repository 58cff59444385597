"""The rows of docs/GLIB.md's table "Where the two part" that a script can show: each has a short name, which is its anchor there, the name
of its script in differences/, and that of the model's switch."""
from __future__ import annotations

from collections.abc import Iterable
from dataclasses import dataclass, fields

@dataclass(frozen=True)
class Row:
    """What the library does, and the functions of GLib 2.74.6 that do it."""

    told: str
    place: str


ROWS: dict[str, Row] = {
    "timeout-cached-time": Row(
        "a timeout restarts from the time at which its iteration began, however long its call took",
        "gmain.c: g_timeout_dispatch, g_source_get_time"),
    "ready-flag-stays": Row(
        "a source that was selected and then dropped stays ready, though what made it ready is gone",
        "gmain.c: g_main_context_prepare, g_main_context_check, g_main_dispatch"),
    "pending-refills": Row(
        "g_main_context_pending inside a callback refills the list in which the outer iteration goes on",
        "gmain.c: g_main_context_pending, g_main_context_prepare, g_main_dispatch"),
    "one-blocked-flag": Row(
        "the end of a parent's call unblocks a child that is still in a call of its own",
        "gmain.c: block_source, unblock_source"),
    "priority-turns-children": Row(
        "g_source_set_priority on a parent turns the order of its children round",
        "gmain.c: g_source_set_priority_unlocked, source_add_to_context"),
    "cancellable-source-once": Row(
        "a cancellable's source is ready once, and its dispatch takes back its ready time",
        "gcancellable.c: cancellable_source_cancelled, cancellable_source_dispatch"),
    "task-callback-context": Row(
        "a task's callback runs with the task's context pushed as thread default",
        "gtask.c: g_task_return_now"),
    "any-thread-acquires": Row(
        "a thread acquires, pushes, iterates and runs any context that no other thread owns",
        "gmain.c: g_main_context_acquire"),
    "any-thread-attaches": Row(
        "a thread attaches a source to any context, whoever owns that",
        "gmain.c: g_source_attach"),
    "any-thread-quits": Row(
        "a thread quits any loop",
        "gmain.c: g_main_loop_quit"),
    "cancel-at-once": Row(
        "a cancellable is one for all threads: the thread that cancels calls the handlers of all of them, at once",
        "gcancellable.c: g_cancellable_cancel"),
    "invoke-takes-default": Row(
        "a thread whose stack is empty calls what it invokes in the default context itself, where nobody owns that",
        "gmain.c: g_main_context_invoke_full"),
    "invoke-attaches-at-once": Row(
        "what is invoked in another thread's context is attached to it at once",
        "gmain.c: g_main_context_invoke_full, g_source_attach"),
    "release-any-ground": Row(
        "g_main_context_release lowers the one count of the owner, by whatever that was raised",
        "gmain.c: g_main_context_release"),
    "pop-empty-stack": Row(
        "to pop the default context from a stack that is empty goes through, and releases that context",
        "gmain.c: g_main_context_pop_thread_default"),
}


@dataclass(frozen=True)
class Rules:
    """Which of the library's ways a model follows; with none it follows this project's rules."""

    timeout_cached_time: bool = False
    ready_flag_stays: bool = False
    pending_refills: bool = False
    one_blocked_flag: bool = False
    priority_turns_children: bool = False
    cancellable_source_once: bool = False
    task_callback_context: bool = False
    any_thread_acquires: bool = False
    any_thread_attaches: bool = False
    any_thread_quits: bool = False
    cancel_at_once: bool = False
    invoke_takes_default: bool = False
    invoke_attaches_at_once: bool = False
    release_any_ground: bool = False
    pop_empty_stack: bool = False

    @classmethod
    def of(cls, rows: Iterable[str]) -> Rules:
        return cls(**{row.replace("-", "_"): True for row in rows})


assert [field.name for field in fields(Rules)] == [row.replace("-", "_") for row in ROWS]


@dataclass(frozen=True)
class Library:
    """Which GLib it is, and what is not the same in all of them."""

    version: str = "2.74.6"
    release_is_checked: bool = False  # whether it refuses a release of a context that nobody owns
