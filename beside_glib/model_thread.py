"""A thread in the model: its calls, iterations and loops. What takes steps is a generator; a yield in it is the end of a turn."""
from __future__ import annotations

from collections.abc import Iterator
from typing import TYPE_CHECKING, Any

from model_actions import Actions
from model_context import Context, Source
from model_tasks import Task, tree_end

if TYPE_CHECKING:
    from model import World

COUNTED_AT_MOST, CALLS_AT_MOST = 10_000, 32
Steps = Iterator[None]


class Halted(Exception):
    """The thread takes no further step."""


class ThreadStuck(Exception):
    """The thread waits in the library for a context that another one owns, and holds up the others."""


class Thread(Actions):
    """A thread, its slots, its stack of thread-default contexts and its text."""

    def __init__(self, world: World, number: int, start: list[Any], wanted: list[str] | None) -> None:
        super().__init__(world, number, wanted)
        self.steps = self.begin(start)
        self.iterated = False
        self.counted = self.calls = self.depth = 0

    def begin(self, start: list[Any]) -> Steps:
        try:
            yield from self.do(start)
            self.say("end")
        except Halted:
            pass

    def turn(self, tick: int) -> None:
        self.tick, self.counted, self.iterated = tick, 0, False
        self.poll_tasks()
        next(self.steps, None)

    # calls

    def halt(self, why: str) -> None:
        self.say(why)
        raise Halted

    def count(self) -> None:
        if self.counted >= COUNTED_AT_MOST:
            self.halt("halt steps")
        self.counted += 1

    def do(self, actions: list[Any]) -> Steps:
        for action in actions:
            self.count()
            if action[0] == "run":
                yield from self.run(action[1])
            elif action[0] == "iterate":
                yield from self.iterate(action[1])
            elif action[0] == "invoke":
                yield from self.invoke(action[1], action[2])
            else:
                self.act(action, self.slots)

    def call(self, procedure: int) -> Steps:
        self.calls += 1
        yield from self.do(self.world.procedures[procedure]["do"])
        self.calls -= 1

    def invoke(self, number: int, procedure: int) -> Steps:
        context, is_own = self.world.contexts[number], self.has(number)
        may_take = is_own or self.rules.invoke_takes_default
        taken = context.owner is not self and self.top() == number and may_take and context.acquire(self)
        if taken or context.owner is self:
            if self.calls >= CALLS_AT_MOST:
                self.halt("halt depth")
            self.say(f"invoke ctx {number} direct")
            yield from self.call(procedure)
            if taken:
                context.release()
        else:
            self.hand_in(context, procedure, is_own)

    def begin_dispatch(self, source: Source) -> int:
        if self.counted >= COUNTED_AT_MOST:
            self.halt("halt steps")
        if self.calls >= CALLS_AT_MOST:
            self.halt("halt depth")
        self.counted += 1
        source.dispatches += 1
        self.say(f"dispatch ctx {source.number} source {source.id} priority {source.priority} depth {self.depth}")
        return source.dispatches

    def dispatch(self, source: Source) -> Steps:
        self.depth += 1
        if not source.recurse:
            source.block()
        source.calls += 1
        self.dispatching.append(source)
        stays = yield from self.answer(source) if source.reply else self.call_source(source)
        self.dispatching.pop()
        if stays and source.kind == "timeout":
            began = source.context.cached_time(self) if self.rules.timeout_cached_time else self.now()
            source.ready = began + source.value * 1000
        source.calls -= 1
        self.depth -= 1
        if source.blocked and not source.destroyed:
            source.unblock()
        if not stays:
            source.context.destroy(source)

    def call_source(self, source: Source) -> Iterator[None]:
        """calls a source's procedure, and tells whether the source stays"""
        if source.kind == "cancel" and self.rules.cancellable_source_once:
            source.ready = -1
        number = self.begin_dispatch(source)
        if source.call is None:
            return True
        yield from self.call(source.call)
        keep = self.world.procedures[source.call].get("keep", 0)
        return keep is None or number <= keep

    def answer(self, source: Source) -> Iterator[None]:
        """calls what a task's reply calls"""
        task, outcome = source.reply
        if self.rules.task_callback_context:
            self.push_default(source.number)
        self.begin_dispatch(source)
        cancel = task.spec.get("cancel")
        if task.spec.get("check", True) and cancel is not None and self.is_cancelled(cancel):
            outcome = "cancelled"
        self.say(f"{task.name} {outcome}")
        yield from self.call(source.call)
        if self.rules.task_callback_context:
            self.pop_default(source.number)
        return False

    # iterations and loops

    def dispatch_pending(self, context: Context) -> Steps:
        at = 0
        while at < len(context.pending):
            source, context.pending[at] = context.pending[at], None
            at += 1
            if source is None:
                continue
            source.flag = False
            if not source.destroyed:
                yield from self.dispatch(source)
        context.pending = []

    def iterate(self, number: int) -> Steps:
        context, selected = self.world.contexts[number], False
        if (self.has(number) or self.rules.any_thread_acquires) and context.acquire(self):
            selected = context.select(self)
            yield from self.dispatch_pending(context)
            context.release()
        self.say(f"iterate ctx {number} {'true' if selected else 'false'}")

    def loop_iteration(self, loop: int, context: Context) -> Steps:
        """One iteration of a loop, which first lets the next tick come where the thread's loops have had theirs of this one."""
        if not context.acquire(self):
            raise ThreadStuck
        if self.iterated and not context.preparing:
            context.pending, context.time_is_fresh, context.preparing = [], False, True
            yield
            context.preparing = False
        if self.world.running[loop]:
            self.iterated = True
            context.select(self)
            yield from self.dispatch_pending(context)
        context.release()

    def run(self, loop: int) -> Steps:
        number = self.world.loops[loop]
        context, quits = self.world.contexts[number], self.world.quits[loop]
        if not (self.has(number) or self.rules.any_thread_acquires):
            self.say("miss run")
            return
        if self.iterated:
            yield
        while self.world.quits[loop] == quits and not context.acquire(self):
            yield
        if self.world.quits[loop] == quits:
            self.world.running[loop] = True
            while self.world.running[loop]:
                yield from self.loop_iteration(loop, context)
            context.release()
        self.say(f"loop {loop} end")

    # tasks

    def poll_tasks(self) -> None:
        for task in list(self.tasks):
            cancel = task.spec.get("cancel")
            if task.cancelled is None and cancel is not None and self.is_cancelled(cancel):
                task.cancelled = self.tick
            if task.spec.get("return_on_cancel") and task.cancelled is not None and not task.replied:
                self.reply(task, "cancelled")
            tick, outcome = tree_end(task.spec["tree"], task.begun, task.cancelled, self.world.tick_us)
            if tick > self.tick:
                continue
            if task.replied:
                self.say(f"{task.name} late")
            else:
                self.reply(task, outcome)
            self.tasks.remove(task)

    def reply(self, task: Task, outcome: str) -> None:
        task.replied = True
        self.letters.append(("reply", task, outcome))
