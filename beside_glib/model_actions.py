"""What a thread of the model has, and the actions that are over at once."""
from __future__ import annotations

from typing import TYPE_CHECKING, Any

from model_context import Context, Source
from model_tasks import Task

if TYPE_CHECKING:
    from model import World

LEVELS = {1: 2, 2: 4}  # by the script's version
Letter = tuple[Any, ...]


class TextParts(Exception):
    """A line is another than the one that was wanted."""


class Handler:
    """A handler of a cancellable; id 0 was called at once, and is connected to nothing."""

    def __init__(self, thread: Actions, id: int, cancellable: int, procedure: int) -> None:
        self.thread, self.id, self.cancellable, self.procedure = thread, id, cancellable, procedure


class Actions:
    """What a thread has, and what it does in one step."""

    def __init__(self, world: World, number: int, wanted: list[str] | None) -> None:
        self.world, self.rules, self.number = world, world.rules, number
        self.tick = 0
        self.lines: list[str] = []
        self.wanted = wanted
        self.letters: list[Letter] = []
        self.slots: list[Source | Handler | None] = [None] * 256
        self.seen: set[int] = set()
        self.handlers = self.tasks_begun = 0
        self.tasks: list[Task] = []
        self.stack: list[int] = []
        self.has_stack = False
        self.acquires = [0] * len(world.contexts)
        self.dispatching: list[Source] = []

    # what an iteration asks

    def now(self) -> int:
        return self.tick * self.world.tick_us

    def level(self, descriptor: int) -> int:
        shown = 0
        for tick, bits in self.world.descriptors[descriptor]:
            if tick <= self.tick:
                shown = bits
        return shown

    def is_cancelled(self, cancellable: int) -> bool:
        return cancellable in (self.world.cancelled if self.rules.cancel_at_once else self.seen)

    # small things

    def say(self, line: str) -> None:
        said = f"{self.tick} {line}"
        if self.wanted is not None and (len(self.lines) >= len(self.wanted) or self.wanted[len(self.lines)] != said):
            raise TextParts
        self.lines.append(said)

    def has(self, context: int) -> bool:
        return self.world.homes[context] == self.number and context not in self.world.given

    def top(self) -> int:
        return self.stack[-1] if self.stack else 0

    def living(self, slots: list[Source | Handler | None], slot: int) -> Source | None:
        source = slots[slot]
        if isinstance(source, Source) and not source.destroyed and (self.rules.any_thread_attaches or self.has(source.number)):
            return source
        return None

    def attach(self, context: Context, spec: dict[str, Any]) -> Source:
        source = Source(context, spec, self.now(), self)
        context.add(source)
        self.watch(source)
        return source

    def watch(self, source: Source) -> None:
        if source.kind == "cancel" and self.rules.cancellable_source_once:
            self.world.signals[source.value].append(source)
            if self.is_cancelled(source.value):
                source.ready = 0

    def hand_in(self, context: Context, procedure: int, is_own: bool) -> None:
        """what an invoke does that calls nothing"""
        self.say(f"invoke ctx {context.number} {'attached' if is_own else 'posted'}")
        if is_own:
            self.attach(context, invoked(procedure))
        elif self.rules.invoke_attaches_at_once:
            self.letters.append(("arrived", self.attach(context, invoked(procedure))))
        else:
            self.letters.append(("attach", context.number, procedure))

    # the stack of thread-default contexts

    def push_default(self, number: int) -> bool:
        if not self.world.contexts[number].acquire(self):
            return False
        self.stack.append(number)
        self.has_stack = True
        return True

    def pop_default(self, number: int) -> bool:
        if self.stack:
            if self.stack[-1] != number:
                return False
            self.stack.pop()
        elif not (self.rules.pop_empty_stack and self.has_stack and number == 0):
            return False
        return self.world.contexts[number].release()

    # cancellables

    def see_cancelled(self, cancellable: int) -> None:
        if cancellable not in self.seen:
            self.say(f"cancel {cancellable}")
            self.seen.add(cancellable)

    def emit(self, cancellable: int) -> None:
        self.world.cancelled.add(cancellable)
        for of in list(self.world.signals[cancellable]):
            if isinstance(of, Source):
                if self.rules.cancel_at_once or of.maker is self:
                    of.ready = 0
            elif self.rules.cancel_at_once or of.thread is self:
                self.handle(of)

    def cancel(self, cancellable: int) -> None:
        if not self.is_cancelled(cancellable):
            self.see_cancelled(cancellable)
            self.emit(cancellable)
            self.letters.append(("cancel", cancellable))

    def handle(self, handler: Handler) -> None:
        self.say(f"handler {handler.id}")
        for action in self.world.procedures[handler.procedure]["do"]:
            self.act(action, handler.thread.slots)

    def connect(self, cancellable: int, slot: int, procedure: int) -> None:
        at_once = self.is_cancelled(cancellable)
        if not at_once:
            self.handlers += 1
        handler = Handler(self, 0 if at_once else self.handlers, cancellable, procedure)
        if at_once:
            self.handle(handler)
        else:
            self.world.signals[cancellable].append(handler)
        self.slots[slot] = handler

    def disconnect(self, slot: int) -> bool:
        handler = self.slots[slot]
        if not isinstance(handler, Handler):
            return False
        if handler.id == 0:
            return True
        connected = self.world.signals[handler.cancellable]
        if handler not in connected:
            return False
        connected.remove(handler)
        return True

    # actions; each that may miss tells whether it did not

    def act(self, action: list[Any], slots: list[Source | Handler | None]) -> None:
        word, rest = action[0], action[1:]
        if word in ("destroy", "set_ready", "quit"):
            done = getattr(self, f"do_{word}")(slots, *rest)
        else:
            done = getattr(self, f"do_{word}")(*rest)
        if done is False:
            self.say(f"miss {word}")

    def do_log(self, number: int) -> None:
        self.say(f"log {number}")

    def do_destroy(self, slots: list[Source | Handler | None], slot: int) -> bool:
        source = self.living(slots, slot)
        if source:
            source.context.destroy(source)
        return source is not None

    def do_set_ready(self, slots: list[Source | Handler | None], slot: int, us: int) -> bool:
        source = self.living(slots, slot)
        if source:
            source.ready = us
        return source is not None

    def do_quit(self, _: list[Source | Handler | None], loop: int) -> bool:
        may = self.has(self.world.loops[loop]) or self.rules.any_thread_quits
        if may:
            self.world.running[loop] = False
            self.world.quits[loop] += 1
        return may

    def do_attach(self, number: int, slot: int, spec: dict[str, Any]) -> bool:
        may = self.has(number) or self.rules.any_thread_attaches
        if may:
            self.slots[slot] = self.attach(self.world.contexts[number], spec)
        return may

    def do_child(self, parent_slot: int, slot: int, spec: dict[str, Any]) -> bool:
        parent = self.living(self.slots, parent_slot)
        if not parent or parent.level >= LEVELS[self.world.version]:
            return False
        child = Source(parent.context, spec, self.now(), self)
        child.parent, child.priority, child.level = parent, parent.priority, parent.level + 1
        parent.context.add(child)
        parent.children.append(child)
        self.watch(child)
        self.slots[slot] = child
        if parent.blocked:
            child.block()
        return True

    def do_set_priority(self, slot: int, priority: int) -> bool:
        source = self.living(self.slots, slot)
        if not source or source.parent:
            return False
        source.context.set_priority(source, priority)
        return True

    def do_pending(self, number: int) -> None:
        context, some = self.world.contexts[number], False
        if (self.has(number) or self.rules.any_thread_acquires) and context.acquire(self):
            some = context.peek(self)
            context.release()
        self.say(f"pending ctx {number} {'true' if some else 'false'}")

    def do_cancel(self, cancellable: int) -> None:
        self.cancel(cancellable)

    def do_connect(self, cancellable: int, slot: int, procedure: int) -> None:
        self.connect(cancellable, slot, procedure)

    def do_disconnect(self, slot: int) -> bool:
        return self.disconnect(slot)

    def do_task(self, spec: dict[str, Any]) -> None:
        self.tasks.append(Task(self.number, self.tasks_begun, spec, self.top(), self.tick + 1))
        self.tasks_begun += 1
        if self.dispatching:
            self.dispatching[-1].context.cached_time(self)  # the library notes when the task was made

    def do_push(self, number: int) -> bool:
        return (self.has(number) or self.rules.any_thread_acquires) and self.push_default(number)

    def do_pop(self, number: int) -> bool:
        return self.pop_default(number)

    def do_show_default(self) -> None:
        self.say(f"default ctx {self.top()}")

    def do_acquire(self, number: int) -> None:
        acquired = (self.has(number) or self.rules.any_thread_acquires) and self.world.contexts[number].acquire(self)
        self.acquires[number] += acquired
        self.say(f"acquire ctx {number} {'true' if acquired else 'false'}")

    def do_release(self, number: int) -> bool:
        context = self.world.contexts[number]
        may = context.owner is self if self.rules.release_any_ground else self.has(number) and self.acquires[number] > 0
        if may:
            self.acquires[number] -= 1
            context.release()
        return may

    def do_give(self, number: int, to: int) -> bool:
        may = self.has(number) and self.world.contexts[number].owner is not self and to != self.number
        if may:
            self.letters.append(("give", number, to))
            self.world.given.add(number)
            self.say(f"give ctx {number} lane {to}")
        return may


def invoked(procedure: int) -> dict[str, Any]:
    """the source that calls what was invoked"""
    return {"kind": ["idle"], "priority": 0, "call": procedure}
