"""The scripts of bench/search: random ones that are right, and changes of them that leave them so."""
import copy, json

# the most bytes of a script
LONGEST = 5000
TICK_US = 1000

# how likely an action is, and the words that a handler may have
LIKELY = {"attach": 8, "child": 4, "destroy": 2, "set_ready": 4, "set_priority": 3, "iterate": 3, "pending": 3, "run": 1, "quit": 1, "cancel": 2, "connect": 3,
          "disconnect": 2, "task": 3, "push": 1, "pop": 1, "show_default": 1, "log": 1, "acquire": 1, "release": 1, "invoke": 4, "give": 1}
OF_HANDLERS = ["log", "set_ready", "quit", "destroy"]
PRIORITIES = [-1, 0, 0, 1, 200, 300]


def text_of(script):
    return json.dumps(script, separators=(",", ":")).encode()


def actions_of(script):
    """All lists of actions."""
    return [lane["start"] for lane in script["lanes"]] + [proc["do"] for proc in script["procs"]]


class Author:
    """Writes parts of a script of given counts. Of the procedures the first third is called by sources and replies, the second by `invoke`, the
    third by handlers."""

    def __init__(self, rng, script):
        self.rng, self.script = rng, script
        self.contexts = sum(lane["contexts"] for lane in script["lanes"])
        self.procs = len(script["procs"]) // 3

    def slot(self):
        """Mostly one of few, so that actions meet."""
        return self.rng.choice([0, 1, 2, 3, self.rng.randrange(16), 255])

    def context(self):
        return self.rng.randrange(self.contexts)

    def called(self):
        return self.rng.randrange(self.procs)

    def time(self):
        return self.rng.choice([-1, 0, 0, TICK_US, 5 * TICK_US, self.rng.randrange(64 * TICK_US)])

    def kind(self):
        rng = self.rng
        return rng.choice([["idle"], ["idle"], ["timeout", rng.choice([0, 1, 1, 2, 7])], ["ready", self.time()], ["fd", rng.randrange(len(self.script["fds"])), rng.choice([1, 5, 63])],
                           ["cancel", rng.randrange(self.script["cancellables"])]])

    def child(self):
        return {"kind": self.kind(), "recurse": self.rng.random() < 0.3, "call": self.rng.choice([None, self.called()])}

    def source(self):
        return {**self.child(), "priority": self.rng.choice(PRIORITIES)}

    def tree(self, depth):
        rng = self.rng
        leaves = [["value", 1], ["fail"], ["sleep", rng.choice([0, TICK_US, 9 * TICK_US, 10**9])], ["check"]]
        if depth == 1 or rng.random() < 0.2:
            return rng.choice(leaves)
        word = rng.choice(["seq", "both", "first", "within"])
        if word == "within":
            return [word, rng.choice([0, TICK_US, 5 * TICK_US]), self.tree(depth - 1)]
        return [word, self.tree(depth - 1), self.tree(depth - 1)]

    def task(self):
        rng = self.rng
        check = rng.random() < 0.7
        return {"tree": self.tree(rng.choice([1, 2, 3])), "call": self.called(), "cancel": rng.choice([None, rng.randrange(self.script["cancellables"])]),
                "check": check, "return_on_cancel": check and rng.random() < 0.4, "priority": rng.choice(PRIORITIES)}

    def action(self, word=None):
        rng, script = self.rng, self.script
        word = word or rng.choices([*LIKELY], LIKELY.values())[0]
        cancellable, loop = (lambda: rng.randrange(script["cancellables"])), (lambda: rng.randrange(len(script["loops"])))
        return [word] + {
            "attach": lambda: [self.context(), self.slot(), self.source()], "child": lambda: [self.slot(), self.slot(), self.child()],
            "destroy": lambda: [self.slot()], "set_ready": lambda: [self.slot(), self.time()],
            "set_priority": lambda: [self.slot(), rng.choice(PRIORITIES)], "run": lambda: [loop()], "quit": lambda: [loop()],
            "cancel": lambda: [cancellable()], "connect": lambda: [cancellable(), self.slot(), 2 * self.procs + rng.randrange(self.procs)],
            "disconnect": lambda: [self.slot()], "task": lambda: [self.task()], "show_default": list, "log": lambda: [rng.randrange(10)],
            "invoke": lambda: [self.context(), self.procs + rng.randrange(self.procs)], "give": lambda: [self.context(), rng.randrange(len(script["lanes"]))],
        }.get(word, lambda: [self.context()])()

    def actions(self, most, words=None):
        """Some actions, of which one may stand many times."""
        rng, made = self.rng, []
        for _ in range(rng.randrange(1, most)):
            made += [self.action(words and rng.choice(words))] * rng.choice([1, 1, 1, 2, 10])
        return made

    def proc(self, number):
        role = number // self.procs
        if role == 0:
            return {"do": self.actions(5), "keep": self.rng.choice([0, 1, 7, None, None])}
        return {"do": self.actions(4, OF_HANDLERS if role == 2 else None)}


def random_script(rng):
    """A right script of at most so many bytes, whose lanes run a loop each."""
    while True:
        lanes = rng.choice([1, 1, 1, 2, 4])
        script = {"version": 2, "ticks": rng.choice([1, 4, 16, 64, 256]), "tick_us": TICK_US, "cancellables": 4,
                  "fds": [[[tick, rng.randrange(64)] for tick in range(0, 64, 1 + rng.randrange(40))] for _ in range(3)],
                  "lanes": [{"contexts": rng.choice([1, 2]), "start": []} for _ in range(lanes)], "procs": [{"do": []}] * (3 * rng.choice([1, 2, 4]))}
        author = Author(rng, script)
        script["loops"] = [*range(author.contexts)]
        firsts = [sum(lane["contexts"] for lane in script["lanes"][:number]) for number in range(lanes)]
        script["procs"] = [author.proc(number) for number in range(len(script["procs"]))]
        for lane, context in zip(script["lanes"], firsts):
            called = [["attach", context, slot, {"kind": ["idle"], "call": author.called()}] for slot in range(rng.randrange(1, 6))]
            lane["start"] = author.actions(6) + called + [["run", context]]
        if len(text_of(script)) <= LONGEST and all(len(actions) <= 256 for actions in actions_of(script)):
            return script


def changed(rng, script):
    """One change: to one list of actions, to how long a source that calls a procedure stays, or to how many ticks there are."""
    author = Author(rng, script)
    which = rng.randrange(10)
    if which == 0:
        script["ticks"] = min(4096, max(1, rng.choice([script["ticks"] * 2, script["ticks"] // 2])))
    elif which == 1:
        rng.choice(script["procs"][:author.procs])["keep"] = rng.choice([0, 1, 7, 63, None])
    else:
        lists = actions_of(script)
        number = rng.randrange(len(lists))
        actions, proc = lists[number], number - len(script["lanes"])
        words = OF_HANDLERS if proc >= 2 * author.procs else None
        # the last action of a lane's first ones, its run of a loop, stays
        room = len(actions) - (proc < 0)
        place = rng.randrange(room + 1)
        if which < 5 or room == 0:
            actions[place:place] = [author.action(words and rng.choice(words))] * rng.choice([1, 2, 10, 40])
        elif which < 7:
            actions[place:place] = [copy.deepcopy(actions[rng.randrange(room)])] * rng.choice([1, 10, 40])
        elif which < 8:
            actions[place:place] = copy.deepcopy(actions[:room])
        else:
            del actions[place:min(room, place + rng.choice([1, 2, 10]))]


def change(rng, script):
    """A script with one to three changes."""
    while True:
        made = copy.deepcopy(script)
        for _ in range(rng.randrange(1, 4)):
            changed(rng, made)
        if len(text_of(made)) <= LONGEST and all(len(actions) <= 256 for actions in actions_of(made)):
            return made
