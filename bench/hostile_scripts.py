"""The scripts of bench/hostile: for each kind of growth one of any size, with what its run makes and does."""
import decimal, json

MIB = 1 << 20
NEVER = {"kind": ["ready", -1]}


def lane(start, contexts=1):
    return {"contexts": contexts, "start": start}


def script(ticks, procs, lanes, **more):
    """A script whose loop N is of context N of as many as it has lanes."""
    whole = {"version": 1, "ticks": ticks, "tick_us": 1000, "loops": [*range(len(lanes))], "procs": procs, "lanes": lanes, **more}
    return json.dumps(whole, separators=(",", ":")).encode()


def attaches(count, spec, context=0, first=0):
    return [["attach", context, first + slot, spec] for slot in range(count)]


def list_of(actions):
    return [actions] * 250 if isinstance(actions[0], str) else actions


def phases(first, second=(), third=(), start=(), contexts=1, procs=(), **more):
    """One lane in which so many sources call a list of actions in each of so many ticks, then others another. Slots 0 to 127 are theirs; procedures
    from 3 on are the caller's."""
    begin, lists, starts = 0, [], list(start)
    for number, phase in enumerate((first, second, third)):
        if not phase:
            lists.append({"do": []})
            continue
        ticks, sources, actions = phase
        lists.append({"do": list_of(actions), "keep": ticks - 1})
        starts += attaches(sources, {"kind": ["ready", 1000 * begin], "priority": 200, "call": number}, first=40 * number)
        begin += ticks
    return script(begin, lists + list(procs), [lane(starts + [["run", 0]], contexts)], **more)


def longer(text, ticks, most):
    """The same script with more ticks."""
    return text.replace(b'"ticks":%d,' % ticks, b'"ticks":%d,' % most, 1)


# Each growth: a size to a script and to what its run makes and does, lines aside.

def never_ready(n):
    return phases((n, 39, ["attach", 0, 255, NEVER])), n * 9750


def never_ready_children(n):
    return phases((n, 39, ["child", 254, 255, NEVER]), start=[["attach", 0, 254, NEVER]]), n * 9750


def children_destroyed(n):
    return phases((n, 39, ["child", 254, 255, NEVER]), (1, 1, [["destroy", 254]]), start=[["attach", 0, 254, NEVER]]), n * 9750


def children_moved(n):
    """Half the actions make children of one source, half give that one a priority."""
    start = [["attach", 0, 254, NEVER]]
    return phases((1, n, ["child", 254, 255, NEVER]), (1, n, [["set_priority", 254, 1], ["set_priority", 254, 2]] * 125), start=start), 500 * n


def passed_over(n):
    """Children that are all selected, of which the first destroys their parent."""
    due = {"kind": ["ready", 1000 * n], "call": 3}
    start = [["attach", 0, 254, {**NEVER, "priority": 100}], ["child", 254, 253, due]]
    it = phases((n, 39, ["child", 254, 255, {"kind": ["ready", 1000 * n]}]), start=start, procs=[{"do": [["destroy", 254]]}])
    return longer(it, n, n + 1), n * 9750


def attached_and_destroyed(n):
    return phases((n, 39, [["attach", 0, 255, NEVER], ["destroy", 255]] * 125)), n * 9750


def ready_times_set(n):
    return phases((n, 39, [["set_ready", 254, 5], ["set_ready", 254, -1]] * 125), start=[["attach", 0, 254, {**NEVER, "priority": 300}]]), n * 9750


def priorities_set(n):
    """Of one source among many."""
    start = [["attach", 0, 254, NEVER]]
    return phases((n, 39, [["attach", 0, 255, NEVER]] * 125 + [["set_priority", 254, 1], ["set_priority", 254, 2]] * 62), start=start), n * 39 * 249


def asked_when_all_ready(n):
    """`pending` where many sources are ready, at the last of four levels: each lends its readiness to those above it."""
    start = [["attach", 0, 254, NEVER], ["child", 254, 253, NEVER], ["child", 253, 252, NEVER], ["set_priority", 254, 200]]
    return phases((1, n, ["child", 252, 255, {"kind": ["idle"]}]), (1, n, ["pending", 0]), start=start, version=2), n * 250


def asked_when_none_ready(n):
    """`pending` within 31 calls, where many sources sleep."""
    due = {"kind": ["ready", 1000 * n], "priority": 200}
    start = attaches(30, {**due, "call": 3}, first=160) + [["attach", 0, 200, {**due, "call": 4}]]
    it = phases((n, 10, ["attach", 0, 255, NEVER]), start=start, procs=[{"do": [["iterate", 0]], "keep": None}, {"do": [["pending", 0]] * 250, "keep": None}])
    return longer(it, n, 9 * n), n * 2500


def asked_when_children_blocked(n):
    """`pending` in a call, whose source has children that are ready but for that call, which made them."""
    call = {"do": [["invoke", 0, 4]] * n + [["invoke", 0, 5]] * n}
    start = [["attach", 0, 254, {"kind": ["idle"], "call": 3}], ["attach", 0, 253, {"kind": ["idle"], "priority": 300}]]
    children, asks = {"do": [["child", 254, 255, {"kind": ["idle"]}]] * 250}, {"do": [["pending", 0]] * 250}
    return phases((1, 1, [["log", 0]]), start=start, procs=[call, children, asks]), n * 250


def ticks_when_children_blocked(n):
    """Ticks in which one source is ready, in a call whose source has children that are ready but for that call, which made them."""
    call = {"do": [["invoke", 0, 4]] * 4 * n + [["run", 0]]}
    start = [["attach", 0, 254, {"kind": ["idle"], "call": 3}], ["attach", 0, 253, {"kind": ["idle"], "priority": 300, "call": 5}]]
    children = {"do": [["child", 254, 255, {"kind": ["idle"]}]] * 250}
    it = phases((1, 1, [["log", 0]]), start=start, procs=[call, children, {"do": [], "keep": None}])
    return longer(it, 1, 64 * n), 1064 * n


def descriptors_asked(n):
    """`pending` where many sources ask for two descriptors that show nothing."""
    return phases((1, n, ["attach", 0, 255, {"kind": ["fd", 0, 1]}]), (1, n, ["attach", 0, 255, {"kind": ["fd", 1, 1]}]),
                  (1, 1, [["pending", 0]] * 10 * n), fds=[[], []]), n * 500


def ticks_of_other_bits(n):
    """Ticks in which a descriptor shows another bit, which none of many sources asks for."""
    pairs = [[tick, 2 + 2 * (tick % 2)] for tick in range(2, 64 * n)]
    it = phases((1, 4 * n, ["attach", 0, 255, {"kind": ["fd", 0, 1]}]), fds=[pairs])
    return longer(it, 1, 64 * n), 1064 * n


def cancellables_looked_at(n):
    """Ticks in which one source is ready behind many of a cancellable that nobody cancels."""
    it = phases((n, 10, ["attach", 0, 255, {"kind": ["cancel", 0]}]), start=[["attach", 0, 254, {"kind": ["idle"]}]], cancellables=1)
    return longer(it, n, 256 * n), n * 2500


def marks_apart(n):
    """The same beside a cancelled one, 62 below it: each cancellable has a mark of its own, so no tick looks at them."""
    start = [["cancel", 0], ["attach", 0, 254, {"kind": ["idle"]}]]
    it = phases((n, 10, ["attach", 0, 255, {"kind": ["cancel", 62]}]), start=start, cancellables=63)
    return longer(it, n, 256 * n), n * 2500


def waiting_behind_one(n):
    """Ticks in which one source is ready before many that wait, where a descriptor was asked for once."""
    start = [["attach", 0, 254, {"kind": ["idle"]}], ["attach", 0, 253, {"kind": ["fd", 0, 1]}], ["destroy", 253]]
    it = phases((n, 10, ["attach", 0, 255, {"kind": ["idle"], "priority": 300}]), start=start, fds=[[]])
    return longer(it, n, 256 * n), n * 2500


def handlers_called(n):
    """Handlers of 256 actions, which a turn does not count."""
    start = [["attach", 0, 254, {**NEVER, "priority": 300}]]
    return phases((n, 39, ["connect", 0, 255, 3]), (1, 1, [["cancel", 0]]), start=start, cancellables=1,
                  procs=[{"do": [["set_ready", 254, 5], ["set_ready", 254, -1]] * 128}]), n * 9750 * 257


def handlers_disconnected(n):
    return phases((n, 39, ["connect", 0, 255, 3]), (n, 39, ["disconnect", 254]), start=[["connect", 0, 254, 3], ["disconnect", 254]],
                  cancellables=1, procs=[{"do": []}]), n * 9750


def cancelled_beside_handlers(n):
    """256 cancellables are cancelled, and the handlers are of the last."""
    return phases((n, 39, ["connect", 255, 255, 3]), (1, 1, [["cancel", c] for c in range(256)]), cancellables=256, procs=[{"do": []}]), n * 9750


def default_contexts(n):
    """Half the actions push a context, half invoke in another."""
    return phases((n, 39, ["push", 1]), (n, 39, ["invoke", 0, 3]), contexts=2, procs=[{"do": []}]), n * 9750


def letters(n):
    """63 lanes that invoke in a context of the first."""
    starts = [lane([["run", 0]])] + [lane([["attach", l, 0, {"kind": ["idle"], "call": 0}], ["run", l]]) for l in range(1, 64)]
    return script(n, [{"do": [["invoke", 0, 1]] * 250, "keep": None}, {"do": []}], starts), n * 63 * 250


def letters_of_lanes(n):
    """So many lanes that invoke in a context of the first: each letter goes to each lane."""
    starts = [lane([["run", 0]])] + [lane([["attach", l, 0, {"kind": ["idle"], "call": 0}], ["run", l]]) for l in range(1, n)]
    return script(8, [{"do": [["invoke", 0, 1]] * 250, "keep": None}, {"do": []}], starts), 8 * (n - 1) * 250


def replies(n):
    """63 lanes whose tasks reply in a context of the first."""
    starts = [lane([["run", 0]])] + [lane([["attach", l, 0, {"kind": ["idle"], "call": 0}], ["run", l]]) for l in range(1, 64)]
    return script(n, [{"do": [["task", {"tree": ["fail"], "call": 1}]] * 50, "keep": None}, {"do": []}], starts), 2 * n * 63 * 50


def sleep(ms):
    return ["task", {"tree": ["sleep", 1000 * ms], "call": 3}]


def tasks_started(n):
    """Tasks that sleep through the run, some more in each tick."""
    return phases((n, 39, sleep(9999)), procs=[{"do": []}]), n * 9750


def tasks_beside_one(n):
    """Tasks that sleep through the run, and one in each tick that ends."""
    each = [["attach", 0, 254, {"kind": ["idle"], "call": 4}]]
    it = phases((n, 39, sleep(9999)), start=each, procs=[{"do": []}, {"do": [sleep(1)], "keep": None}])
    return longer(it, n, 128 * n), n * 9750 + 128 * n


def tasks_beside_cancelled(n):
    """Tasks that sleep through the run until they are cancelled, and one in each tick whose cancellable was before it began."""
    each = [["cancel", 1], ["attach", 0, 254, {"kind": ["idle"], "call": 4}]]
    sleeper, ended = ["task", {"tree": ["sleep", 9999000], "call": 3, "cancel": 0}], ["task", {"tree": ["sleep", 1000], "call": 3, "cancel": 1}]
    it = phases((n, 39, sleeper), start=each, procs=[{"do": []}, {"do": [ended], "keep": None}], cancellables=2)
    return longer(it, n, 128 * n), n * 9750 + 128 * n


def full(depth, leaf):
    """A tree of both, of so many levels."""
    return leaf() if depth == 1 else ["both", full(depth - 1, leaf), full(depth - 1, leaf)]


def trees(n):
    """Tasks of one tree of 1,023 parts."""
    task = ["task", {"tree": full(10, lambda: ["sleep", 9999000]), "call": 3}]
    return phases((1, n, [task] * 50), procs=[{"do": []}]), n * 50 * 1023


def waking_trees(n):
    """Trees whose parts end in different ticks."""
    times = iter(range(1, 1 << 20))
    task = ["task", {"tree": full(9 + n, lambda: ["sleep", 1000 * next(times)]), "call": 3}]
    it = phases((1, 20, [task]), procs=[{"do": []}])
    return longer(it, 1, 4 + (256 << n)), 20 << 9 + n


def checking_trees(n):
    """Trees whose parts end in different ticks, each with a check behind it that may be cancelled."""
    times = iter(range(1, 1 << 20))
    tree = full(7 + n, lambda: ["seq", ["sleep", 1000 * next(times)], ["check"]])
    it = phases((1, 20, [["task", {"tree": tree, "cancel": 0, "call": 3}]]), cancellables=1, procs=[{"do": []}])
    return longer(it, 1, 4 + (64 << n)), 60 << 7 + n


def frames(n):
    """Each tick nests to the limit of calls."""
    start = attaches(32, {"kind": ["idle"], "call": 0}) + [["run", 0]]
    return script(n, [{"do": [["iterate", 0]], "keep": None}], [lane(start)]), 0


def runs_of_loops(n):
    """A loop is run and quit again and again."""
    start = [["attach", 0, 0, {"kind": ["idle"], "call": 0}], ["attach", 1, 1, {"kind": ["idle"], "call": 1}], ["run", 0]]
    return script(n, [{"do": [["run", 1]], "keep": None}, {"do": [["quit", 1]], "keep": None}], [lane(start, 2)], loops=[0, 1]), 0


def lines(n):
    """Logs of handlers, which a turn does not count."""
    return phases((1, 39, ["connect", 0, 255, 3]), (1, 1, [["cancel", 0]]), cancellables=1, procs=[{"do": [["log", 0]] * n}]), 9750


def contexts(n):
    """64 lanes that iterate each of their four contexts."""
    procs = [{"do": [["iterate", 4 * l + c] for c in range(1, 4)], "keep": None} for l in range(64)]
    starts = [lane([["attach", 4 * l + c, c, {"kind": ["idle"], "call": l if c == 0 else None}] for c in range(4)] + [["run", l]], 4) for l in range(64)]
    return script(n, procs, starts, loops=[4 * l for l in range(64)]), 0


def quiet_lanes(n):
    """A lane that sends a letter in each tick, beside others whose sources ask for what no descriptor shows."""
    many = [["attach", 0, 255, {"kind": ["cancel", 0]}]] * 250
    starts = [lane([["attach", 0, 0, {"kind": ["idle"], "call": 0}], ["run", 0]])]
    procs = [{"do": [["invoke", 1, 1]], "keep": None}, {"do": []}]
    for l in range(2, 64):
        procs.append({"do": [["attach", l, 255, many[0][3]]] * 250})
        starts.append(lane(attaches(n, {"kind": ["idle"], "call": l}, l) + [["run", l]]))
    return script(64 * n, procs, starts[:1] + [lane([])] + starts[1:], cancellables=1, loops=[*range(64)]), 62 * 250 * n


def quiet_lanes_given(n):
    """Two lanes that give each other a context in each tick, beside others whose sources ask for what no descriptor shows."""
    asks = {"kind": ["cancel", 0]}
    procs = [{"do": [["give", 2, other]], "keep": None} for other in (1, 0)]
    starts = [lane(attaches(1, {"kind": ["idle"], "call": l}, l) + [["run", l]], 1 + l) for l in (0, 1)]
    for l in range(2, 64):
        procs.append({"do": [["attach", l + 1, 255, asks]] * 250})
        starts.append(lane(attaches(n, {"kind": ["idle"], "call": l}, l + 1) + [["run", l]]))
    return script(64 * n, procs, starts, version=2, cancellables=1, loops=[0, 1, *range(3, 65)]), 62 * 250 * n


def read_numbers(n):
    return b'{"x":[0' + b",0" * (n * MIB // 2 - 8) + b"]}"


def read_lists(n):
    return b"[" + b"[]," * (n * MIB // 3 - 4) + b"[]]"


def read_keys(n):
    return b"{" + b",".join(b'"%07d":0' % k for k in range(n * MIB // 12 - 4)) + b"}"


def read_one_key(n):
    return b"{" + b",".join([b'"version":1'] * (n * MIB // 12 - 4)) + b"}"


def read_digits(n):
    return b'{"x":0.' + b"1" * (n * MIB - 16) + b"}"


def read_halves(n):
    """Numbers that lie in the middle between two doubles, with all their digits."""
    decimal.getcontext().prec = 1200
    least = decimal.Decimal(2) ** -1075
    halves = b",".join(format(least * (2 * k + 1), "f").rstrip("0").encode() for k in range(1, 60))
    return b"[" + b",".join([halves] * (n * MIB // (len(halves) + 1))) + b"]"


def read_escapes(n):
    return b'{"x":"' + b"\\u0041" * (n * MIB // 6 - 4) + b'"}'


def read_trees(n):
    """Procedures of a task of 1,023 parts."""
    task = ["task", {"tree": full(10, lambda: ["check"]), "call": 0}]
    size = len(json.dumps(task, separators=(",", ":"))) + 10
    return script(1, [{"do": [task]}] * (n * (MIB - 100) // size), [lane([])])


def read_connects(n):
    """Handlers of 256 actions, which are looked at for each connect."""
    procs = [{"do": [["log", 0]] * 256}] + [{"do": [["connect", 0, 0, 0]] * 256} for _ in range(n * 200)]
    return script(1, procs, [lane([])], cancellables=1)


GROWTHS = {
    "sources that are never ready": (never_ready, 16, 64),
    "children of one source": (never_ready_children, 16, 64),
    "children that go with it": (children_destroyed, 16, 64),
    "children that it gives its priority": (children_moved, 2, 8),
    "selected sources that went": (passed_over, 8, 32),
    "sources attached and destroyed": (attached_and_destroyed, 25, 100),
    "ready times set": (ready_times_set, 25, 100),
    "priorities set": (priorities_set, 16, 64),
    "pending beside sources that are ready": (asked_when_all_ready, 4, 16),
    "pending in calls, beside sources that sleep": (asked_when_none_ready, 1, 4),
    "pending in a call, beside its source's children": (asked_when_children_blocked, 4, 16),
    "ticks in a call, beside its source's children": (ticks_when_children_blocked, 2, 8),
    "pending beside sources of descriptors": (descriptors_asked, 2, 8),
    "ticks beside sources of a descriptor that shows other bits": (ticks_of_other_bits, 2, 8),
    "ticks beside sources of a cancellable": (cancellables_looked_at, 1, 4),
    "ticks beside sources of a cancellable 62 from a cancelled one": (marks_apart, 1, 4),
    "ticks beside sources that wait for others": (waiting_behind_one, 1, 4),
    "handlers that are called": (handlers_called, 1, 4),
    "handlers that are disconnected": (handlers_disconnected, 1, 4),
    "handlers beside which others are cancelled": (cancelled_beside_handlers, 8, 32),
    "thread-default contexts": (default_contexts, 1, 4),
    "letters": (letters, 8, 32),
    "letters of more lanes": (letters_of_lanes, 16, 64),
    "replies": (replies, 8, 32),
    "tasks that sleep, started in each tick": (tasks_started, 8, 32),
    "tasks that sleep beside one that ends": (tasks_beside_one, 1, 4),
    "tasks that sleep beside one that was cancelled before": (tasks_beside_cancelled, 1, 4),
    "tasks of a large tree": (trees, 4, 16),
    "parts of a tree that end one by one": (waking_trees, 1, 3),
    "checks of a tree that are begun one by one": (checking_trees, 1, 3),
    "frames": (frames, 512, 2048),
    "runs of a loop": (runs_of_loops, 1024, 4096),
    "lines": (lines, 64, 256),
    "contexts": (contexts, 128, 512),
    "letters beside lanes that rest": (quiet_lanes, 2, 8),
    "contexts given beside lanes that rest": (quiet_lanes_given, 2, 8),
    "reading numbers": (read_numbers, 1, 4),
    "reading lists": (read_lists, 1, 4),
    "reading keys": (read_keys, 1, 4),
    "reading one key often": (read_one_key, 1, 4),
    "reading a long number": (read_digits, 1, 4),
    "reading numbers between doubles": (read_halves, 1, 4),
    "reading escapes": (read_escapes, 1, 4),
    "reading trees": (read_trees, 1, 4),
    "reading connects": (read_connects, 1, 4),
}

# What grows worse because its rule tells, asks or moves each time all of what is named.
BY_RULE = {
    "children that it gives its priority": "each set_priority, its children",
    "pending beside sources of descriptors": "each pending and iteration, the sources of descriptors",
    "ticks beside sources of a descriptor that shows other bits": "each tick with a turn, the sources of descriptors",
    "letters of more lanes": "each letter, the lanes: 64 at most",
}

# What grows worse though no rule asks for it, and what is looked at each time.
KNOWN = {}


def short_lines(n):
    """Lines of eight bytes, of handlers."""
    return phases((n, 39, ["connect", 0, 255, 3]), (1, 1, [["cancel", 0]]), cancellables=1, procs=[{"do": [["log", 0]] * 256}]), 0


def dispatches(n):
    """Dispatches of dummies in eight lanes."""
    starts = [lane(attaches(250, {"kind": ["idle"]}, number) + [["run", number]]) for number in range(8)]
    return script(n, [], starts), 0


TEXTS = {"lines of 8 bytes": (short_lines, 3, 12), "dispatches": (dispatches, 1000, 3000)}
