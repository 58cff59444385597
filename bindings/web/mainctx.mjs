// Runs scripts of mainctx (docs/FORMAT.md) by its WebAssembly module, in this thread: worker.mjs does it in another.

/** What a call of the module answers where it is no class of fault: as bindings/c/mainctx.h has it. */
const TEXT = 0, MEMORY = 6, SHORT_ROOM = 7, FAULTS = 8;

/** The classes by which a script is refused, by their numbers. */
const CLASSES = new Map([[1, "not json"], [2, "shape"], [3, "limit"], [4, "reference"], [5, "rule"]]);

/** The bytes of the room that a text gets at first, of that for a moment of an account, of the largest for a first try, and those of a size. */
const ROOM = 4_194_304, ROOM_OF_A_MOMENT = 120, LARGE_ROOM = 16_777_216, SIZE = 8;

/** Bytes of memory beyond which an instance is dropped after a call, since a module's memory never gets smaller. */
const KEPT_AT_MOST = 268_435_456;

/** How many moments an account has at most, and which tick is the last of which is told, where nothing is said of it; the number that stands for each
 * thread, and that for the end of a turn. */
const ALL = Number.MAX_SAFE_INTEGER, LAST_TICK = 0xffff_ffff, EACH_THREAD = 0xffff_ffff, END_OF_TURN = 2n ** 64n - 1n;

/** The characters of a line of a picture, where nothing is said of them. */
const COLUMNS = 80;

/** A call that gives no answer. `fault` says why: "not json", "shape", "limit", "reference" or "rule", where the script is refused; "memory";
 * "trap", where the module stopped; "call", where it has no such call; and of a worker "aborted". */
export class MainctxError extends Error {
    constructor(fault, message = [...CLASSES.values()].includes(fault) ? `script: ${fault}` : fault) {
        super(message);
        this.name = "MainctxError";
        this.fault = fault;
    }
}

/** Loads the module, of its bytes, of a response or an address that is fetched, or compiled already. */
export async function load(source) {
    return new Mainctx(await compiled(source));
}

async function compiled(source) {
    if (source instanceof WebAssembly.Module) return source;
    if (typeof source === "string" || source instanceof URL) source = await fetched(new URL(source, import.meta.url));
    if (typeof Response !== "undefined" && source instanceof Response) source = await source.arrayBuffer();
    return WebAssembly.compile(source);
}

async function fetched(url) {
    if (url.protocol !== "file:" || typeof process === "undefined") return fetch(url);
    const { readFile } = await import("node:fs/promises");
    return readFile(url);
}

/** The engine over one module. A script is a text or its bytes. A call holds up this thread until it ends. */
export class Mainctx {
    #module;
    #calls = null;

    constructor(module) {
        this.#module = module;
    }

    /** Whether the module gives accounts. */
    get tells() {
        return this.#has("mainctx_account");
    }

    /** Runs a script of numbers to its end, and answers its text; throws a MainctxError with the class of fault where it is refused. */
    async run(script) {
        return { text: decoded(await this.#asked("mainctx_run", script, [])) };
    }

    /** The script of numbers that a script with names stands for (docs/NAMES.md), as a text; of a script of numbers its own. The calls below take either
     * form, and tell the names of the one that has some. */
    async translate(script) {
        return { text: decoded(await this.#asked("mainctx_translate", script, [])) };
    }

    /** What is wrong with a script: each fault in the order of their places, with its class, pointer, line, column, byte, wanted and found. */
    async check(script) {
        return lines(await this.#asked("mainctx_check", script, [])).map((line) => JSON.parse(line));
    }

    /** The lines of the account of a run (docs/ACCOUNT.md), of the moments from the one of a number on, and of so many at most. */
    async account(script, from = 0, most = ALL) {
        const room = Math.min(Math.max(ROOM, most * ROOM_OF_A_MOMENT), LARGE_ROOM);
        return lines(await this.#asked("mainctx_account", script, [BigInt(from), BigInt(most)], room));
    }

    /** Why sources were dispatched or not in the iterations of these ticks, both included, in words, as `mainctx_inspect why` tells it. */
    async why(script, first = 0, last = LAST_TICK) {
        return { text: decoded(await this.#asked("mainctx_why", script, [first, last])) };
    }

    /** The life of the source with this id (a number or a BigInt) in a context, as `mainctx_inspect why --source` tells it. */
    async life(script, context, id, first = 0, last = LAST_TICK) {
        return { text: decoded(await this.#asked("mainctx_life", script, [context, BigInt(id), first, last])) };
    }

    /** The text of a run, with the names of the script where it has some; with `notes` also where the real GLib does otherwise. */
    async text(script, notes = false) {
        return { text: decoded(await this.#asked("mainctx_text", script, [Number(notes)])) };
    }

    /** Each source and loop of a run in one line, and what was silent. */
    async summary(script) {
        return { text: decoded(await this.#asked("mainctx_summary", script, [])) };
    }

    /** Where the real GLib would do otherwise than a run, and by which row of docs/GLIB.md. */
    async notes(script) {
        return { text: decoded(await this.#asked("mainctx_notes", script, [])) };
    }

    /** Each step of each turn in these ticks, of one thread or of each, with what is in progress after it. */
    async steps(script, first = 0, last = LAST_TICK, thread = EACH_THREAD) {
        return { text: decoded(await this.#asked("mainctx_steps", script, [thread, first, last])) };
    }

    /** What a thread is in the middle of in a tick, after so many steps of its turn, or at its end; an empty text where there is no such moment. */
    async stack(script, thread, tick, step = END_OF_TURN) {
        return { text: decoded(await this.#asked("mainctx_stack", script, [thread, tick, BigInt(step)])) };
    }

    /** A picture of a run, in lines of so many characters at most. */
    async timeline(script, columns = COLUMNS, first = 0, last = LAST_TICK, thread = EACH_THREAD) {
        return { text: decoded(await this.#asked("mainctx_timeline", script, [thread, first, last, columns])) };
    }

    /** The version of the module's calls, as bindings/c/mainctx.h has it. */
    async version() {
        this.#needs("mainctx_version");
        return (await this.#instance()).version;
    }

    #has(name) {
        return WebAssembly.Module.exports(this.#module).some((it) => it.name === name);
    }

    #needs(name) {
        if (!this.#has(name)) throw new MainctxError("call", `this module has no ${name}`);
    }

    async #instance() {
        return this.#calls ?? new Calls((await WebAssembly.instantiate(this.#module, {})).exports);
    }

    /** The text that a call gives: by a second one where it is longer than the room. */
    async #asked(name, script, words, room = ROOM) {
        this.#needs(name);
        const bytes = typeof script === "string" ? new TextEncoder().encode(script) : script;
        let answer = await this.#guarded(name, bytes, words, room);
        if (answer.status === SHORT_ROOM) answer = await this.#guarded(name, bytes, words, answer.needed);
        if (answer.status === TEXT || answer.status === FAULTS) return answer.text;
        throw new MainctxError(CLASSES.get(answer.status) ?? "memory");
    }

    /** A call after which no instance is kept that stopped, or whose memory is large. */
    async #guarded(name, bytes, words, room) {
        const calls = await this.#instance();
        this.#calls = null;
        try {
            const answer = calls.call(name, bytes, words, room);
            if (calls.size <= KEPT_AT_MOST) this.#calls = calls;
            return answer;
        } catch (stopped) {
            throw new MainctxError("trap", `the module stopped: ${stopped.message}`);
        }
    }
}

/** The calls of one instance, with what they take put into its memory. */
class Calls {
    #exports;

    constructor(exports) {
        this.#exports = exports;
    }

    get version() {
        return this.#exports.mainctx_version() >>> 0;
    }

    get size() {
        return this.#exports.memory.buffer.byteLength;
    }

    /** Makes a call of the module, and answers its status, the length that it tells, and the text where it is whole. Pointers and sizes are
     * numbers of 64 bits. */
    call(name, script, words, room) {
        const { memory, mainctx_alloc: take, mainctx_free: give } = this.#exports;
        const blocks = [script.length, room, SIZE].map((size) => take(BigInt(Math.max(size, 1))));
        if (blocks.includes(0n)) {
            blocks.forEach((block) => give(block));
            return { status: MEMORY };
        }
        const [from, to, needed] = blocks;
        new Uint8Array(memory.buffer, Number(from), script.length).set(script);
        const status = this.#exports[name](from, BigInt(script.length), ...words, to, BigInt(room), needed);
        const length = Number(new DataView(memory.buffer).getBigUint64(Number(needed), true));
        const told = status === TEXT || status === FAULTS ? length : 0;
        const text = new Uint8Array(memory.buffer, Number(to), told).slice();
        blocks.forEach((block) => give(block));
        return { status, needed: length, text };
    }
}

function decoded(text) {
    return new TextDecoder().decode(text);
}

function lines(text) {
    return decoded(text).split("\n").slice(0, -1);
}
