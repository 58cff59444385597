// The rows of the picture: a band for each thread, in it its calls, logs, cancellables and loops, its contexts with a row for each source, and its tasks.
import { CALL, ITERATION } from "./frames.mjs";

/** The kinds of rows, in their order within a band. */
export const ROW = Object.freeze({ thread: 0, calls: 1, log: 2, cancel: 3, loop: 4, context: 5, source: 6, task: 7 });
const LABELS_OF = [
    (names, lane) => `thread ${names.of("threads", lane)}`, () => "calls", () => "log, miss", () => "cancellables",
    (names, lane, of) => `loop ${names.of("loops", of)}`, (names, lane, of) => `context ${names.of("contexts", of)}`,
    (names, lane, of, source) => names.nameOf(of, source) ?? `source ${of}.${source}`, (names, lane, of) => `task ${names.task(lane, of)}`,
];
const LONGEST_SIGN = 12; // characters of a text that is logged

/** The row and the sign of each line that is no dispatch. */
const SIGNS = new Map([
    ["log", [ROW.log, "•"]], ["miss", [ROW.log, "×"]], ["cancel", [ROW.cancel, "C"]], ["handler", [ROW.cancel, "h"]], ["task", [ROW.task, "T"]],
    ["end", [ROW.thread, "end"]], ["halt", [ROW.thread, "HALT"]], ["give", [ROW.context, "→"]], ["hold", [ROW.context, "⇥"]], ["arrive", [ROW.source, "▾"]],
    ["invoke", [ROW.calls, "i"]], ["acquire", [ROW.context, "a"]], ["pending", [ROW.context, "?"]], ["default", [ROW.context, "d"]],
]);

export class Rows {
    /** All rows in their order, once `sorted` was called. */
    list = [];
    /** What came from another thread and changed something: {place, row}, the moment and the row in which it shows. */
    letters = [];
    #byKey = new Map();
    #isSorted = true;
    #tasks = [];

    /** `names` has those of the script. */
    constructor(names) {
        this.names = names;
    }

    /** A row, which is made where there is none. */
    row(lane, kind, of = -1, source = -1) {
        const key = `${lane}/${kind}/${of}/${source}`;
        let row = this.#byKey.get(key);
        if (!row) {
            row = { lane, kind, of, source, label: LABELS_OF[kind](this.names, lane, of, source), spans: [], marks: [] };
            Object.assign(row, { isHead: kind === ROW.thread, isContext: kind === ROW.context });
            this.#byKey.set(key, row);
            this.list.push(row);
            this.#isSorted = false;
            if (kind !== ROW.thread) this.row(lane, ROW.thread);
            if (kind === ROW.source) this.row(lane, ROW.context, of);
        }
        return row;
    }

    /** Takes a frame that begins. */
    span(frame) {
        const { lane, kind, of } = frame;
        if (frame.source !== undefined) this.#begun(frame, this.row(lane, ROW.source, frame.context, frame.source));
        else if (kind === CALL) this.#begun(frame, this.row(lane, ROW.calls));
        else this.#begun(frame, this.row(lane, kind === ITERATION ? ROW.context : ROW.loop, of));
    }

    /** Takes the start of a task, which is the next one of its thread, with its text, if it has one. */
    started(place, lane, text) {
        this.#tasks[lane] = (this.#tasks[lane] ?? -1) + 1;
        this.names.started(lane, this.#tasks[lane], text);
        const row = this.row(lane, ROW.task, this.#tasks[lane]);
        this.#begun({ from: place, to: Infinity }, row);
        row.marks.push({ from: place, glyph: "s" });
    }

    /** Takes a source that the thread itself attached. */
    attached(place, lane, { context, source }) {
        this.row(lane, ROW.source, context, source).marks.push({ from: place, glyph: "+" });
    }

    #begun(span, row) {
        span.row = row;
        row.spans.push(span);
        row.furthest = null;
    }

    /** Takes the end of a span. */
    ended(span, place) {
        span.to = place;
        span.row.furthest = null;
    }

    /** Takes what the lines of a moment tell, in words, as signs; `comes` says whether the moment comes from another thread. */
    mark(place, lane, told, comes) {
        for (const [number, words] of told.entries()) {
            const [kind, glyph] = SIGNS.get(words[0]) ?? [];
            if (kind === undefined) continue;
            const row = kind === ROW.task ? this.#told(place, words) : this.row(lane, kind, ...numbersIn(kind, words));
            row.marks.push({ from: place, glyph: words[0] === "log" ? this.names.of("texts", words[1]).slice(0, LONGEST_SIGN) : words[2] === "late" ? "L" : glyph });
            if (comes && number === 0) this.letters.push({ place, row });
        }
    }

    /** The row of the task of which a line tells; its span goes up to that line. */
    #told(place, words) {
        const [lane, number] = words[1].split(".").map(Number), row = this.row(lane, ROW.task, number);
        this.ended(row.spans[0], place);
        return row;
    }

    /** The rows in the order of their bands; each then knows its place. */
    sorted() {
        if (!this.#isSorted) {
            const group = (row) => (row.kind === ROW.source ? ROW.context : row.kind);
            this.list.sort((a, b) => a.lane - b.lane || group(a) - group(b) || a.of - b.of || a.source - b.source);
            this.list.forEach((row, place) => (row.place = place));
            this.#isSorted = true;
        }
        return this.list;
    }
}

/** The context of a row, and its source, from the words of a line. */
function numbersIn(kind, words) {
    if (kind === ROW.source) return [Number(words[2]), Number(words[4])];
    return kind === ROW.context ? [Number(words[2])] : [];
}
