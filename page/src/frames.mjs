// What is in progress in each lane after each moment, worked out from the moments: calls, iterations and runs of loops (docs/STEP.md).
// A frame is a span of the picture too: it goes from the moment that pushes it to the one that drops it.
import { DID, START, wordsOf } from "./moments.mjs";

export const CALL = "call", ITERATION = "iter", LOOP = "loop";

/** Frames above frames: each knows the one that it stands on, so the stack after a moment is the innermost frame alone. */
export class Frames {
    /** The innermost frame after each moment, or null. */
    innermost = [];
    #top = [];

    /** `script` is what was run, as it is written and in numbers; `rows` is told of each frame and of each moment. */
    constructor(moments, { written, numbers }, rows) {
        [this.moments, this.rows, this.script] = [moments, rows, JSON.parse(numbers)];
        this.written = written === numbers ? this.script : JSON.parse(written);
    }

    /** Takes the next moment. */
    take(place) {
        const { moments } = this, lane = moments.lane.at(place), told = (moments.lines[place] ?? []).map(wordsOf), did = moments.did.at(place);
        if (this.#top[lane] === undefined) this.#push(place, lane, { kind: CALL, of: START });
        this.#moved(place, lane, told);
        this.innermost[place] = this.#top[lane];
        this.rows.mark(place, lane, told, (did === DID.received || did === DID.handed_over) && moments.at.at(place) !== lane);
    }

    #moved(place, lane, told) {
        const { moments } = this, did = moments.did.at(place), of = moments.of.at(place), at = moments.at.at(place), top = this.#top[lane];
        // a call is known by its list of actions once it does something
        if (top?.kind === CALL && (did === DID.acted || did === DID.returned)) top.of = of;
        if (did === DID.dispatched || did === DID.passed_over) top?.items?.push(place);
        switch (did) {
            case DID.acted:
                return this.#acted(place, lane, told);
            case DID.dispatched:
                // where the thread is halted in its place, no line tells of a dispatch
                for (const words of told) {
                    if (words[0] === "dispatch") this.#push(place, lane, { kind: CALL, of: undefined, context: of, source: at, depth: Number(words[8]) });
                }
                return;
            case DID.iterated:
                if (top?.kind === LOOP) top.of = at;
                return this.#iterate(place, lane, of, at);
            case DID.returned:
            case DID.iteration_ended:
            case DID.loop_ended:
                return this.#drop(place, lane);
        }
    }

    /** Three actions leave a frame where nothing was missed, answered at once or halted; one starts a task. */
    #acted(place, lane, told) {
        const { moments } = this, says = (word) => told.some((words) => words[0] === word);
        const [, first, second] = this.actionAt(place) ?? [];
        if (says("halt")) return;
        const action = moments.action[place];
        if (action === "run" && !says("miss")) this.#push(place, lane, { kind: LOOP, of: first ?? -1 });
        else if (action === "iterate" && !says("iterate")) this.#iterate(place, lane, first ?? -1, -1);
        else if (action === "invoke" && told.some((words) => words[3] === "direct")) this.#push(place, lane, { kind: CALL, of: second ?? -1 });
        else if (action === "task") this.rows.started(place, lane, this.writtenAt(place)?.task);
        else if (moments.attached[place]) this.rows.attached(place, lane, moments.attached[place]);
    }

    /** An iteration begins: what older ones of its context have left is dropped. */
    #iterate(place, lane, of, loop) {
        for (let older = this.#top[lane]; older; older = older.below) {
            if (older.kind === ITERATION && older.of === of) older.dropped = Math.min(older.dropped, place);
        }
        this.#push(place, lane, { kind: ITERATION, of, loop, items: [], selected: this.moments.selected[place], dropped: Infinity });
    }

    /** The action of a moment, in numbers. */
    actionAt(place) {
        const { moments, script } = this, list = moments.of.at(place);
        const actions = list === START ? script.lanes?.[moments.lane.at(place)]?.start : script.procs?.[list]?.do;
        return actions?.[moments.at.at(place)];
    }

    /** The action of a moment as it is written: an object where the script has names. */
    writtenAt(place) {
        const { moments, written } = this, { names } = moments, list = moments.of.at(place);
        const start = () => written.threads?.[names.whole("threads", moments.lane.at(place))]?.start;
        const actions = list === START ? start() : written.procedures?.[names.whole("procedures", list)]?.do;
        return actions?.[moments.at.at(place)] ?? this.actionAt(place);
    }

    #push(place, lane, frame) {
        Object.assign(frame, { lane, from: place, to: Infinity, below: this.#top[lane] ?? null });
        this.#top[lane] = frame;
        this.rows.span(frame);
    }

    #drop(place, lane) {
        const frame = this.#top[lane];
        if (!frame) return;
        this.#top[lane] = frame.below;
        this.rows.ended(frame, place);
    }

    /** What is in progress after a moment, the outermost first. */
    stack(place) {
        const frames = [];
        for (let frame = this.innermost[place]; frame; frame = frame.below) frames.unshift(frame);
        return frames;
    }
}
