// What is known of the current moment: its lines, the stack, the iteration that it belongs to, and the other dispatches of its source.
import { ITERATION } from "./frames.mjs";
import { DID } from "./moments.mjs";
import { button, element } from "./parts.mjs";
import { done, frameWords, when } from "./words.mjs";

const SHOWN = 20;

export class Detail {
    constructor(list, why) {
        [this.list, this.why] = [list, why];
    }

    show(model, place) {
        const { moments, frames } = model, stack = frames.stack(place);
        this.list.replaceChildren();
        this.#add("Moment", `${place + 1} of ${moments.count}: ${done(frames, place)}`);
        this.#add("When", when(moments, place));
        if (moments.lines[place]) this.#add("Writes", moments.lines[place].join("\n"));
        this.#add("In progress", stack.map((frame, depth) => `${"  ".repeat(depth)}${frameWords(frames, frame, place)}`).join("\n") || "nothing");
        const iteration = this.#iteration(model, stack, place);
        this.#source(model, stack);
        this.why.tick(this.#add("Why", "…"), model, place, iteration?.of ?? null);
    }

    /** The innermost iteration, who asked for it, and what it comes to; returns it. */
    #iteration({ moments, frames }, stack, place) {
        const own = moments.did.at(place) === DID.iteration_ended ? frames.innermost[place - 1] : null;
        const frame = own?.kind === ITERATION ? own : stack.findLast((it) => it.kind === ITERATION);
        if (!frame) return null;
        const { names } = moments, by = frame.loop >= 0 ? `loop ${names.of("loops", frame.loop)}` : "an iterate";
        this.#add("Iteration", `of context ${names.of("contexts", frame.of)}, by ${by}, from tick ${moments.tick.at(frame.from)}; dispatches `, [frame.from, ...frame.items], (at) =>
            at === frame.from ? "its beginning" : `${names.source(moments.of.at(at), moments.at.at(at))}${moments.did.at(at) === DID.passed_over ? " (passed over)" : ""}`);
        return frame;
    }

    #source(model, stack) {
        const frame = stack.findLast((it) => it.source !== undefined);
        if (!frame) return;
        const { spans } = frame.row, here = spans.indexOf(frame), first = Math.max(0, here - SHOWN / 2), { names } = model.moments;
        const near = spans.slice(first, first + SHOWN).map((it) => it.from);
        this.#add("Source", `${names.sourceAndNumbers(frame.context, frame.source)}, dispatch ${here + 1} of ${spans.length}; in tick `, near, (at) => `${model.moments.tick.at(at)}`);
        const life = element("dd", "");
        life.append(button(`Life of ${names.phrase(frame.context, frame.source)}`, () => this.why.life(life, model, frame.context, frame.source)));
        this.list.append(life);
    }

    /** Adds a part, with buttons that lead to places, and returns it. */
    #add(name, words, places = [], label = null) {
        const shown = element("dd", words);
        for (const place of places.slice(0, SHOWN)) shown.append(element("button", label(place), place), " ");
        if (places.length > SHOWN) shown.append(`and ${places.length - SHOWN} more`);
        this.list.append(element("dt", name), shown);
        return shown;
    }
}
