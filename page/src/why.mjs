// What the engine says of why sources were dispatched or not: of a moment's tick, of the life of a source, and of the whole run.
import { element } from "./parts.mjs";

const STILL = 150; // milliseconds for which a moment is the current one before the engine is asked
const KEPT = 64; // ticks
const MOST_TOLD = 400;
const NOTE = "note: ";
/** A name or a number in the engine's words: in quotes, as JSON has it, where it has other characters than letters, digits and some signs. */
const CALLED = '("(?:[^"\\\\]|\\\\.)*"|[^\\s,]+?)(?=[:,]?(?: |$))';
const HEADING = new RegExp(`^(?:note: )?ticks? .*?, thread ${CALLED}`), ITERATES = new RegExp(` iterates context ${CALLED}`);

/** The lines that tell of a thread, and of iterations of one context where it is given: lines that are set in belong to the one above them that is not. */
function linesOf(text, names, lane, context) {
    const bare = (told) => (told.startsWith('"') ? JSON.parse(told) : told);
    const is = (list, told, number) => told === undefined || number === null || bare(told) === names.whole(list, number);
    let isKept = true;
    return text.split("\n").slice(0, -1).filter((line) => {
        if (line.startsWith(" ")) return isKept;
        return (isKept = is("threads", HEADING.exec(line)?.[1], lane) && is("contexts", ITERATES.exec(line)?.[1], context));
    });
}

export class Why {
    #timer = 0;

    /** `ask` makes a call of the engine of a model's script. */
    constructor(ask) {
        this.ask = ask;
    }

    /** Fills a part with what is said of the tick of a moment. */
    tick(shown, model, place, context) {
        const { moments } = model, { names } = moments, tick = moments.tick.at(place), known = model.why.get(tick);
        const tell = (text) => told(shown, linesOf(text, names, moments.lane.at(place), context), "no iteration begins");
        clearTimeout(this.#timer);
        if (known !== undefined) return void tell(known);
        this.#timer = setTimeout(() => this.#asked(shown, "why", [model, tick, tick], (text) => {
            if (model.why.size >= KEPT) model.why.clear();
            model.why.set(tick, text);
            tell(text);
        }), STILL);
    }

    life(shown, model, context, source) {
        return this.#asked(shown, "life", [model, context, source], (text) => told(shown, text.split("\n").slice(0, -1), "nothing"));
    }

    summary(shown, model) {
        return this.#asked(shown, "summary", [model], (text) => told(shown, text.split("\n").slice(0, -1), "nothing"));
    }

    #asked(shown, call, words, tell) {
        return this.ask(call, ...words).then(tell, (thrown) => told(shown, [], `no answer: ${thrown.message}`));
    }
}

function told(shown, lines, none) {
    const item = (line) => (line.startsWith(NOTE) ? Object.assign(element("div", `≠ ${line}`), { className: "note" }) : element("div", line));
    shown.replaceChildren(...lines.slice(0, MOST_TOLD).map(item));
    if (lines.length !== shown.children.length) shown.append(`and ${lines.length - MOST_TOLD} lines more`);
    if (lines.length === 0) shown.textContent = none;
}
