// Moments, stacks and times in words, and moments found by them.
import { CALL, LOOP } from "./frames.mjs";
import { DID, NOTHING, START } from "./moments.mjs";

const SHOWN_IDS = 12;
const OUTER = 3, INNER = 4; // frames that a short stack has at both ends
const SHOWN_WORDS = 60; // characters of an action
const US_IN_MS = 1000;

/** A tick's time, in milliseconds. */
export function timeOf(moments, tick) {
    return `${Number(((tick * moments.tickUs) / US_IN_MS).toFixed(3))} ms`;
}

/** When a moment is, and in which thread. */
export function when(moments, place) {
    const tick = moments.tick.at(place);
    return `tick ${tick}, ${timeOf(moments, tick)}, thread ${moments.names.of("threads", moments.lane.at(place))}`;
}

/** The name of a list of actions. */
function listName(names, of) {
    if (of === START) return "the start list";
    return of === NOTHING ? "the call of a dummy" : `procedure ${names.of("procedures", of)}`;
}

/** What a moment does. */
export function done(frames, place) {
    const { moments } = frames, { names } = moments, of = moments.of.at(place), at = moments.at.at(place);
    switch (moments.did.at(place)) {
        case DID.polled: return "the turn begins, tasks are polled";
        case DID.acted: return actionWords(frames.writtenAt(place) ?? [moments.action[place]]);
        case DID.returned: return `${listName(names, of)} is over`;
        case DID.dispatched: return `${names.phrase(of, at)} is dispatched`;
        case DID.passed_over: return `${names.phrase(of, at)} is passed over`;
        case DID.iteration_ended: return "the iteration is over";
        case DID.iterated: return `loop ${names.of("loops", at)} iterates context ${names.of("contexts", of)}`;
        case DID.loop_ended: return `loop ${names.of("loops", at)} ends`;
        case DID.rests: return "the thread rests";
        case DID.handed_over: return `context ${names.of("contexts", of)} comes from thread ${names.of("threads", at)}`;
        case DID.received: return `thread ${names.of("threads", at)} sent something`;
        default: return "a move that this page does not know";
    }
}

/** An action in words: its parts, or of one with names its keys and what stands under them, but for what is only true. */
function actionWords(action) {
    const parts = Array.isArray(action) ? action : Object.entries(action).flatMap(([key, part]) => (part === true ? [key] : [key, part]));
    const words = parts.map((part) => (typeof part === "object" ? JSON.stringify(part) : String(part))).join(" ");
    return words.length > SHOWN_WORDS ? `${words.slice(0, SHOWN_WORDS)}…` : words;
}

/** A frame as docs/STEP.md draws it. */
export function frameWords(frames, frame, place) {
    const { moments } = frames, { names } = moments;
    if (frame.kind === LOOP) return `loop ${names.of("loops", frame.of)}`;
    if (frame.kind === CALL) return frame.of === START ? "start" : frame.of >= 0 ? `call ${names.of("procedures", frame.of)}` : "call";
    const ids = idsLeft(moments, frame, place).map((id) => names.sourceIn(frame.of, id));
    return `iter [${ids.slice(0, SHOWN_IDS).join(names.isNamed ? ", " : " ")}${ids.length > SHOWN_IDS ? " …" : ""}]`;
}

/** The ids that an iteration has left after a moment; where the account does not tell what it selected, those that it still comes to. */
function idsLeft(moments, { items, selected, dropped }, place) {
    if (!selected) return items.filter((item) => item > place).map((item) => moments.at.at(item));
    return place < dropped ? selected.slice(items.filter((item) => item <= place).length) : [];
}

/** What is in progress after a moment, the outermost first; of a deep stack only the ends where it is to be short. */
export function stackWords(frames, place, isShort = false) {
    const words = frames.stack(place).map((frame) => frameWords(frames, frame, place)), more = words.length - OUTER - INNER;
    if (isShort && more > 1) words.splice(OUTER, more, `… ${more} more …`);
    return words.join(", ") || "nothing";
}

/** A moment in one sentence, for a reader of the screen. */
export function sentence(frames, place) {
    const lines = frames.moments.lines[place], written = lines ? `; writes ${lines.join("; ")}` : "";
    return `${when(frames.moments, place)}: ${done(frames, place)}; in progress: ${stackWords(frames, place)}${written}`;
}

/** The next moment from one on, forwards or back, of which the words tell, or null; round the end of the run. */
export function found({ moments, frames }, words, from, step) {
    const wanted = words.trim().toLowerCase(), { count } = moments;
    if (!wanted) return null;
    for (let n = 1; n <= count; n++) {
        const place = (from + n * step + count * 2) % count;
        const told = `${moments.lines[place]?.join("\n") ?? ""}\n${done(frames, place)}`;
        if (told.toLowerCase().includes(wanted)) return place;
    }
    return null;
}
