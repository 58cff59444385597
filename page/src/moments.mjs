// The moments of a run, read from the lines of its account (docs/ACCOUNT.md) into columns, since there may be a million of them.
import { Names } from "./names.mjs";

/** What a moment does, by the words of the account. */
const WORDS = ["polled", "acted", "returned", "dispatched", "passed_over", "iteration_ended", "iterated", "loop_ended", "rests", "handed_over", "received", "other"];
export const DID = Object.freeze(Object.fromEntries(WORDS.map((word, number) => [word, number])));

/** The lists of actions that are no procedure. */
export const START = -1, NOTHING = -2;
const LISTS = { start: START, nothing: NOTHING };

export class Moments {
    count = 0;
    ticks = 0;
    tickUs = 0;
    lanes = 0;
    names = new Names();
    /** Whether the last line of the account was read. */
    isOver = false;
    tick = [];
    lane = [];
    did = [];
    /** The context, or the list of a call. */
    of = [];
    /** The source, loop or lane, or the place of an action in its list. */
    at = [];
    /** The word of an action. */
    action = [];
    /** The lines that a moment writes, where it writes some. */
    lines = [];
    /** The context and the source that a moment attaches, and the ids that an iteration selects which it begins, where the account tells them. */
    attached = [];
    selected = [];

    /** Reads a line of the account: its first one, a move, or its last one. */
    read(line) {
        const told = JSON.parse(line);
        if (told.format) {
            [this.ticks, this.tickUs, this.lanes] = [told.ticks, told.tick_us, told.lanes];
            return this.names.take(told.names);
        }
        if (told.did === "over") return void (this.isOver = true);
        const place = this.count++;
        this.tick[place] = told.tick;
        this.lane[place] = told.lane;
        this.did[place] = DID[told.did] ?? DID.other;
        this.of[place] = told.procedure ?? LISTS[told.list] ?? told.context ?? -1;
        this.at[place] = told.place ?? told.source ?? told.loop ?? told.from ?? told.sender ?? -1;
        if (told.action) this.action[place] = told.action;
        for (const key of ["lines", "attached", "selected"]) if (told[key]) this[key][place] = told[key];
        if (told.attached) this.names.attached(told.attached);
    }
}

/** The words of a line behind its tick. */
export function wordsOf(line) {
    return line.slice(line.indexOf(" ") + 1).split(" ");
}
