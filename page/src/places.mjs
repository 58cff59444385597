// Where moments stand in the picture, from left to right: ticks one after another, and in a tick the moments of each thread side by side with
// those of the others, first the turns and then what they sent. One moment is one unit wide. Ticks in which nothing happens are folded.
import { DID } from "./moments.mjs";

const FOLD = 3; // units of ticks that are folded
const GAP = 1; // units between two ticks

export class Places {
    /** All units. */
    width = 0;
    /** The ticks in their order: {first, last, x, width, isFolded}, where folded ones are one. */
    columns = [];
    #folds = true;
    #slot = [];
    #x = [];
    #turns = [];
    #widths = [];
    #loud = [];
    #firsts = [];
    #now = { tick: -1, counts: new Map() };

    constructor(moments) {
        this.moments = moments;
    }

    /** Takes the next moment. */
    take(place) {
        const { moments } = this, tick = moments.tick.at(place), lane = moments.lane.at(place), did = moments.did.at(place);
        if (tick !== this.#now.tick) {
            this.#now = { tick, counts: new Map() };
            [this.#turns[tick], this.#widths[tick], this.#firsts[tick]] = [0, 0, place];
        }
        const isLetter = did === DID.received || did === DID.handed_over, key = lane * 2 + Number(isLetter), count = this.#now.counts.get(key) ?? 0;
        this.#now.counts.set(key, count + 1);
        this.#slot[place] = isLetter ? this.#turns[tick] + count : count;
        this.#widths[tick] = Math.max(this.#widths[tick], this.#slot[place] + 1);
        if (!isLetter) this.#turns[tick] = this.#widths[tick];
        const isQuiet = did === DID.polled || did === DID.rests || did === DID.iterated || did === DID.iteration_ended;
        if (!isQuiet || moments.lines[place]) this.#loud[tick] = true;
    }

    /** Puts the ticks side by side, as far as they are known, quiet ones folded or not. */
    settle(folds) {
        this.#folds = folds;
        const { moments } = this, known = moments.isOver ? moments.ticks : this.#now.tick + 1;
        this.columns = [];
        let x = 0;
        for (let tick = 0; tick < known; tick++) {
            const last = this.columns.at(-1), isFolded = folds ? !this.#loud[tick] : this.#turns[tick] === undefined;
            if (isFolded && last?.isFolded) {
                last.last = tick;
            } else {
                x = last ? last.x + last.width : 0;
                const width = isFolded ? FOLD : this.#widths[tick] + GAP;
                this.columns.push({ first: tick, last: tick, x, width, isFolded });
            }
            this.#x[tick] = this.columns.at(-1).x;
        }
        const last = this.columns.at(-1);
        this.width = last ? last.x + last.width : 0;
    }

    /** The unit at which a moment stands. */
    of(place) {
        const tick = this.moments.tick.at(place);
        return this.#folds && !this.#loud[tick] ? this.#x[tick] : this.#x[tick] + this.#slot[place];
    }

    /** The unit behind the turns of a tick, at which letters leave. */
    sent(tick) {
        return this.#x[tick] + this.#turns[tick];
    }

    /** The column of a unit. */
    columnAt(unit) {
        return Math.max(0, firstOf(this.columns.length, (it) => this.columns[it].x > unit) - 1);
    }

    /** The last moment of a lane that stands at a unit or before it in its column, or else the first of that column, or null. */
    momentAt(unit, lane) {
        const column = this.columns[this.columnAt(unit)];
        if (!column) return null;
        let found = null;
        for (let place = this.firstOf(column.first); place < this.moments.count && this.moments.tick.at(place) <= column.last; place++) {
            if (this.moments.lane.at(place) === lane && (found === null || this.of(place) <= unit)) found = place;
        }
        return found;
    }

    /** The first moment of a tick, or of the next one that has some. */
    firstOf(tick) {
        for (let it = tick; it < this.#firsts.length; it++) if (this.#firsts[it] !== undefined) return this.#firsts[it];
        return this.moments.count;
    }
}

/** The first number from 0 on for which it holds, or the count: where it holds for one, it does for those behind it. */
export function firstOf(count, holds) {
    let low = 0, high = count;
    while (low < high) {
        const middle = (low + high) >> 1;
        if (holds(middle)) high = middle;
        else low = middle + 1;
    }
    return low;
}
