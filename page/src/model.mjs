// All that is worked out from the moments of a run, as they come: what is in progress, the rows of the picture, places, and which moment wrote which line.
import { Frames } from "./frames.mjs";
import { Moments } from "./moments.mjs";
import { Places } from "./places.mjs";
import { Rows } from "./rows.mjs";

export class Model {
    /** The moment of each line of a thread, in the order of its lines. */
    writers = [];
    /** The moments that dispatch. */
    dispatches = [];
    /** What the engine said of why sources were dispatched, by tick. */
    why = new Map();

    /** `script` is what was run, as it is written and in numbers (engine.mjs). */
    constructor(script) {
        [this.script, this.moments] = [script, new Moments()];
        this.rows = new Rows(this.moments.names);
        this.frames = new Frames(this.moments, script, this.rows);
        this.places = new Places(this.moments);
    }

    /** Reads a line of the account, and works out what follows from the moment that it tells, if it tells one. */
    read(line) {
        const { moments, frames } = this, place = moments.count;
        moments.read(line);
        if (moments.count === place) return;
        frames.take(place);
        this.places.take(place);
        if (frames.innermost[place]?.from === place && frames.innermost[place].source !== undefined) this.dispatches.push(place);
        const writers = (this.writers[moments.lane.at(place)] ??= []);
        moments.lines[place]?.forEach(() => writers.push(place));
    }

    /** The text, from the lines of the moments. */
    text() {
        const { moments } = this, told = Array.from({ length: moments.lanes }, (_, lane) => [`thread ${lane}\n`]);
        moments.lines.forEach((lines, place) => told[moments.lane.at(place)].push(...lines.map((line) => `${line}\n`)));
        return told.flat().join("");
    }
}
