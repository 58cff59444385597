// Names of what a script speaks of, as the account of a script with names tells them; where it tells none, numbers stand.

const LONGEST = 40; // characters of a name that are shown

export class Names {
    /** Whether the script has names. */
    isNamed = false;
    #lists = {};
    #sources = new Map();
    #tasks = new Map();

    /** Takes the names of the first line of an account. */
    take(lists) {
        if (lists) [this.#lists, this.isNamed] = [lists, true];
    }

    /** The name of a thread, a context, a loop and so on, of a number in the list of that key; or the number. */
    of(list, number) {
        return short(this.whole(list, number));
    }

    /** The same, and as long as it is. */
    whole(list, number) {
        return this.#lists[list]?.[number] ?? String(number);
    }

    /** Takes what a source is called that is attached. */
    attached({ context, source, name }) {
        if (name !== undefined) this.#sources.set(`${context}.${source}`, short(name));
    }

    /** Takes the text of a task that is started, which is for readers alone: what is told of it calls it by its thread. */
    started(lane, number, text) {
        if (typeof text === "string") this.#tasks.set(`${lane}.${number}`, `${short(text)} (${this.#byThread(lane, number)})`);
    }

    /** What a source is called, or undefined. */
    nameOf(context, source) {
        return this.#sources.get(`${context}.${source}`);
    }

    /** A source as a sentence has it. */
    phrase(context, source) {
        return this.nameOf(context, source) ?? `source ${context}.${source}`;
    }

    /** A source: its name, or its numbers. */
    source(context, source) {
        return this.nameOf(context, source) ?? `${context}.${source}`;
    }

    /** A source among those of its context. */
    sourceIn(context, source) {
        return this.nameOf(context, source) ?? String(source);
    }

    /** A source with its numbers, by which the text tells it. */
    sourceAndNumbers(context, source) {
        const name = this.nameOf(context, source), numbers = `${context}.${source}`;
        return name === undefined ? numbers : `${name} (${numbers})`;
    }

    task(lane, number) {
        return this.#tasks.get(`${lane}.${number}`) ?? this.#byThread(lane, number);
    }

    #byThread(lane, number) {
        return `${this.of("threads", lane)}.${number}`;
    }
}

function short(name) {
    return name.length > LONGEST ? `${name.slice(0, LONGEST)}…` : name;
}
