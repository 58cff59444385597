// The calls of mainctx.mjs, made in a worker: the caller's thread goes on, and a run that takes too long can be stopped.
import { MainctxError } from "./mainctx.mjs";

/** Loads the module into a worker. `source` is the module's bytes, or its address; `script` the address of worker.mjs. */
export async function open(source, script = new URL("./worker.mjs", import.meta.url)) {
    const remote = new Remote(source, script, globalThis.Worker ?? (await import("node:worker_threads")).Worker);
    await remote.ready();
    return remote;
}

/** The engine in a worker. Calls are made one after another; after `abort` the next one starts a new worker. In Node a worker without a call keeps
 * no process from its end. */
class Remote {
    #source;
    #script;
    #Worker;
    #worker = null;
    #loaded = null;
    #waiting = new Map();
    #calls = 0;

    constructor(source, script, Worker) {
        this.#source = source instanceof URL ? source.href : source;
        this.#script = script;
        this.#Worker = Worker;
    }

    run(script) {
        return this.#called("run", script);
    }

    translate(script) {
        return this.#called("translate", script);
    }

    check(script) {
        return this.#called("check", script);
    }

    account(script, from, most) {
        return this.#called("account", script, from, most);
    }

    why(script, first, last) {
        return this.#called("why", script, first, last);
    }

    life(script, context, id, first, last) {
        return this.#called("life", script, context, id, first, last);
    }

    text(script, notes) {
        return this.#called("text", script, notes);
    }

    summary(script) {
        return this.#called("summary", script);
    }

    notes(script) {
        return this.#called("notes", script);
    }

    steps(script, first, last, thread) {
        return this.#called("steps", script, first, last, thread);
    }

    stack(script, thread, tick, step) {
        return this.#called("stack", script, thread, tick, step);
    }

    timeline(script, columns, first, last, thread) {
        return this.#called("timeline", script, columns, first, last, thread);
    }

    version() {
        return this.#called("version");
    }

    /** Waits until the module is loaded, and answers whether it gives accounts. */
    ready() {
        if (!this.#worker) this.#start();
        return this.#loaded;
    }

    /** Ends the worker at once: calls without an answer get a MainctxError whose fault is "aborted". */
    abort() {
        this.#worker?.terminate();
        this.#worker = null;
        const waiting = [...this.#waiting.values()];
        this.#waiting.clear();
        for (const { refuse } of waiting) refuse(new MainctxError("aborted"));
    }

    #start() {
        this.#worker = new this.#Worker(this.#script, { type: "module" });
        const listen = (name, hear) => (this.#worker.on ? this.#worker.on(name, hear) : (this.#worker[`on${name}`] = hear));
        listen("message", (message) => this.#hear(message.data ?? message));
        listen("error", () => this.abort());
        this.#loaded = this.#sent("load", [this.#source]);
        this.#loaded.catch(() => {});
    }

    async #called(call, ...words) {
        await this.ready();
        return this.#sent(call, words);
    }

    #sent(call, words) {
        const id = this.#calls++;
        return new Promise((give, refuse) => {
            if (!this.#worker) throw new MainctxError("aborted");
            this.#waiting.set(id, { give, refuse });
            this.#worker.ref?.();
            this.#worker.postMessage({ id, call, words });
        });
    }

    #hear({ id, answer, fault, message }) {
        const call = this.#waiting.get(id);
        this.#waiting.delete(id);
        if (this.#waiting.size === 0) this.#worker.unref?.();
        if (!call) return;
        if (fault) call.refuse(new MainctxError(fault, message));
        else call.give(answer);
    }
}
