// The engine of the page: in a worker where the browser starts one, else in the page itself; and scripts as it takes them.
import { load } from "../../bindings/web/mainctx.mjs";
import { open } from "../../bindings/web/remote.mjs";

/** Moments beyond which no account is asked for. */
export const MOST_MOMENTS = 1_000_000;

const FIRST_MOMENTS = 8_192;
const OVER = '"did":"over"'; // of the last line

/** Loads the module of these bytes; `worker` is the text of the worker. */
export async function begun(bytes, worker) {
    try {
        return await open(bytes, URL.createObjectURL(new Blob([worker], { type: "text/javascript" })));
    } catch {
        return Object.assign(await load(bytes), { abort() {} });
    }
}

/** A script as it is written and in numbers, which differ where it has names. */
export async function scriptOf(engine, written) {
    const { text: numbers } = await engine.translate(written);
    return { written, numbers };
}

/** The account of a run in pieces, with the names of a script that has some; each twice as long as the one before: a piece is made by a run from the beginning, so they cost twice the whole together. */
export async function* pieces(engine, { written }) {
    let from = 0;
    for (let most = FIRST_MOMENTS; from < MOST_MOMENTS; most *= 2) {
        const wanted = Math.min(most, MOST_MOMENTS - from), lines = await engine.account(written, from, wanted);
        yield from === 0 ? lines : lines.slice(1);
        if (lines.at(-1).includes(OVER)) return;
        from += wanted;
    }
}
