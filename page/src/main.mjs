// The page: what is typed is looked at, run, and shown; one moment is the current one, in the picture, the table, the text and beside them.
import { MainctxError } from "../../bindings/web/mainctx.mjs";
import { Detail } from "./detail.mjs";
import { Editor } from "./editor.mjs";
import { MOST_MOMENTS, begun, pieces, scriptOf } from "./engine.mjs";
import { bytesOf, inflated, packed, unpacked } from "./link.mjs";
import { Model } from "./model.mjs";
import { button, element } from "./parts.mjs";
import { Picture } from "./picture.mjs";
import { Steps } from "./steps.mjs";
import { Text } from "./text.mjs";
import { Why } from "./why.mjs";
import { found, sentence } from "./words.mjs";

const WAIT = 250; // milliseconds from the last change to the run
const LONG = 1000; // milliseconds from which on a run is said to go on
const SLICE = 8_192; // lines that are read at once
const ZOOM = 1.5;
const LINK_AT_MOST = 100_000; // characters

const part = (id) => document.getElementById(id);
const given = (id) => part(id).textContent.trim();
const pause = (ms = 0) => new Promise((go) => setTimeout(go, ms));

const examples = JSON.parse(given("examples"));
const pick = (place) => go(place, true);
const picture = new Picture(part("picture"), pick), steps = new Steps(part("steps")), text = new Text(part("text"));
const why = new Why(ask), detail = new Detail(part("detail"), why);
const editor = new Editor({ area: part("script"), back: part("back"), numbers: part("numbers"), list: part("faults") }, later);
const engine = await begun(await inflated(bytesOf(given("module"))), part("worker").textContent);

/** What is shown, for whoever tries the page: the job that is the latest, and what it came to. */
const shown = { job: 0, isBusy: false, model: null, current: null, asks: 0, text: "", refused: null, begin: 0, firstPicture: 0 };
globalThis.mainctxPage = { shown, editor, picture, engine, go, run };
let timer = 0;

function later() {
    clearTimeout(timer);
    timer = setTimeout(run, WAIT);
}

function say(words) {
    part("status").textContent = words;
}

/** Looks at the script, runs it, and shows it; what went on before is stopped. */
async function run() {
    clearTimeout(timer);
    if (shown.isBusy || shown.asks) engine.abort();
    const job = ++shown.job, script = editor.script, isLatest = () => job === shown.job;
    Object.assign(shown, { isBusy: true, refused: null, begin: performance.now(), firstPicture: 0 });
    const ticker = setInterval(() => isLatest() && waiting(), LONG);
    try {
        const faults = await engine.check(script);
        if (!isLatest()) return;
        editor.mark(faults);
        await show(await scriptOf(engine, script), isLatest);
    } catch (thrown) {
        if (isLatest()) refused(thrown);
    } finally {
        clearInterval(ticker);
        if (isLatest()) idle();
    }
    const link = await packed(script);
    if (isLatest()) history.replaceState(null, "", link.length <= LINK_AT_MOST ? link : "#");
}

function idle() {
    shown.isBusy = false;
    part("stop").hidden = true;
}

function refused(thrown) {
    shown.refused = thrown instanceof MainctxError ? thrown.fault : "page";
    if (shown.refused === "page") console.error(thrown);
    const words = { memory: "out of memory", trap: `the engine stopped: ${thrown.message}`, aborted: "stopped", page: `a fault of this page: ${thrown.message}` };
    say(words[shown.refused] ?? `refused: ${thrown.message}. What is shown is the run before.`);
}

function waiting() {
    const { moments } = shown.model ?? {}, seconds = Math.round((performance.now() - shown.begin) / 1000);
    const told = moments && shown.isTold === shown.job ? `, ${moments.count} moments so far, up to tick ${moments.tick.at(moments.count - 1)} of ${moments.ticks}` : "";
    say(`runs for ${seconds} s${told}`);
    part("stop").hidden = false;
}

/** Shows a run: the beginning of its account, its text, and the rest of the account. */
async function show(script, isLatest) {
    let model = null;
    for await (const lines of pieces(engine, script)) {
        model ??= new Model(script);
        for (let from = 0; from < lines.length && isLatest(); from += SLICE) {
            for (const line of lines.slice(from, from + SLICE)) model.read(line);
            present(model);
            await pause();
        }
        const ran = isLatest() && !shown.text ? await engine.run(script.numbers) : null;
        if (!isLatest()) return;
        if (ran) text.show((shown.text = ran.text), model);
    }
    summed(model);
    if (model.moments.isOver) why.summary(part("summary"), model);
}

/** Shows what is known of a model. */
function present(model) {
    const isNew = shown.model !== model;
    Object.assign(shown, { model, isTold: shown.job });
    model.places.settle(part("folds").checked);
    if (isNew) {
        part("picture").scrollTo(0, 0);
        part("summary").textContent = "…";
        picture.current = shown.current = null;
        text.show((shown.text = ""), model);
    }
    picture.show(model);
    if (!isNew) return void steps.show(model, shown.current);
    go(0, false);
    requestAnimationFrame(() => (shown.firstPicture ||= performance.now() - shown.begin));
}

/** The answer of a call of the engine of the script that is shown, once its run is told; what was asked of the moment before is stopped. */
async function ask(call, model, ...words) {
    while (shown.isBusy) await pause(WAIT);
    if (model !== shown.model) throw new MainctxError("aborted");
    if (call === "why" && shown.asks) engine.abort();
    shown.asks++;
    const { text: answer } = await engine[call](model.script.written, ...words).finally(() => shown.asks--);
    return answer;
}

/** Says what a run came to, and what is left out of it. */
function summed(model) {
    const { moments, dispatches } = model, notes = [];
    if (!moments.isOver) notes.push(`The picture has the first ${MOST_MOMENTS} moments; the text is whole.`);
    if (text.leftOut) notes.push(`The last ${text.leftOut} lines of the text are left out.`);
    if (moments.isOver && model.text() !== shown.text) notes.push("The account tells another text than the run: this is a fault, please report it.");
    const counted = (count, name, end = "s") => `${count} ${name}${count === 1 ? "" : end}`;
    const counts = [counted(moments.ticks, "tick"), counted(moments.lanes, "thread"), counted(moments.count, "moment"), counted(dispatches.length, "dispatch", "es")];
    say([`${counts.join(", ")}.`, ...notes].join(" "));
}

/** Makes a moment the current one. */
function go(place, isTold) {
    const { model } = shown;
    if (!model || place === null || !(place >= 0 && place < model.moments.count)) return;
    shown.current = place;
    picture.go(place);
    text.go(place);
    steps.show(model, place);
    detail.show(model, place);
    if (isTold) part("told").textContent = sentence(model.frames, place);
}

/** The next dispatch, forwards or back. */
function dispatch(step) {
    const { dispatches } = shown.model;
    return (step > 0 ? dispatches.find((place) => place > shown.current) : dispatches.findLast((place) => place < shown.current)) ?? null;
}

/** The first moment of the next tick that has some, or of the one before. */
function tick(step) {
    const { moments, places } = shown.model, now = moments.tick.at(shown.current);
    if (step > 0) return places.firstOf(now + 1);
    return places.firstOf(moments.tick.at(Math.max(0, places.firstOf(now) - 1)));
}

const KEYS = {
    ArrowRight: () => pick(shown.current + 1), ArrowLeft: () => pick(shown.current - 1), ArrowDown: () => pick(dispatch(1)), ArrowUp: () => pick(dispatch(-1)),
    PageDown: () => pick(tick(1)), PageUp: () => pick(tick(-1)), Home: () => pick(0), End: () => pick(shown.model.moments.count - 1),
    "+": () => picture.zoomBy(ZOOM), "-": () => picture.zoomBy(1 / ZOOM), 0: () => picture.fit(), "/": () => part("search").focus(),
};

function key(event) {
    if (event.key === "Enter" && event.ctrlKey) return void run();
    if (event.target.closest("textarea, input, select, summary") || event.ctrlKey || event.altKey || event.metaKey) return;
    if (!KEYS[event.key] || shown.current === null) return;
    event.preventDefault();
    KEYS[event.key]();
}

function search(step) {
    const place = shown.model && found(shown.model, part("search").value, shown.current ?? 0, step);
    if (place === null) say(`nothing is found of “${part("search").value}”`);
    else go(place, true);
}

/** Shows an example, or the script of the link or of this page. */
function put(script) {
    editor.script = script;
    run();
}

const clicks = {
    run, link: async () => {
        const link = location.href.split("#")[0] + (await packed(editor.script)), isShort = link.length <= LINK_AT_MOST;
        const copied = isShort && navigator.clipboard?.writeText(link).then(() => "the link is copied", () => null);
        say((await copied) || (isShort ? "the link stands in the address of this page" : "the script is too long for a link"));
    },
    stop: () => {
        shown.job++;
        engine.abort();
        idle();
        say(`stopped; ${shown.model?.moments.count ?? 0} moments are shown`);
    },
    nearer: KEYS["+"], farther: KEYS["-"], fit: KEYS[0], before: KEYS.ArrowLeft, next: KEYS.ArrowRight,
    folds: () => shown.model && present(shown.model),
    find: () => search(1), findBack: () => search(-1),
};
for (const [id, act] of Object.entries(clicks)) part(id).addEventListener("click", act);
part("search").addEventListener("keydown", (event) => event.key === "Enter" && search(event.shiftKey ? -1 : 1));
document.addEventListener("keydown", key);
document.addEventListener("click", (event) => {
    const place = event.target.closest("[data-place]")?.dataset.place;
    if (place) pick(Number(place));
});
addEventListener("hashchange", () => linked());

async function linked() {
    try {
        const script = await unpacked(location.hash);
        if (script !== null && script !== editor.script) put(script);
        return script;
    } catch (fault) {
        return say(`this link has no script that can be read: ${fault.message}`);
    }
}

/** An example, with names where it has that form. */
const exampleOf = ({ named, script }) => named ?? script;

for (const example of examples) {
    const item = element("li", "");
    item.append(button(example.name, () => put(exampleOf(example))), ` ${example.sentence}`);
    part("gallery").append(item);
}
// else the script that `mainctx_inspect page` put into this page, or the first example
if ((await linked()) === null) put(given("given") ? new TextDecoder().decode(bytesOf(given("given"))) : exampleOf(examples[0]));
