// What the test tries of the module, in Node and in a browser alike: answers {passed, failed, told}. A case is {name, script, wanted}, both bytes in base64; one with
// names {name, script, numbers}, a text and what it stands for.
import { load, MainctxError } from "./mainctx.mjs";
import { open } from "./remote.mjs";

const CLASSES = ["not json", "shape", "limit", "reference", "rule"];
const LONG_RUN = '{"version":1,"ticks":4096,"tick_us":1,"loops":[0],"procs":[{"do":[],"keep":null}],"lanes":[{"contexts":1,"start":[' +
    '["attach",0,0,{"kind":["idle"],"call":0}],'.repeat(250) + '["run",0]]}]}';
const SHORT_RUN = '{"version":1,"ticks":1,"tick_us":1,"lanes":[{"contexts":1,"start":[["log",7]]}]}';
const PAUSE = 50; // milliseconds
const VERSION = 2; // of the calls, as bindings/c/mainctx.h has it
/** A module whose run stops. */
const STOPS = "AGFzbQEAAAABEwNgAX4BfmABfgBgBX5+fn5+AX8DBAMAAQIFAwEAAQc3BAZtZW1vcnkCAA1tYWluY3R4X2FsbG9jAAAMbWFpbmN0eF9mcmVlAAELbWFpbmN0eF9ydW4AAgoPAwUAQsAACwMAAQsDAAAL";

class Count {
    passed = 0;
    failed = 0;
    told = [];

    async take(name, test) {
        let fault;
        try {
            fault = await test();
        } catch (thrown) {
            fault = String(thrown.stack ?? thrown);
        }
        if (!fault) return void this.passed++;
        this.failed++;
        this.told.push(`${name}: ${fault}`);
    }
}

const bytesOf = (words) => Uint8Array.from(atob(words), (character) => character.charCodeAt(0));

/** The text of a script, or the line that says its class of fault. */
async function answer(engine, script) {
    try {
        return (await engine.run(script)).text;
    } catch (refused) {
        if (!(refused instanceof MainctxError)) throw refused;
        return `${refused.message}\n`;
    }
}

/** The text or the class to the byte; the faults that are told are of that class and of none before it; and so in the account, where there is one. */
async function vector(engine, { script, wanted }) {
    const bytes = bytesOf(script), told = await answer(engine, bytes), right = new TextDecoder().decode(bytesOf(wanted));
    if (told !== right) return `${JSON.stringify(told.slice(0, 80))} in place of ${JSON.stringify(right.slice(0, 80))}`;
    const first = Math.min(...(await engine.check(bytes)).map((fault) => CLASSES.indexOf(fault.class)));
    const classOf = told.startsWith("script: ") ? CLASSES.indexOf(told.slice("script: ".length, -1)) : Infinity;
    if (first !== classOf) return `faults of class ${first} in place of ${classOf}`;
    if (!engine.tells || classOf !== Infinity) return null;
    if ((await engine.text(bytes)).text !== right) return "another text by its own call";
    return textOf(await engine.account(bytes)) === right ? null : "another text by its account";
}

/** The text that an account's lines make. */
function textOf(lines) {
    const [first, ...moves] = lines.map((line) => JSON.parse(line));
    const told = Array.from({ length: first.lanes }, (_, lane) => [`thread ${lane}`]);
    for (const move of moves) if (move.lines) told[move.lane].push(...move.lines);
    return told.flat().map((line) => `${line}\n`).join("");
}

/** What a script with names stands for, which runs; nothing is wrong with it, and the account has its names. */
async function translation(engine, { script, numbers }) {
    const { text } = await engine.translate(script), account = (await engine.account(script)).map((line) => JSON.parse(line));
    if (!isSame(JSON.parse(text), numbers)) return `${text.slice(0, 200)} in place of ${JSON.stringify(numbers).slice(0, 200)}`;
    if ((await engine.translate(text)).text !== text) return "a script of numbers stands for another";
    if ((await engine.check(script)).length) return "something is wrong with it";
    const threads = Object.keys(JSON.parse(script).threads), sources = account.filter((it) => it.attached).map((it) => it.attached.name);
    if (!isSame(account[0].names?.threads, threads) || sources.includes(undefined)) return "the account has other names";
    return (await engine.run(text)).text === textOf(await engine.account(script)) ? null : "another text by its account";
}

/** Whether two values of JSON are the same, whatever the order of keys. */
function isSame(one, other) {
    if (typeof one !== "object" || one === null || typeof other !== "object" || other === null) return one === other;
    const keys = Object.keys(one);
    return Array.isArray(one) === Array.isArray(other) && keys.length === Object.keys(other).length && keys.every((key) => isSame(one[key], other[key]));
}

/** Scripts with names that are refused, by the class of the script of numbers for which one stands, or of its own form. */
async function unnamed(engine) {
    const scripts = { limit: '{"form":"names","ticks":0,"threads":{"t":{"start":[]}}}', shape: '{"form":"names","ticks":1,"threads":{"t":{"start":[{"run":"none"}]}}}' };
    for (const [fault, script] of Object.entries(scripts)) {
        for (const call of ["translate", "account", "why"]) {
            const thrown = await engine[call](script).then(() => "an answer", (refused) => refused.fault);
            if (thrown !== fault) return `${call}: ${thrown} in place of ${fault}`;
        }
    }
    return null;
}

/** A call that is stopped says so, and the next one has its answer by a new worker. */
async function stopped(remote) {
    const run = remote.run(LONG_RUN).then(() => "it was not stopped", (thrown) => (thrown.fault === "aborted" ? null : String(thrown)));
    await new Promise((go) => setTimeout(go, PAUSE));
    remote.abort();
    return (await run) || ((await remote.run(SHORT_RUN)).text === "thread 0\n0 log 7\n0 end\n" ? null : "no answer after it");
}

/** A call that its instance can't end, for want of a room in its memory, leaves the next one as it was. */
async function short(engine) {
    const fault = await engine.run({ length: 2 ** 33 }).then(() => "an answer", (thrown) => thrown.fault);
    if (fault !== "memory") return `${fault} for a script of 8 GiB`;
    return (await engine.run(SHORT_RUN)).text === "thread 0\n0 log 7\n0 end\n" ? null : "no answer after it";
}

/** A module that stops says so, each time. */
async function trapped() {
    const engine = await load(bytesOf(STOPS)), run = () => engine.run(SHORT_RUN).then(() => "an answer", (thrown) => thrown.fault);
    const faults = [await run(), await run()];
    return faults.every((fault) => fault === "trap") ? null : `${faults}`;
}

/** A call that the module has not says so, and so does the worker; else `test` says what is wrong with what it answers. */
async function told(engines, call, words, test) {
    for (const engine of engines) {
        const answer = await engine[call](...words).catch((thrown) => thrown);
        const fault = answer instanceof MainctxError ? (answer.fault === "call" ? null : answer.fault) : test(answer.text ?? answer);
        if (fault) return fault;
    }
    return null;
}

const has = (words) => (text) => (text.includes(words) ? null : `no ${words} in ${JSON.stringify(text.slice(0, 200))}`);
const ends = (words) => (text) => (text.split("\n").at(-2)?.startsWith(words) ? null : `no ${words} at its end, ${JSON.stringify(text.slice(-200))}`);
/** An example of which is told why, and its source that is told of. */
const TOLD = "examples/nested_drop.json", CONTEXT = 0, SOURCE = 4n;

/** The other calls that tell of it: what they take beside the script, and a part of what they say. */
const TELLING = [
    ["summary", [], has("dispatched")], ["notes", [], (text) => (text === "" || text.endsWith("\n") ? null : text)], ["steps", [0, 0, 0], has("is dispatched")],
    ["stack", [0, 0, 0], has("before its first step")], ["stack", [0, 0], has("at the end of its turn")], ["stack", [9, 0], (text) => text || null],
    ["timeline", [50, 0, 0, 0], has("a tick a column")], ["text", [true], has("thread 0\n")],
];

export async function all(source, cases, named) {
    const count = new Count(), engine = await load(source), remote = await open(source);
    for (const it of cases) await count.take(it.name, () => vector(engine, it));
    for (const it of cases.filter(({ name }) => name.startsWith("examples/"))) await count.take(`${it.name} by a worker`, () => vector(remote, it));
    for (const it of named) for (const by of [engine, remote]) await count.take(it.name, () => translation(by, it));
    await count.take("names that nothing has", () => unnamed(engine));
    const example = cases.find(({ name }) => name === TOLD), script = example && bytesOf(example.script), both = [engine, remote];
    if (example) await count.take("why", () => told(both, "why", [script, 0, 0], has("to be dispatched")));
    if (example) await count.take("a source's life", () => told(both, "life", [script, CONTEXT, SOURCE], ends("end of the run")));
    if (example) for (const [call, words, test] of TELLING) await count.take(call, () => told(both, call, [script, ...words], test));
    await count.take("its version", () => told(both, "version", [], (version) => (version === VERSION ? null : `it is ${version}`)));
    await count.take("a run that is stopped", () => stopped(remote));
    await count.take("a script that is too large for any memory", () => short(engine));
    await count.take("a module that stops", trapped);
    return { passed: count.passed, failed: count.failed, told: count.told };
}

if (typeof process !== "undefined") {
    const { readFileSync } = await import("node:fs");
    const { source, cases, named } = JSON.parse(readFileSync(0, "utf8"));
    console.log(JSON.stringify(await all(new URL(source), cases, named)));
}
