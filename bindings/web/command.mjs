// The module as a command: what a script does, why, and what is wrong with it, at once. `./try`, at the top of the repository, hands its words on to it,
// and has its help.
import { readFileSync, writeSync } from "node:fs";
import { isatty } from "node:tty";
import { parseArgs } from "node:util";
import { Worker } from "node:worker_threads";
import { load, MainctxError } from "./mainctx.mjs";

/** The options of each command, which are those of mainctx_inspect. */
const COMMANDS = {
    text: ["notes", "numbers", "most-lines"],
    run: [],
    check: ["json"],
    why: ["ticks", "source", "numbers", "most-lines"],
    summary: ["numbers"],
    account: ["numbers", "most-lines"],
    steps: ["lane", "ticks", "numbers", "most-lines"],
    stack: ["lane", "tick", "step", "numbers"],
    timeline: ["lane", "ticks", "columns", "numbers"],
    notes: ["numbers"],
    translate: [],
};
const FLAGS = ["json", "notes", "numbers"], VALUES = ["ticks", "source", "most-lines", "lane", "tick", "step", "columns"];
const OPTIONS = Object.fromEntries([...FLAGS.map((it) => [it, { type: "boolean" }]), ...VALUES.map((it) => [it, { type: "string" }])]);

const TOLD = 0, USAGE = 1, REFUSED = 2, NO_MEMORY = 3, NOT_READ = 4;
const MOST_BYTES = 4_194_304; // of a script
const MOST_FAULTS = 100; // that the module tells
const LEAST_COLUMNS = 50, MOST_COLUMNS = 9999; // of a picture
const INPUT = 0, OUTPUT = 1, ERRORS = 2; // the standard streams
const PATIENCE = 2000; // milliseconds, after which a terminal is told that the answer is still to come

/** Why the command ends: its status, and the line that says it on standard error. */
class Ending extends Error {
    constructor(status, line, hasMore = status === USAGE) {
        super(hasMore ? `${line}\n\nFor more information, try './try --help'.` : line);
        this.status = status;
    }
}

/** What the words ask for. */
function asked(words) {
    let given;
    try {
        given = parseArgs({ args: words, options: OPTIONS, allowPositionals: true });
    } catch (wrong) {
        throw new Ending(USAGE, wrong.message);
    }
    const { values, positionals: [command, file = "-", ...others] } = given;
    if (!Object.hasOwn(COMMANDS, command)) throw new Ending(USAGE, `a command is one of ${Object.keys(COMMANDS).join(", ")}`);
    const wrong = Object.keys(values).find((option) => !COMMANDS[command].includes(option));
    if (wrong) throw new Ending(USAGE, `${command} takes no --${wrong}`);
    if (others.length) throw new Ending(USAGE, `one file, and not ${others[0]} as well`);
    if (file.endsWith(".toml")) throw new Ending(USAGE, "a script in TOML is for ./mainctx_check and ./mainctx_inspect");
    return { command, file, json: values.json, notes: values.notes, numbers: values.numbers, ...ofValues(command, values) };
}

/** What the options say that have values. */
function ofValues(command, values) {
    const one = (option) => numbers(values[option], /^(\d{1,9})$/, `--${option} N`, "a number").map(Number)[0];
    const [lane, tick, step, columns, most] = ["lane", "tick", "step", "columns", "most-lines"].map(one);
    if (command === "stack" && (lane === undefined || tick === undefined)) throw new Ending(USAGE, "stack needs --lane L and --tick T");
    if (columns < LEAST_COLUMNS || columns > MOST_COLUMNS) throw new Ending(USAGE, `--columns N is ${LEAST_COLUMNS} to ${MOST_COLUMNS}, and not ${columns}`);
    const ticks = numbers(values.ticks, /^(\d{1,9})\.\.(\d{1,9})$/, "--ticks A..B", "two numbers").map(Number);
    const source = numbers(values.source, /^(\d{1,9})\.(\d{1,19})$/, "--source C.S", "two numbers");
    return { lane, tick, step, columns, most, ticks, source };
}

/** The numbers of an option's value; none where it is not given. */
function numbers(value, form, wanted, what) {
    if (value === undefined) return [];
    const found = form.exec(value);
    if (!found) throw new Ending(USAGE, `${wanted} has ${what}, and is not ${value}`);
    return found.slice(1).map(BigInt);
}

/** The bytes of a script. */
function read(file) {
    if (file === "-" && isatty(INPUT)) write("try: the script is read from this terminal until Ctrl-D\n", ERRORS);
    let bytes;
    try {
        bytes = readFileSync(file === "-" ? INPUT : file);
    } catch {
        throw new Ending(NOT_READ, "read");
    }
    if (bytes.length > MOST_BYTES) throw new Ending(NOT_READ, `read: a script has ${MOST_BYTES} bytes at most`);
    return bytes;
}

/** Writes all of a text; a pipe that is full is asked again. */
function write(text, to = OUTPUT) {
    const bytes = new TextEncoder().encode(text);
    for (let at = 0; at < bytes.length; ) {
        try {
            at += writeSync(to, bytes, at);
        } catch (fault) {
            if (fault.code !== "EAGAIN") throw new Ending(NOT_READ, "write");
        }
    }
}

/** The faults of a script, as lines. */
function linesOf(faults, { file, json }) {
    if (json) return faults.map((fault) => `${JSON.stringify(fault)}\n`).join("");
    const name = file === "-" ? "<stdin>" : file, place = ({ line, column }) => (line ? `${name}:${line}:${column}` : name);
    const lines = faults.map((fault) => `${place(fault)}: ${fault.class}: ${fault.wanted}, ${fault.found}\n  at ${fault.pointer || "the whole"}\n`);
    const count = faults.length < MOST_FAULTS ? faults.length || "no" : `the first ${MOST_FAULTS}`;
    return `${lines.join("")}${count} fault${faults.length === 1 ? "" : "s"}\n`;
}

/** A text whose last line ends. */
const withEnd = (text) => (text.endsWith("\n") ? text : `${text}\n`);

/** The text of the script of numbers that a script is, or stands for. */
const ofNumbers = async (engine, script) => (await engine.translate(script)).text;

/** What tells of a run, by the command's word. */
const TELLERS = {
    text: (engine, { notes }, script) => engine.text(script, notes),
    why: (engine, { ticks, source: [context, id] }, script) =>
        id === undefined ? engine.why(script, ...ticks) : engine.life(script, Number(context), id, ...ticks),
    summary: (engine, _, script) => engine.summary(script),
    account: async (engine, _, script) => ({ text: (await engine.account(script)).map((line) => `${line}\n`).join("") }),
    steps: (engine, { ticks: [first, last], lane }, script) => engine.steps(script, first, last, lane),
    stack: (engine, order, script) => stack(engine, order, script),
    timeline: (engine, { ticks: [first, last], lane, columns }, script) => engine.timeline(script, columns, first, last, lane),
    notes: (engine, _, script) => engine.notes(script),
};

/** What a thread is in the middle of; what the run has not is refused. */
async function stack(engine, { lane, tick, step }, script) {
    const { ticks, lanes } = await size(engine, script), beyond = (what, last) => new Ending(USAGE, `usage: there is no ${what}; the last is ${last}`, false);
    if (lane >= lanes) throw beyond(`thread ${lane}`, lanes - 1);
    if (tick >= ticks) throw beyond(`tick ${tick}`, ticks - 1);
    const told = await engine.stack(script, lane, tick, step);
    if (told.text) return told;
    throw beyond(`step ${step}`, /, after (\d+) steps?$/m.exec((await engine.stack(script, lane, tick)).text)[1]);
}

/** How many ticks, threads and contexts a run has. */
const size = async (engine, script) => JSON.parse((await engine.account(script, 0, 0))[0]);

/** What a command tells of a script. */
async function told(engine, order, script) {
    const { command, lane, source: [context] } = order;
    if (command === "translate") return withEnd(await ofNumbers(engine, script));
    if (command === "run") return (await engine.run(await ofNumbers(engine, script))).text;
    const of = order.numbers ? await ofNumbers(engine, script) : script;
    if (command !== "stack" && (lane ?? context) !== undefined) {
        const { lanes, contexts } = await size(engine, of);
        if (lane >= lanes || context >= contexts) throw new Ending(USAGE, "usage: the script has no such thread or context", false);
    }
    return (await TELLERS[command](engine, order, of)).text;
}

/** Writes a text, or its first lines, where so many at most are asked for, and says on standard error that there are more. */
function writeFirst(text, most) {
    if (most === undefined) return write(text);
    let end = 0;
    for (let left = most; left > 0 && end < text.length; left--) end = text.indexOf("\n", end) + 1;
    write(text.slice(0, end));
    if (end < text.length) write(`ended after ${most} ${most === 1 ? "line" : "lines"}\n`, ERRORS);
}

/** Tells a terminal, if it comes to that, that the engine is still at work: it holds up this thread. */
function waiting() {
    if (!isatty(ERRORS)) return null;
    return new Worker(`setTimeout(() => require("node:fs").writeSync(${ERRORS}, "try: still running; Ctrl-C ends it\\n"), ${PATIENCE})`, { eval: true });
}

/** Tells what is asked, or what is wrong with the script, and answers the status. */
async function answer(order, script) {
    const engine = await load(new URL("./mainctx.wasm", import.meta.url));
    if (order.command !== "check") {
        try {
            writeFirst(await told(engine, order, script), order.most);
            return TOLD;
        } catch (fault) {
            if (!(fault instanceof MainctxError) || !fault.message.startsWith("script: ")) throw fault;
        }
    }
    const faults = await engine.check(script);
    write(linesOf(faults, order));
    return faults.length ? REFUSED : TOLD;
}

try {
    const order = asked(process.argv.slice(2)), script = read(order.file), clock = waiting();
    process.exitCode = await answer(order, script).finally(() => clock?.terminate());
} catch (fault) {
    const ending = fault instanceof Ending ? fault : fault instanceof MainctxError ? new Ending(NO_MEMORY, fault.message) : null;
    if (!ending) throw fault;
    writeSync(ERRORS, `${ending.message}\n`);
    process.exitCode = ending.status;
}
