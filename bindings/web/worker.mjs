// The engine in a thread of its own, in a browser and in Node: what remote.mjs starts. A message is {id, call, words}, and its answer
// {id, answer} or {id, fault, message}; the first one's `call` is "load".
import { load, MainctxError } from "./mainctx.mjs";

const CALLS = ["run", "translate", "check", "account", "why", "life", "text", "summary", "notes", "steps", "stack", "timeline", "version"];
const inBrowser = typeof globalThis.postMessage === "function";
const port = inBrowser ? globalThis : (await import("node:worker_threads")).parentPort;
let engine = null;

async function answered({ call, words }) {
    if (call === "load") {
        engine = await load(words[0]);
        return engine.tells;
    }
    if (!CALLS.includes(call)) throw new MainctxError("call");
    return engine[call](...words);
}

async function take(message) {
    try {
        port.postMessage({ id: message.id, answer: await answered(message) });
    } catch (thrown) {
        port.postMessage({ id: message.id, fault: thrown.fault ?? "trap", message: String(thrown.message) });
    }
}

if (inBrowser) port.onmessage = ({ data }) => take(data);
else port.on("message", take);
