// The script as it is typed, with the numbers of its lines, and its faults marked where they stand.
import { button, element } from "./parts.mjs";

const MARKED_AT_MOST = 200_000; // characters of a script whose faults are marked in it
const VALUE = /^(?:"(?:[^"\\\n]|\\.)*"?|[\w.+-]+|.)/u;

export class Editor {
    /** `area` is written in; `back` lies behind it; `numbers` is beside it; `list` tells the faults; `changed` is called at each change. */
    constructor({ area, back, numbers, list }, changed) {
        Object.assign(this, { area, back, numbers, list });
        area.addEventListener("input", () => {
            this.mark([]);
            changed();
        });
        area.addEventListener("scroll", () => this.#follow());
    }

    get script() {
        return this.area.value;
    }

    set script(words) {
        this.area.value = words;
        this.mark([]);
        this.area.scrollTop = this.area.scrollLeft = 0;
    }

    /** Shows faults as `check` tells them. */
    mark(faults) {
        const { script } = this, lines = script.split("\n"), places = faults.map((fault) => placeOf(script, lines, fault));
        this.numbers.textContent = lines.map((_, number) => number + 1).join("\n");
        this.#back(script.length <= MARKED_AT_MOST ? places.filter((place) => place) : []);
        this.list.replaceChildren(...faults.map((fault, number) => this.#item(fault, places[number])));
        this.area.setAttribute("aria-invalid", String(faults.length > 0));
        this.#follow();
    }

    #back(places) {
        const { script } = this, parts = [];
        let until = 0;
        for (const { from, to } of places.toSorted((a, b) => a.from - b.from)) {
            if (from < until) continue;
            parts.push(script.slice(until, from), element("mark", script.slice(from, to) || " "));
            until = to;
        }
        this.back.replaceChildren(...(parts.length ? [...parts, `${script.slice(until)}\n`] : []));
    }

    #item(fault, place) {
        const item = element("li", ""), where = place ? `${fault.line}:${fault.column}: ` : "";
        const link = button(`${where}${fault.class}: ${fault.wanted}, ${fault.found}`, () => {
            this.area.focus();
            if (place) this.area.setSelectionRange(place.from, place.to);
        });
        link.title = fault.pointer || "the top";
        item.append(link);
        return item;
    }

    #follow() {
        const { scrollTop, scrollLeft } = this.area;
        this.back.style.transform = `translate(${-scrollLeft}px, ${-scrollTop}px)`;
        this.numbers.style.transform = `translateY(${-scrollTop}px)`;
    }
}

/** Where the value at a fault's line and column, both from 1 and in characters, begins and ends in the text; null where it has none. */
function placeOf(script, lines, { line, column }) {
    if (!line) return null;
    const before = lines.slice(0, line - 1).reduce((sum, it) => sum + it.length + 1, 0);
    const from = before + [...(lines[line - 1] ?? "")].slice(0, column - 1).join("").length;
    return { from, to: from + (VALUE.exec(script.slice(from))?.[0].length ?? 0) };
}
