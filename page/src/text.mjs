// The text of a run: of its lines those that are seen stand in the page, and a click on one goes to the moment that wrote it.
import { element } from "./parts.mjs";

const LINE = 18; // pixels
const BEYOND = 10; // lines above and below what is seen
const MOST_LINES = 900_000; // as many as a browser scrolls over

export class Text {
    #current = null;

    constructor(box) {
        [this.box, this.list] = [box, box.querySelector("ol")];
        box.addEventListener("scroll", () => this.draw());
        new ResizeObserver(() => this.draw()).observe(box);
    }

    /** Shows a text; `model` knows which moment wrote which line, as far as it was told. */
    show(text, model) {
        [this.lines, this.model, this.heads] = [text.split("\n").slice(0, -1), model, []];
        this.leftOut = Math.max(0, this.lines.length - MOST_LINES);
        this.lines.forEach((line, number) => line.startsWith("thread ") && this.heads.push(number));
        this.list.style.height = `${Math.min(this.lines.length, MOST_LINES) * LINE}px`;
        this.draw();
    }

    /** Marks the lines of a moment, and scrolls to the first. */
    go(place) {
        this.#current = place;
        const lane = this.model.moments.lane.at(place), number = (this.model.writers[lane] ?? []).indexOf(place), y = (this.heads[lane] + 1 + number) * LINE;
        if (number >= 0 && (y < this.box.scrollTop || y + LINE > this.box.scrollTop + this.box.clientHeight)) this.box.scrollTop = y - this.box.clientHeight / 2;
        this.draw();
    }

    draw() {
        if (!this.lines) return;
        const first = Math.max(0, Math.floor(this.box.scrollTop / LINE) - BEYOND), count = Math.ceil(this.box.clientHeight / LINE) + 2 * BEYOND;
        const last = Math.min(this.lines.length, MOST_LINES, first + count), items = [];
        for (let number = first; number < last; number++) items.push(this.#item(number));
        this.list.style.paddingTop = `${first * LINE}px`;
        this.list.start = first + 1;
        this.list.replaceChildren(...items);
    }

    /** A line, with the moment that wrote it. */
    #item(number) {
        const lane = this.heads.findLastIndex((head) => head <= number), place = this.model.writers[lane]?.[number - this.heads[lane] - 1];
        const item = element("li", this.lines[number], place);
        if (place === this.#current) item.setAttribute("aria-current", "true");
        return item;
    }
}
