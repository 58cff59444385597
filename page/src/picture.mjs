// The picture of a run: a canvas over what is seen of it, in a box that scrolls over the whole.
import { DID } from "./moments.mjs";
import { firstOf } from "./places.mjs";
import { ROW } from "./rows.mjs";
import { timeOf } from "./words.mjs";

const HIGH = 20, AXIS = 36, LABELS = 132, NARROW_LABELS = 94, NARROW = 480, MOST_LABELS = 240; // pixels
const LEAST_ZOOM = 0.002, LEGIBLE_ZOOM = 8, MOST_ZOOM = 32; // pixels of a unit
const WIDEST = 15_000_000; // pixels that browsers scroll over
const FAR = 200; // units to both sides within which arrows may be seen
const FONT = "12px system-ui, sans-serif";
const TICK_LINE = 10, TIME_LINE = 25, PAD = 3, APART = 10; // pixels: the middles of the two lines above, what is left of a word, and between two
const THREAD_INDENT = 6, INDENT = 14, SOURCE_INDENT = 22; // pixels
const INSET = 2, INSET_OF_A_DEPTH = 2, MOST_INSET = 7; // pixels above and below a bar
const FRAMED_FROM = 4, NUMBERED_FROM = 13; // pixels of a bar from which on it has a frame, and its depth
const BARBS = [-0.4, 0.4], BARB = 8; // of an arrow: radians, pixels
const SHADE = 0.15; // of the current moment
const SIGN_FROM = 5; // pixels of a unit from which on signs are written
const BARS = ["bar1", "bar2", "bar3"];
const COLOURS = ["back", "band", "line", "ink", "soft", "mark", "fold", "arrow", "span", "barink", ...BARS];

export class Picture {
    zoom = LEGIBLE_ZOOM;
    current = null;
    #drawn = false;

    /** `box` scrolls, and has a canvas and a spacer; `pick` is told which moment was clicked. */
    constructor(box, pick) {
        [this.box, this.canvas, this.spacer, this.pick] = [box, box.querySelector("canvas"), box.querySelector(".spacer"), pick];
        this.paper = this.canvas.getContext("2d");
        box.addEventListener("scroll", () => this.draw());
        box.addEventListener("wheel", (event) => this.#wheel(event), { passive: false });
        this.canvas.addEventListener("click", (event) => this.#click(event));
        new ResizeObserver(() => this.#resized()).observe(box);
        matchMedia("(prefers-color-scheme: dark)").addEventListener("change", () => this.restyle());
        this.restyle();
    }

    /** Shows a model, or what is new in it; a short run is as wide as the box at first. */
    show(model) {
        const isNew = this.model !== model;
        [this.model, this.rows] = [model, model.rows.sorted()];
        this.#resized();
        if (!isNew) return;
        this.fit();
        this.zoomBy(Math.max(1, LEGIBLE_ZOOM / this.zoom), 0);
    }

    restyle() {
        const style = getComputedStyle(document.documentElement);
        this.colours = Object.fromEntries(COLOURS.map((name) => [name, style.getPropertyValue(`--${name}`).trim()]));
        this.draw();
    }

    #resized() {
        const { clientWidth: width, clientHeight: height } = this.box, scale = devicePixelRatio || 1;
        this.labels = width < NARROW ? NARROW_LABELS : this.#labelsWidth();
        Object.assign(this.canvas, { width: width * scale, height: height * scale });
        Object.assign(this.canvas.style, { width: `${width}px`, height: `${height}px` });
        this.paper.setTransform(scale, 0, 0, scale, 0, 0);
        if (!this.model) return;
        this.zoom = Math.min(this.zoom, WIDEST / Math.max(this.model.places.width, 1));
        this.spacer.style.width = `${this.labels + this.model.places.width * this.zoom + NARROW_LABELS}px`;
        this.spacer.style.height = `${AXIS + this.rows.length * HIGH + HIGH}px`;
        this.draw();
    }

    /** The room that labels take, which names may make wider. */
    #labelsWidth() {
        if (!this.model?.moments.names.isNamed) return LABELS;
        this.paper.font = FONT;
        const longest = this.rows.reduce((most, { label }) => (label.length > most.length ? label : most), "");
        return Math.min(Math.max(this.paper.measureText(longest).width + SOURCE_INDENT + APART, LABELS), MOST_LABELS);
    }

    /** Makes units wider or narrower; the unit in the middle, or at a pixel, stays where it is. */
    zoomBy(factor, at = (this.labels + this.box.clientWidth) / 2) {
        const unit = this.unitAt(at);
        this.zoom = Math.max(LEAST_ZOOM, Math.min(MOST_ZOOM, this.zoom * factor));
        this.#resized();
        this.box.scrollLeft = unit * this.zoom + this.labels - at;
    }

    /** Makes the whole run as wide as the box. */
    fit() {
        const room = this.box.clientWidth - this.labels - NARROW_LABELS / 2;
        this.zoomBy(room / Math.max(this.model.places.width, 1) / this.zoom, this.labels);
    }

    unitAt(pixel) {
        return (pixel - this.labels + this.box.scrollLeft) / this.zoom;
    }

    /** Marks a moment, and scrolls to where it is seen. */
    go(place) {
        this.current = place;
        const { box, model } = this, x = model.places.of(place) * this.zoom, room = box.clientWidth - this.labels;
        if (x < box.scrollLeft || x + this.zoom > box.scrollLeft + room) box.scrollLeft = x - room / 3;
        const y = this.rowOf(place).place * HIGH, high = box.clientHeight - AXIS;
        if (y < box.scrollTop || y + HIGH > box.scrollTop + high) box.scrollTop = y - high / 3;
        this.draw();
    }

    /** The row in which a moment is marked: that of the innermost frame, or of its thread. */
    rowOf(place) {
        const { moments, frames, rows } = this.model, did = moments.did.at(place);
        const ends = did === DID.returned || did === DID.iteration_ended || did === DID.loop_ended;
        const frame = frames.innermost[ends ? place - 1 : place] ?? frames.innermost[place];
        return frame?.lane === moments.lane.at(place) ? frame.row : rows.row(moments.lane.at(place), ROW.thread);
    }

    #wheel(event) {
        if (!event.ctrlKey) return;
        event.preventDefault();
        this.zoomBy(2 ** (-event.deltaY / 200), event.offsetX);
    }

    #click(event) {
        const row = this.rows?.[Math.floor((event.offsetY - AXIS + this.box.scrollTop) / HIGH)];
        if (!row || event.offsetY < AXIS) return;
        const unit = this.unitAt(event.offsetX), { places } = this.model;
        const bars = row.spans.filter((span) => places.of(span.from) <= unit && unit < this.endOf(span.to));
        const place = bars.length ? bars.at(-1).from : places.momentAt(unit, row.lane);
        if (place !== null) this.pick(place);
    }

    /** The unit at which a span up to a moment ends. */
    endOf(to) {
        const { places } = this.model;
        return to === Infinity ? places.width : places.of(to) + 1;
    }

    /** Draws before the next frame of the screen, once. */
    draw() {
        if (this.#drawn) return;
        this.#drawn = true;
        requestAnimationFrame(() => {
            this.#drawn = false;
            if (this.model) this.#paint();
        });
    }

    #paint() {
        const { paper, box, rows, labels } = this, { clientWidth: width, clientHeight: height } = box;
        Object.assign(paper, { font: FONT, textBaseline: "middle" });
        this.#fill("back", 0, 0, width, height);
        const first = Math.max(0, Math.floor(box.scrollTop / HIGH)), last = Math.min(rows.length, first + Math.ceil(height / HIGH) + 1);
        const seen = { left: this.unitAt(labels), right: this.unitAt(width), width, height, first, last };
        this.#clipped(labels, 0, width - labels, height, () => {
            this.#bands(seen);
            this.#ticks(seen);
        });
        this.#clipped(labels, AXIS, width - labels, height - AXIS, () => {
            for (let n = first; n < last; n++) this.#row(rows[n], seen);
            this.#arrows(seen);
            this.#cursor(seen);
        });
        this.#names(seen);
    }

    #clipped(x, y, width, height, paint) {
        this.paper.save();
        this.paper.beginPath();
        this.paper.rect(x, y, width, height);
        this.paper.clip();
        paint();
        this.paper.restore();
    }

    #fill(colour, x, y, width, height) {
        this.paper.fillStyle = this.colours[colour];
        this.paper.fillRect(x, y, width, height);
    }

    #write(colour, words, x, y) {
        this.paper.fillStyle = this.colours[colour];
        this.paper.fillText(words, x, y);
    }

    pixel(unit) {
        return this.labels + unit * this.zoom - this.box.scrollLeft;
    }

    rowTop(place) {
        return AXIS + place * HIGH - this.box.scrollTop;
    }

    #bands({ first, last, width }) {
        for (const { place, isHead, isContext } of this.rows.slice(first, last)) {
            if (isHead) this.#fill("line", 0, this.rowTop(place), width, 1);
            if (isContext) this.#fill("band", 0, this.rowTop(place), width, HIGH);
        }
    }

    /** The ticks with their times; what is folded is shaded. */
    #ticks({ left, right, height }) {
        const { places, moments } = this.model, { columns } = places;
        let free = -Infinity;
        for (let n = places.columnAt(left); n < columns.length && columns[n].x <= right; n++) {
            const column = columns[n], x = this.pixel(column.x), wide = column.width * this.zoom;
            if (column.isFolded) this.#fill("fold", x, AXIS, wide, height);
            if (wide >= FRAMED_FROM || x > free) this.#fill("line", Math.round(x), AXIS - 6, 1, height);
            if (x < free) continue;
            const ticks = column.first === column.last ? column.first : `${column.first}–${column.last}`, time = timeOf(moments, column.first);
            const name = column.isFolded ? `${ticks} ⋯` : `${ticks}`;
            this.#write(column.isFolded ? "soft" : "ink", name, x + PAD, TICK_LINE);
            this.#write("soft", time, x + PAD, TIME_LINE);
            free = x + Math.max(...[name, time].map((words) => this.paper.measureText(words).width)) + APART;
        }
    }

    /** The bars and signs of a row that are seen. */
    #row(row, seen) {
        const y = this.rowTop(row.place), { places } = this.model;
        let most = -1;
        row.furthest ??= row.spans.map((span) => (most = Math.max(most, span.to)));
        for (const span of this.#seen(row.spans, (it) => this.endOf(row.furthest[it]) > seen.left, seen.right)) {
            const end = this.endOf(span.to);
            if (end >= seen.left) this.#bar(span, y, this.pixel(places.of(span.from)), this.pixel(end), seen);
        }
        this.#signs(row, y, seen);
    }

    /** The bars or signs of a row from the first for which it holds, up to a unit. Where several begin in one pixel, it is one of them. */
    *#seen(list, holds, right) {
        const unit = (it) => this.model.places.of(list[it].from);
        for (let n = firstOf(list.length, holds); n < list.length && unit(n) <= right; ) {
            yield list[n];
            const next = unit(n) + 1 / this.zoom;
            n = this.zoom >= 1 ? n + 1 : Math.max(n + 1, firstOf(list.length, (it) => unit(it) >= next));
        }
    }

    #bar(span, y, left, right, seen) {
        const { paper, colours } = this, isDispatch = span.source !== undefined, depth = span.depth ?? 0;
        const inset = isDispatch ? Math.min(INSET + INSET_OF_A_DEPTH * (depth - 1), MOST_INSET) : MOST_INSET;
        const x = Math.max(left, -2), wide = Math.max(1, Math.min(right, seen.width + 2) - x - Number(this.zoom >= SIGN_FROM)), high = HIGH - 2 * inset;
        this.#fill(isDispatch ? BARS[(depth - 1) % BARS.length] : "span", x, y + inset, wide, high);
        if (wide >= FRAMED_FROM) {
            paper.strokeStyle = colours.ink;
            paper.lineWidth = span.from === this.current ? 2.5 : isDispatch ? 1 : 0.5;
            paper.strokeRect(x + 0.5, y + inset + 0.5, wide - 1, high - 1);
        }
        if (isDispatch && wide >= NUMBERED_FROM) this.#write("barink", String(depth), Math.max(x, this.labels) + PAD, y + HIGH / 2);
    }

    #signs(row, y, seen) {
        const { places } = this.model, { marks } = row, isWritten = this.zoom >= SIGN_FROM;
        let free = -Infinity;
        for (const { from, glyph } of this.#seen(marks, (it) => places.of(marks[it].from) >= seen.left - 4, seen.right)) {
            const x = this.pixel(places.of(from)), wide = isWritten ? this.paper.measureText(glyph).width : 1;
            if (x < free) continue;
            if (isWritten) this.#fill(row.isContext ? "band" : "back", x, y + 6, wide + 2, HIGH - 12);
            if (isWritten) this.#write("mark", glyph, x + 1, y + HIGH / 2);
            else this.#fill("mark", x, y + 6, wide, HIGH - 12);
            free = x + wide;
        }
    }

    /** What threads sent to others, and what changed something there. */
    #arrows({ left, right }) {
        const { paper, colours } = this, { moments, places, rows } = this.model, { letters } = rows;
        paper.strokeStyle = paper.fillStyle = colours.arrow;
        paper.lineWidth = 1.5;
        let drawn = -Infinity;
        for (let n = firstOf(letters.length, (it) => places.sent(moments.tick.at(letters[it].place)) >= left - FAR); n < letters.length; n++) {
            const { place, row } = letters[n], x = this.pixel(places.of(place) + 0.5), sent = places.sent(moments.tick.at(place));
            if (sent > right + FAR) break;
            if (this.zoom < 1 && x < drawn + 2) continue;
            drawn = x;
            this.#arrow(this.pixel(sent), this.rowTop(rows.row(moments.at.at(place), ROW.thread).place) + HIGH / 2, x, this.rowTop(row.place) + HIGH / 2);
        }
    }

    #arrow(x, y, toX, toY) {
        const { paper } = this, turn = Math.atan2(toY - y, toX - x);
        paper.beginPath();
        paper.moveTo(x, y);
        paper.lineTo(toX, toY);
        paper.stroke();
        paper.beginPath();
        paper.moveTo(toX, toY);
        for (const side of BARBS) paper.lineTo(toX - BARB * Math.cos(turn + side), toY - BARB * Math.sin(turn + side));
        paper.fill();
    }

    #cursor({ height }) {
        if (this.current === null) return;
        const { paper, colours } = this, x = this.pixel(this.model.places.of(this.current)), wide = Math.max(this.zoom, 2);
        paper.globalAlpha = SHADE;
        this.#fill("mark", x, AXIS, wide, height);
        Object.assign(paper, { globalAlpha: 1, strokeStyle: colours.mark, lineWidth: 2 });
        paper.strokeRect(x, this.rowTop(this.rowOf(this.current).place) + 1, wide, HIGH - 2);
    }

    #names({ first, last, height }) {
        const { paper, labels, rows } = this;
        this.#fill("back", 0, 0, labels, height);
        this.#write("soft", "tick", THREAD_INDENT, TICK_LINE);
        this.#write("soft", "time", THREAD_INDENT, TIME_LINE);
        this.#clipped(0, AXIS, labels - 2, height, () => {
            for (const { place, kind, label, isHead, isContext } of rows.slice(first, last)) {
                paper.font = `${isHead ? "bold " : ""}${FONT}`;
                const indent = isHead ? THREAD_INDENT : kind === ROW.source ? SOURCE_INDENT : INDENT;
                this.#write(isHead || isContext ? "ink" : "soft", label, indent, this.rowTop(place) + HIGH / 2);
            }
        });
        this.#fill("line", labels - 1, 0, 1, height);
        this.#fill("line", 0, AXIS - 1, this.box.clientWidth, 1);
    }
}
