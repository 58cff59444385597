// The moments round the current one as a table: what is done, what is in progress after it, what it writes. It is the picture for whoever reads it by ear.
import { element } from "./parts.mjs";
import { done, stackWords, timeOf } from "./words.mjs";

const AROUND = 12; // moments before and behind the current one

export class Steps {
    constructor(body) {
        this.body = body;
    }

    show(model, current) {
        const rows = [], last = Math.min(model.moments.count - 1, (current ?? 0) + AROUND);
        for (let place = Math.max(0, (current ?? 0) - AROUND); place <= last; place++) rows.push(this.#row(model, place, place === current));
        this.body.replaceChildren(...rows);
        const here = this.body.querySelector("[aria-current]"), box = this.body.closest(".scrolls");
        if (here) box.scrollTop = here.offsetTop - box.clientHeight / 2;
    }

    #row({ moments, frames }, place, isCurrent) {
        const row = element("tr", "", place), tick = moments.tick.at(place);
        if (isCurrent) row.setAttribute("aria-current", "step");
        const lane = moments.names.of("threads", moments.lane.at(place));
        const cells = [tick, timeOf(moments, tick), lane, done(frames, place), stackWords(frames, place, true), (moments.lines[place] ?? []).join("\n")];
        row.append(...cells.map((words) => element("td", words)));
        return row;
    }
}
