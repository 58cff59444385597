// Elements of the page.

/** An element with words; a click on one that has a place goes to that moment (main.mjs). */
export function element(name, words, place) {
    const made = Object.assign(document.createElement(name), { textContent: words });
    if (place !== undefined) made.dataset.place = place;
    return made;
}

/** A button that does something. */
export function button(words, act) {
    const made = element("button", words);
    made.addEventListener("click", act);
    return made;
}
