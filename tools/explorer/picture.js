// The picture of the run, which `ra draw` draws. It can be folded away.
import {at, make} from "./elements.js";
import {offer} from "./panels.js";

// The least size of a text in pixels, and the most by which a picture is made greater to fill its place.
const READABLE = 11;
const MOST_SCALE = 1.2;

export function showPicture(view) {
    const panel = at("picture");
    const place = panel.shadowRoot ?? panel.attachShadow({mode: "open"});
    at("part").textContent = view.from > 1 ? `from line ${view.from} on` : "";
    if (view.picture?.status !== 0) {
        place.replaceChildren(make("p", {}, view.picture ? `${view.picture.out} ${view.picture.err}` : "There is no mark yet."));
        return;
    }
    offer("svg", view.picture.out, "image/svg+xml");
    const svg = new DOMParser().parseFromString(view.picture.out, "image/svg+xml").documentElement;
    leaveOutEnd(svg);
    place.replaceChildren(document.importNode(svg, true));
    cutPicture();
    scrollToLast(view.trace);
}

// Leaves out the texts below the rows, which tell who holds and who waits: the page itself does. A saved picture has them.
function leaveOutEnd(svg) {
    const texts = [...svg.querySelectorAll("text.end")];
    if (!texts.length) return;
    const [left, top, wide, high] = svg.getAttribute("viewBox").split(" ").map(Number);
    const heading = Math.min(...texts.map((text) => Number(text.getAttribute("y"))));
    for (const text of texts) text.remove();
    svg.setAttribute("viewBox", `${left} ${top} ${wide} ${Math.min(high, heading - 16)}`);
}

// Scrolls a great picture to the row and the lane of the last step.
function scrollToLast({steps}) {
    const panel = at("picture"), svg = panel.shadowRoot.querySelector("svg"), last = steps[steps.length - 1];
    if (!last) return;
    const box = svg.viewBox.baseVal, scale = svg.clientWidth / box.width;
    const row = [...svg.querySelectorAll("text.row")].find((text) => text.textContent === String(last.number));
    if (row) panel.scrollTop = (row.y.baseVal[0].value - box.y) * scale - panel.clientHeight * 2 / 3;
    const node = Number(["deliver", "lose", "repeat"].includes(last.words[0]) ? last.words[3] : last.words[1]);
    const lane = svg.querySelectorAll("line.lane")[node - 1];
    if (lane) panel.scrollLeft = (lane.x1.baseVal.value - box.x) * scale - panel.clientWidth / 2;
}

// Shows the whole picture or, without the legend, from the names of the nodes on and as far to the right as its lanes and their texts need.
// It fills the width of its place if that leaves its texts readable, and can be scrolled otherwise.
export function cutPicture() {
    const panel = at("picture"), svg = panel.shadowRoot?.querySelector("svg");
    if (!svg || !panel.clientWidth) return;
    const [, , wide, high] = (svg.dataset.box ??= svg.getAttribute("viewBox")).split(" ").map(Number);
    const lanes = [...svg.querySelectorAll("line.lane, line.copies")];
    let left = 0, top = 0, width = wide;
    if (!at("legend").checked && lanes.length) {
        top = Math.min(...lanes.map((lane) => lane.y1.baseVal.value)) - 40;
        left = 20;
        const texts = [...svg.querySelectorAll("text")].map((text) => text.getBBox()).filter((box) => box.y >= top);
        const ends = [...lanes.map((lane) => lane.x1.baseVal.value + 20), ...texts.map((box) => box.x + box.width + 8)];
        width = Math.min(wide, Math.max(...ends)) - left;
    }
    const scale = Math.max(READABLE / smallestText(svg), Math.min(MOST_SCALE, (panel.clientWidth - 4) / width));
    svg.setAttribute("viewBox", `${left} ${top} ${width} ${high - top}`);
    svg.setAttribute("width", width * scale);
    svg.setAttribute("height", (high - top) * scale);
}

// Returns the least size of a text, in the units of the picture. All texts of a class have the same.
function smallestText(svg) {
    const texts = new Map([...svg.querySelectorAll("text")].map((text) => [text.getAttribute("class"), text]));
    return Math.min(READABLE, ...[...texts.values()].map((text) => parseFloat(getComputedStyle(text).fontSize)));
}

// Folds the picture away, or unfolds it. The choice is kept in a cookie, since each start of the server has a port, and so a storage, of
// its own.
export function foldPicture(isFolded) {
    at("main").classList.toggle("folded", isFolded);
    at("fold").setAttribute("aria-expanded", String(!isFolded));
    document.cookie = `picture=${isFolded ? "folded" : "shown"}; path=/; max-age=31536000; SameSite=Strict`;
    cutPicture();
}

export const isFolded = () => at("fold").getAttribute("aria-expanded") === "false";
export const wasFolded = () => /(^|; )picture=folded(;|$)/.test(document.cookie);
