// The page that tools/explore serves: goes through a run, by buttons and keys. Of each beginning of the run, `ra` prints the trace, the
// verdict and the picture, and as far as it can the state. The page adds words on what the last step changed and why, on who waits for
// whom, and on whether the run is quiet; for these it knows which modes conflict and which stamp is earlier.
import {at, make, tell} from "./elements.js";
import {showLanes} from "./lanes.js";
import {findRun, openText, shrinkRun} from "./opening.js";
import {showCheck, showChoices, showNow, showQuiet, showRules, showSteps, showTable, showWaits, showWalk, showWrong} from "./panels.js";
import {cutPicture, foldPicture, isFolded, showPicture, wasFolded} from "./picture.js";
import {addStep, judge, run, stepOf, viewAfter} from "./run.js";
import {ask} from "./server.js";

// The view that is shown, the step that is to be shown next, and whether something is being loaded.
let shown = null, wanted = null, busy = false;

// Shows what stands after the first steps.
async function show(count) {
    const [view, before] = await Promise.all([viewAfter(count), count ? viewAfter(count - 1) : null]);
    run.at = count;
    shown = view;
    const focused = document.activeElement?.dataset?.key;
    const lane = document.activeElement?.closest?.(".lane")?.dataset.node;
    showWalk();
    showNow(view, before);
    showQuiet(view);
    showWrong();
    showLanes(view, before, take);
    showTable(view.state);
    showWaits(view.state);
    showSteps(view.trace, goTo);
    showRules(view.trace);
    showChoices(view);
    keepFocus(focused, lane);
    if (!view.checked) await judge(view);
    showCheck(view);
    showPicture(view);
}

// Keeps the focus where it was, as what had it was made anew: on the same thing, or on another one of its node.
function keepFocus(key, lane) {
    if (!key) return;
    const same = document.querySelector(`[data-key="${CSS.escape(key)}"]`);
    const near = document.querySelector(`.lane[data-node="${lane}"] button, .lane button`);
    (same ?? near ?? at("back")).focus();
}

// ---- Going through the run

// Does what takes some time, and tells in the element `where` what went wrong. Meanwhile no step can be taken.
async function whileBusy(act, where = "fault") {
    busy = true;
    at("main").setAttribute("aria-busy", "true");
    try {
        await act();
        tell(where, "");
    } catch (fault) {
        tell(where, fault.message);
        wanted = null;
        showWalk();
    } finally {
        busy = false;
        at("main").setAttribute("aria-busy", "false");
    }
}

// Shows a step of the run. Of several that are wanted while one is loaded, only the last is shown.
function goTo(count) {
    wanted = Math.max(0, Math.min(count, run.steps.length));
    if (!busy) whileBusy(showWanted);
}

async function showWanted() {
    while (wanted !== null) {
        const next = wanted;
        wanted = null;
        await show(next);
    }
}

// The step from which a key or a button goes on.
const here = () => wanted ?? run.at;

// Takes a step after those that are shown.
function take(word) {
    if (!busy) whileBusy(() => takeStep(word));
}

async function takeStep(word) {
    await addStep(stepOf(shown, word));
    wanted = run.at + 1;
    await showWanted();
}

// Opens another run, and shows it from its beginning on: what was scrolled before is at the top again. `open` returns its first step.
async function showOther(open) {
    wanted = await open();
    tell("fault", "");
    document.title = `${run.name}, step by step`;
    at("offered").options[0].textContent = run.name;
    at("left").scrollTop = 0;
    await showWanted();
}

// ---- Keys

// Tells whether a key is meant for what has the focus. An empty place for the next step leaves the arrows to the run.
function isTyping({target, key}) {
    if (document.querySelector("dialog[open]")) return true;
    // A dialog that was just closed keeps the focus for a moment.
    if (target.closest("dialog")) return false;
    if (target === at("word") && !target.value) return key.length === 1;
    return target.matches("input:not([type=range], [type=checkbox]), textarea, select");
}

const KEYS = {
    ArrowLeft: () => goTo(here() - 1),
    ArrowRight: () => goTo(here() + 1),
    Home: () => goTo(0),
    End: () => goTo(run.steps.length),
    o: () => at("open").click(),
    f: () => at("find").click(),
    p: () => at("fold").click(),
    "?": () => at("help").click(),
};

function onKey(event) {
    if (event.ctrlKey || event.altKey || event.metaKey || isTyping(event)) return;
    if (Object.hasOwn(KEYS, event.key)) KEYS[event.key]();
    else if (/^[cmlr]$/.test(event.key) && !at("typing").hidden) {
        at("word").value = event.key;
        at("word").focus();
    } else return;
    event.preventDefault();
}

function takeTyped(event) {
    event.preventDefault();
    const word = at("word").value.trim();
    at("word").value = "";
    if (word) take(word);
}

// ---- Opening and finding

// Returns the number in a field, or refuses it.
function numberIn(id, most, what) {
    const text = at(id).value.trim();
    if (!/^[0-9]{1,20}$/.test(text) || BigInt(text) > most) throw new Error(`${what} must be a number from 0 to ${most}`);
    return text;
}

const seedIn = (id, what) => numberIn(id, 18446744073709551615n, what);

function faultsIn(lose, repeat) {
    const faults = {lose: numberIn(lose, 1000n, "the messages lost"), repeat: numberIn(repeat, 400n, "the messages repeated")};
    if (Number(faults.lose) + Number(faults.repeat) > 1000) throw new Error("at most 1000 of 1,000 messages can be lost or repeated");
    return faults;
}

// Does what a dialog asks for, and closes it if that succeeds.
function doDialog(event, dialog, refusal, open) {
    event.preventDefault();
    if (!busy) whileBusy(() => showOther(async () => {
        const place = await open();
        at("offered").value = "";
        at(dialog).close();
        return place;
    }), refusal);
}

function openFromDialog(event) {
    doDialog(event, "opening", "refusal", () => {
        const policy = at("policy").value;
        const seed = ["seeded", "faulty"].includes(policy) ? seedIn("seed", "the seed") : "0";
        const faults = policy === "faulty" ? faultsIn("lose", "repeat") : {lose: "0", repeat: "0"};
        return openText(at("file").files[0]?.name ?? "a run", at("text").value, {policy, seed, ...faults, isMarks: at("is-marks").checked});
    });
}

function findFromDialog(event) {
    doDialog(event, "finding", "unfound", () => {
        const from = seedIn("from", "the first seed"), to = seedIn("to", "the last seed");
        if (BigInt(from) > BigInt(to)) throw new Error("the first seed must not be above the last one");
        return findRun({from, to, ends: at("ends").value, ...faultsIn("find-lose", "find-repeat"), shrinks: at("shrinks").checked});
    });
}

function showOpening() {
    at("file").value = "";
    at("text").value = run.text;
    at("is-marks").checked = false;
    tell("refusal", "");
    at("opening").showModal();
}

function showFinding() {
    tell("unfound", "");
    at("finding").showModal();
}

async function copyChoices() {
    at("choices").select();
    try {
        await navigator.clipboard.writeText(at("choices").value);
        at("copy").textContent = "copied";
        setTimeout(() => { at("copy").textContent = "copy"; }, 1500);
    } catch {
        tell("fault", "the browser does not let this page copy: the choices are selected, so copy them by Ctrl-C");
    }
}

// ---- The beginning

function listen() {
    at("first").onclick = () => goTo(0);
    at("back").onclick = () => goTo(here() - 1);
    at("forward").onclick = () => goTo(here() + 1);
    at("last").onclick = () => goTo(run.steps.length);
    at("slider").oninput = () => goTo(Number(at("slider").value));
    at("legend").onchange = cutPicture;
    at("fold").onclick = () => foldPicture(!isFolded());
    at("copy").onclick = copyChoices;
    at("typing").onsubmit = takeTyped;
    at("open").onclick = showOpening;
    at("opens").onsubmit = openFromDialog;
    at("find").onclick = showFinding;
    at("finds").onsubmit = findFromDialog;
    at("shrink").onclick = () => { if (!busy) whileBusy(() => showOther(shrinkRun)); };
    at("help").onclick = () => at("helping").showModal();
    at("file").onchange = async () => { at("text").value = await at("file").files[0]?.text() ?? ""; };
    for (const button of document.querySelectorAll("dialog .close")) button.onclick = () => button.closest("dialog").close();
    document.addEventListener("keydown", onKey);
    window.addEventListener("resize", cutPicture);
}

// Offers the examples, and begins with the file that was named when the server was started.
async function start() {
    const told = await ask("/start", {});
    const list = at("offered");
    list.append(...told.offered.map(({name, about}) => make("option", {value: name}, about)));
    list.onchange = () => {
        const chosen = told.offered.find(({name}) => name === list.value) ?? told;
        // Otherwise the arrow keys would choose another example.
        list.blur();
        if (!busy && list.value) whileBusy(() => showOther(() => openText(chosen.name, chosen.text)));
    };
    await showOther(() => openText(told.name, told.text, {isMarks: told.isMarks}));
}

foldPicture(wasFolded());
listen();
whileBusy(start);
