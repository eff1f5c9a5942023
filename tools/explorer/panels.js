// What the page shows beside the nodes: the last step, the lock table, who waits for whom, the steps, and what `ra` says.
import {at, counted, make, tell} from "./elements.js";
import {explain, explainMark, ruleOf} from "./explain.js";
import {isChoice, run} from "./run.js";
import {circleOf, isEarlier, waitsOf} from "./table.js";

// The most names of a mark log that are listed though nobody has them.
const MOST_IDLE = 20;

const isMarks = () => run.kind === "marks";
const lastOf = (trace) => trace.steps[trace.steps.length - 1];

// Shows how far the run is, and lets the buttons go on as far as there are steps.
export function showWalk() {
    const slider = at("slider"), skipped = run.log?.skipped ?? 0;
    slider.max = run.steps.length;
    slider.value = run.at;
    at("position").textContent = `${isMarks() ? "mark" : "step"} ${skipped + run.at} of ${skipped + run.steps.length}`;
    at("first").disabled = at("back").disabled = run.at === 0;
    at("forward").disabled = at("last").disabled = run.at === run.steps.length;
}

// ---- The last step, and the line that cannot follow

export function showNow(view, before) {
    const step = lastOf(view.trace);
    if (!before) return at("now").replaceChildren(make("b", {}, "The beginning. "), beginningText());
    if (isMarks()) {
        const told = explainMark(step.line, before.state, view.state).trim();
        return at("now").replaceChildren(make("b", {}, `Line ${step.number}`, ", ", make("code", {}, step.line), ". "), told);
    }
    const earlier = view.trace.steps.slice(0, -1);
    const taken = run.steps[run.at - 1], choice = isChoice(taken) ? [", ", make("code", {}, taken)] : [];
    at("now").replaceChildren(make("b", {}, `Step ${run.at}`, ...choice, ". "),
        explain({...step, isAgain: earlier.some(({line}) => line === step.line)}, before.state, view.state));
}

function beginningText() {
    const skipped = run.log?.skipped ?? 0;
    const text = skipped ? `The marks up to line ${skipped} were made.` : isMarks() ? "Nobody holds a name." : "No node has met any name.";
    const next = run.steps.length ? "Step forward to see what happens." : run.kind === "script" ? "Click a client to let it ask." : "";
    return `${text} ${next}`.trim();
}

// Shows the wrong line of a text after the last step before it. Elsewhere a note says that there is one.
export function showWrong() {
    const {wrong, notes, news} = run, isHere = wrong && run.at === run.steps.length;
    const about = wrong ? `Line ${wrong.number} is wrong (${wrong.cause}). What comes before it is shown.` : "";
    tell("opened", [about, news, ...notes].filter(Boolean).join("\n"));
    at("wrong").hidden = !isHere;
    const head = wrong && make("b", {}, `Line ${wrong.number} cannot come next: `);
    if (isHere) at("wrong").replaceChildren(head, lineText(wrong), " ", make("br"), wrong.why);
}

const lineText = ({line}) => line === null ? "the text ends here." : make("code", {}, line);

// Lists the steps so far. A click calls `goTo` with the place of a step.
export function showSteps(trace, goTo) {
    const items = trace.steps.map((step, place) => {
        const title = isChoice(run.steps[place]) ? `choice ${run.steps[place]}` : "";
        return make("li", place + 1 === run.at ? {"aria-current": "step"} : {},
            make("button", {type: "button", onclick: () => goTo(place + 1), title}, step.line),
            ...[...step.sends, ...step.marks].map((mark) => make("span", {className: "mark"}, mark)));
    });
    const {wrong} = run;
    if (wrong && run.at === run.steps.length)
        items.push(make("li", {className: "wrong", title: wrong.why}, `\u2717 line ${wrong.number}: `, lineText(wrong), ` (${wrong.cause})`));
    at("steps").start = (run.log?.skipped ?? 0) + 1;
    at("steps").replaceChildren(...items);
    items[items.length - 1]?.scrollIntoView({block: "nearest"});
}

export function showRules(trace) {
    const used = new Set(trace.steps.map((step) => isMarks() ? step.words[0] : ruleOf(step.words)));
    const step = lastOf(trace), last = step && (isMarks() ? step.words[0] : ruleOf(step.words));
    at("rules").hidden = isMarks();
    at("mark-rules").hidden = !isMarks();
    for (const it of document.querySelectorAll(`${isMarks() ? "#mark-rules" : "#rules"} [data-rule]`)) {
        it.classList.toggle("used", used.has(it.dataset.rule));
        it.classList.toggle("now", it.dataset.rule === last);
    }
}

// ---- The lock table, and who waits

const entryText = ({client, node, mode, number}) => `client ${client} at node ${node}: ${mode}, number ${number}`;

export function showTable(state) {
    const {names, more} = namesOf(state);
    if (!names.length) return at("table").replaceChildren(make("p", {}, "Nobody holds a name, and no request waits."));
    const list = (entries, className) => make("td", {}, ...entries.map((entry) => make("div", {className}, entryText(entry))));
    const byStamp = (one, other) => isEarlier(one, other) ? -1 : 1;
    const rows = names.map((name) => make("tr", {data: {name}}, make("th", {scope: "row"}, name),
        list(state.holding.filter((entry) => entry.name === name), "holding"),
        list(state.waiting.filter((entry) => entry.name === name).sort(byStamp), "waiting")));
    const heads = ["name", "holds", "waits, the earliest first"].map((text) => make("th", {scope: "col"}, text));
    at("table").replaceChildren(make("table", {}, make("tr", {}, ...heads), ...rows),
        more ? make("p", {className: "small"}, `and ${counted(more, "name")} that nobody holds or waits for`) : "");
}

// Returns the names to list, in order: those that somebody has or waits for and, of a mark log, some of the others. It also says how many
// are left out.
function namesOf(state) {
    const used = new Set([...state.holding, ...state.waiting].map((entry) => entry.name));
    const idle = (state.names ?? []).filter((name) => !used.has(name));
    const listed = idle.slice(-MOST_IDLE);
    return {names: [...used, ...listed].sort(), more: idle.length - listed.length};
}

export function showWaits(state) {
    const waits = waitsOf(state).sort((one, other) => one.client - other.client || one.node - other.node);
    if (!waits.length) return at("waits").replaceChildren(make("p", {}, "Nobody waits."));
    const inTheWay = ({client, node, mode, how}) => `client ${client} at node ${node} ${how} (${mode})`;
    const free = isMarks() ? "nobody is in its way, so it may be let in" : "nobody is in its way, only REPLYs are missing";
    const lines = waits.map(({client, name, mode, queued, blockers}) => make("li", {data: {client}},
        `client ${client} ${queued ? "is queued" : "waits"} for ${name} (${mode}): `, blockers.map(inTheWay).join("; ") || free));
    at("waits").replaceChildren(make("ul", {}, ...lines));
    const circle = circleOf(waits);
    if (circle) at("waits").prepend(make("p", {className: "circle"}, circleText(circle)));
}

// "client 1 -> client 2 -> client 1". A node names its client only where clients can have the same number.
function pathText(circle) {
    const name = ({client, node}) => run.kind === "script" ? `client ${client}` : `client ${client} at node ${node}`;
    return [...circle, circle[0]].map(({wait}) => name(wait)).join(" \u2192 ");
}

// Names a deadlock. A client of a script can do nothing while it waits, and one of a log can still give up.
function circleText(circle) {
    const links = circle.map(({wait, next}) => `client ${wait.client} waits for ${wait.name}, and client ${next.client} ${next.how}`);
    const end = run.kind === "script" ? "" : " It lasts until one of them gives up, or leaves.";
    return `A deadlock: ${pathText(circle)}. Here ${links.join("; ")}.${end}`;
}

// ---- How the run stands

export function showQuiet(view) {
    const circle = circleOf(waitsOf(view.state));
    at("quiet").textContent = `${isMarks() ? openText(view.state) : quietText(view)}${circle ? ` A deadlock: ${pathText(circle)}.` : ""}`;
}

export function showCheck(view) {
    at("check").textContent = `${view.checked.out.trim().replaceAll("\n", ", ")}\n${view.checked.err.trim()}`.trim();
    at("checker").textContent = isMarks() ? "ra check --marks" : "ra check";
}

// Says in words what is left of the run, and whether it is quiet.
function quietText({state, under, isDone, trace}) {
    const lost = trace.steps.filter((step) => step.words[0] === "lose").length;
    const free = state.clients.some((client) => client.rest.at(-1) === "enabled");
    if (isDone) return `Finished: every operation is done, and nothing is left${state.holding.length ? " but what is held" : ""}.`;
    if (under.length) return `Not quiet: ${counted(under.length, "message")} under way${lost ? `, ${lost} lost` : ""}.`;
    const quiet = lost ? `Nothing is under way, but ${counted(lost, "message")} ${lost === 1 ? "was" : "were"} lost.`
        : "Quiet: nothing is under way, and nothing was lost.";
    return free ? quiet : `${quiet} Stuck: no step is left.`;
}

// Says how many requests of a mark log are open.
function openText({waiting, holding}) {
    const holds = `${counted(holding.length, "request")} ${holding.length === 1 ? "holds" : "hold"}`;
    return `${holds}, ${waiting.length} ${waiting.length === 1 ? "waits" : "wait"}.`;
}

// ---- Choices and downloads

export function showChoices(view) {
    const steps = run.steps.slice(0, run.at), copies = steps.findIndex((step) => !isChoice(step)), isScript = run.kind === "script";
    at("choices").value = isScript ? (copies < 0 ? steps : steps.slice(0, copies)).join(" ") : "";
    at("copies").hidden = at("without").hidden = !isScript || copies < 0;
    at("chosen").hidden = at("scripted").hidden = !isScript;
    at("confirmed").hidden = run.kind !== "rules";
    at("nodes").hidden = at("typing").hidden = isMarks();
    at("main").classList.toggle("marks", isMarks());
    at("find").disabled = !isScript;
    at("shrink").disabled = !isScript || copies >= 0 || view.under.length > 0 || !waitsOf(view.state).length;
    at("trace").download = isMarks() ? "run.marks" : "run.trace";
    at("trace").textContent = isMarks() ? "the marks" : "the trace";
    offer("trace", view.trace.text, "text/plain");
    if (isScript) offer("script", run.text, "text/plain");
}

// Lets a link download a text.
export function offer(id, text, type) {
    const link = at(id);
    if (link.href) URL.revokeObjectURL(link.href);
    link.href = URL.createObjectURL(new Blob([text], {type}));
}
