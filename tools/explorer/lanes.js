// A lane for each node: its clients, the state of each name, and the messages on their way to it. Their buttons take steps.
import {at, counted, make, nodesOf} from "./elements.js";
import {cellAt} from "./rules.js";
import {run} from "./run.js";

// The most names of which a node shows those that it has not met.
const MOST_UNMET = 6;

// Shows the nodes of a view, and what changed since the one before. A button calls `take` with its step.
export function showLanes(view, before, take) {
    const {state, trace, under} = view;
    const button = (...its) => stepButton(take, ...its);
    const lanes = [];
    for (let node = 1; node <= trace.nodes; node++) {
        const all = state.cells.filter((cell) => cell.node === node);
        const cells = all.length <= MOST_UNMET ? all : all.filter((cell) => cell.phase !== "idle" || cell.highest > 0);
        const unmet = all.length - cells.length;
        const clients = state.clients.filter((each) => each.node === node && !run.absent.includes(each.client));
        const messages = under.filter((message) => message.to === node);
        const isByRules = run.kind === "rules";
        lanes.push(make("section", {className: "lane", data: {node}}, make("h3", {}, `node ${node}`),
            ...clients.map((client) => isByRules ? wishesBox(button, client) : clientBox(button, view, client)),
            ...cells.map((cell) => cellBox(view, cell, before?.state)),
            unmet ? make("p", {className: "small"}, `${counted(unmet, "name")} that it has not met`) : null,
            ...messages.map((message) => messageBox(button, message)),
            isByRules ? make("div", {className: "forgets"}, button(`forget ${node}`, ["forget"], `forget-${node}`)) : null));
    }
    at("lanes").replaceChildren(...lanes);
    at("main").classList.toggle("many", trace.nodes > 3);
}

// Returns a button that takes a step.
function stepButton(take, word, label, key, has = {}) {
    return make("button", {type: "button", onclick: () => take(word), data: {word, key}, title: `${word}`, ...has}, ...label);
}

// The state of a name at a node.
function cellBox(view, cell, before) {
    const old = before && cellAt(before, cell.node, cell.name);
    const changed = old && JSON.stringify(old) !== JSON.stringify(cell);
    const phase = cell.phase === "idle" ? "idle" : `${cell.phase} (${cell.number}, ${cell.mode})`;
    const box = make("div", {className: `cell ${cell.phase}${changed ? " changed" : ""}`, data: {name: cell.name}},
        make("p", {}, make("span", {className: "name"}, cell.name), " ", make("span", {className: "phase"}, phase),
            cell.phase === "idle" ? "" : make("span", {className: "who"}, ` for client ${cell.client}`)),
        make("p", {className: "highest"}, `highest ${cell.highest}`));
    const lines = [
        ...Object.entries(dialogsOf(view, cell)).map(([where, others]) => make("li", {className: "awaits"}, `awaits ${nodesOf(others)} `,
            make("span", {className: "small"}, `(${where})`))),
        ...cell.defers.map(({node, number}) => make("li", {className: "defers"}, `defers node ${node} `,
            make("span", {className: "small"}, `(its request ${number})`))),
        ...cell.queued.map(({client, mode}) => make("li", {className: "queued"}, `queued: client ${client} (${mode})`)),
    ];
    if (lines.length) box.append(make("ul", {}, ...lines));
    if (changed) box.title = "changed by the last step";
    return box;
}

// Returns the nodes whose REPLYs are awaited, by where these are.
function dialogsOf(view, cell) {
    const found = {};
    for (const other of cell.awaits) (found[dialogOf(view, cell, other)] ??= []).push(other);
    return found;
}

// Says where the REPLY is that a node awaits: one of the three ways of the dialog, or it was lost.
function dialogOf({state, under}, cell, other) {
    const is = (kind, from, to) => (message) => message.kind === kind && message.from === from && message.to === to
        && message.name === cell.name && message.number === cell.number;
    if (under.some(is("reply", other, cell.node))) return "REPLY under way";
    if (under.some(is("request", cell.node, other))) return "REQUEST under way";
    const there = state.cells.find((it) => it.node === other && it.name === cell.name);
    if (there?.defers.some(({node, number}) => node === cell.node && number === cell.number)) return "deferred there";
    return "lost on the way";
}

function clientBox(button, view, {client, what, rest}) {
    const box = make("div", {className: "client", data: {client}});
    if (what === "done") box.append(make("span", {}, `client ${client} is done`));
    else if (what === "waits") {
        const [name, mode, step] = rest;
        box.append(make("span", {}, `client ${client} waits for ${name} (${mode}), asked in step ${view.bare[step - 1].step}`));
    } else {
        const [word, name, mode] = rest, choice = `c${client}`;
        const does = word === "lock" ? `lock ${name} (${mode})` : `unlock ${name}`;
        box.append(rest.at(-1) === "enabled" ? button(choice, [`client ${client}: ${does} `, make("kbd", {}, choice)], choice)
            : make("span", {}, `client ${client} would ${does}, and cannot`));
    }
    return box;
}

// What a client of a trace of version 3 can do.
function wishesBox(button, {client, node, lines}) {
    const buttons = lines.map(({does, line}) => button(line, [`client ${client}: ${does}`], `${does} ${client} ${node}`));
    return make("div", {className: "client wishes", data: {client}}, ...buttons);
}

function messageBox(button, message) {
    const {place, kind, from, name, mode, number} = message;
    const key = [kind, from, message.to, name, number].join("-");
    const what = `${name}${mode ? ` ${mode}` : ""} from node ${from}`;
    const does = (letter, word, ...label) => button(letter + place, [word, ...label], `${letter}-${key}`,
        {className: word, "aria-label": `${word} ${kind.toUpperCase()} ${number} ${what}, ${letter}${place}`});
    return make("div", {className: `message ${kind}`, data: {place}},
        make("p", {}, make("span", {className: "kind"}, `${kind.toUpperCase()} ${number}`), ` ${what}`),
        make("div", {}, does("m", "deliver", " ", make("kbd", {}, `m${place}`)), does("l", "lose"), does("r", "repeat")));
}
