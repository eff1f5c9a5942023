// What the last step did, and why, in words.
import {listed, nodesOf} from "./elements.js";
import {cellAt} from "./rules.js";
import {conflict, isEarlier, waitsOf} from "./table.js";
import {messageOf, readMark} from "./texts.js";

const MODES = {S: "shared", X: "exclusive", IS: "intent shared", IX: "intent exclusive", SIX: "shared and intent exclusive"};

const inMode = (name, mode) => `${name} (${mode}, ${MODES[mode]})`;

// Returns the name of the rule that a step of the algorithm is made by.
export const ruleOf = (words) => words[0] === "deliver" ? words[1] : ({release: "leave", lose: "carry", repeat: "carry"})[words[0]] ?? words[0];

// Tells of a step of the algorithm, between two states.
export function explain(step, before, after) {
    const tellers = {ask: tellAsk, release: tellLeave, cancel: tellCancel, forget: tellForget, request: tellRequest, reply: tellReply};
    if (step.words[0] === "lose") return `${titled(messageOf(step.words))} is lost. No node notices, and nobody sends it again.`;
    if (step.words[0] === "repeat") return `A copy of ${titled(messageOf(step.words))} is under way. No node notices.`;
    return tellers[step.words[0] === "deliver" ? step.words[1] : step.words[0]](step, before, after);
}

function titled({kind, from, to, name, mode, number}) {
    return `${kind.toUpperCase()} ${number} from node ${from} to node ${to} for ${mode ? `${name} (${mode})` : name}`;
}

// "a REQUEST goes to node 2", "REQUESTs go to nodes 2 and 3".
const sentTo = (article, kind, nodes) => nodes.length === 1 ? `${article} ${kind} goes to ${nodesOf(nodes)}` : `${kind}s go to ${nodesOf(nodes)}`;

// Says what the marks of a step add: a request that was made, and a client that entered.
function tellMarks(marks, nodes) {
    return marks.map((line) => {
        const [word, node, client, , , number] = line.split(" ");
        const others = Array.from({length: nodes}, (_, place) => place + 1).filter((other) => other !== Number(node));
        if (word === "request")
            return `Client ${client} gets the number ${number}, one above the highest of node ${node}`
                + (others.length ? `, and ${sentTo("a", "REQUEST", others)}.` : ".");
        return word === "enter" ? `Client ${client} enters.` : "";
    }).filter(Boolean).join(" ");
}

function tellAsk({words: [, node, client, name, mode], marks}, before, after) {
    const asks = `Client ${client} at node ${node} asks for ${inMode(name, mode)}.`;
    if (marks.length) return `${asks} ${tellMarks(marks, after.nodes)}`;
    return `${asks} Another client of this node comes first, so it is queued, without a number.`;
}

// Says which REPLYs a node sends as its request ends.
function tellOwed(cell) {
    const owed = cell.defers.map((each) => each.node);
    return owed.length ? `Now ${sentTo("the", "deferred REPLY", owed)}.` : "No REPLY was deferred.";
}

function tellLeave({words: [, node, client, name], marks}, before, after) {
    const replies = tellOwed(cellAt(before, Number(node), name));
    return `Client ${client} at node ${node} leaves ${name}. ${replies} ${tellMarks(marks, after.nodes)}`.trim();
}

function tellCancel({words: [, node, client, name], marks}, before, after) {
    const old = cellAt(before, Number(node), name), gives = `Client ${client} at node ${node} gives up ${name}.`;
    if (!marks.length) return `${gives} It was only queued, so no node learns of it.`;
    const strays = after.nodes > 1 ? ` A REPLY ${old.number} that comes now is a stray.` : "";
    return `${gives} Its request is withdrawn, and no other node is told.${strays} ${tellOwed(old)} ${tellMarks(marks, after.nodes)}`.trim();
}

function tellForget({words: [, node]}, before, after) {
    const cells = after.cells.filter((cell) => cell.node === Number(node));
    const rises = cells.some(({name, highest}) => highest !== cellAt(before, Number(node), name).highest);
    const told = `Node ${node} forgets the names that nobody uses there.`;
    if (!rises) return `${told} All its highest numbers were the same.`;
    return `${told} All its highest numbers become ${cells[0].highest}, the greatest of them, also that of a name that it has not met.`;
}

function tellRequest({words, isAgain}, before, after) {
    const {from, to, name, mode, number} = messageOf(words);
    const old = cellAt(before, to, name), now = cellAt(after, to, name);
    const told = [`Node ${to} receives REQUEST ${number} of node ${from} for ${inMode(name, mode)}${isAgain ? ", again" : ""}.`];
    if (now.highest !== old.highest) told.push(`Its highest number rises from ${old.highest} to ${now.highest}.`);
    if (old.phase === "idle") told.push("It has no request of its own, so it replies at once.");
    else {
        const own = `Its own request, number ${old.number} in mode ${old.mode},`;
        const tie = old.number === number ? " (of equal numbers, the lower node goes first)" : "";
        if (!conflict(old.mode, mode)) told.push(`${own} does not conflict, so it replies at once.`);
        else if (isEarlier({number: old.number, node: to}, {number, node: from}))
            told.push(`${own} conflicts and is earlier${tie}, so it `
                + (old.defers.some((each) => each.node === from) ? "still defers its REPLY." : "defers its REPLY."));
        else told.push(`${own} conflicts and is later${tie}, so it replies at once.`);
    }
    return told.join(" ");
}

function tellReply({words, marks, isAgain}, before, after) {
    const {from, to, name, number} = messageOf(words);
    const old = cellAt(before, to, name), now = cellAt(after, to, name);
    const told = `Node ${to} receives REPLY ${number} of node ${from} for ${name}${isAgain ? ", again" : ""}.`;
    if (old.phase !== "waiting" || old.number !== number || !old.awaits.includes(from))
        return `${told} It does not await this number from this node, so it is a stray, and nothing changes.`;
    if (marks.length) return `${told} It was the last one that it awaited. ${tellMarks(marks, after.nodes)}`;
    return `${told} It still awaits ${nodesOf(now.awaits)}.`;
}

// ---- Marks

const clientOf = ({client, node}) => `client ${client} at node ${node}`;
const capital = (text) => text[0].toUpperCase() + text.slice(1);

// Tells of a mark of a log, between two states of the lock table.
export function explainMark(line, before, after) {
    const {word, entry} = readMark(line), {name, mode, number} = entry;
    const who = capital(clientOf(entry)), others = after.holding.filter((other) => other.name === name && !isOf(entry)(other));
    if (word === "request") return `${who} asks for ${inMode(name, mode)}, with number ${number}. ${tellObstacles(after, entry)}`;
    if (word === "enter") return `${who} is let in, and holds ${inMode(name, mode)}. ${tellBeside(others)}`;
    const did = word === "leave" ? `leaves ${name}.` : `gives up ${name}: its request ${number} is withdrawn.`;
    return `${who} ${did} ${tellFreed(before, after, name)}`;
}

const isOf = (entry) => (other) => other.node === entry.node && other.name === entry.name;

function tellObstacles(state, entry) {
    const {blockers} = waitsOf(state).find(isOf(entry));
    const told = blockers.map((other) => `${clientOf(other)} ${other.how} (${other.mode})`);
    return told.length ? `It has to wait: ${listed(told)}.` : "Nobody is in its way.";
}

function tellBeside(others) {
    if (!others.length) return "Nobody else holds it.";
    const told = others.map((other) => `${clientOf(other)} (${other.mode})`);
    return `So ${others.length === 1 ? "does" : "do"} ${listed(told)}, since the modes do not conflict.`;
}

// Tells who has nobody in its way any more.
function tellFreed(before, after, name) {
    const free = (state) => waitsOf(state).filter((wait) => wait.name === name && !wait.blockers.length);
    const old = free(before), told = free(after).filter((wait) => !old.some(isOf(wait))).map(clientOf);
    return told.length ? `Now nobody is in the way of ${listed(told)}.` : "";
}
