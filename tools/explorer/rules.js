// The rules of the algorithm, for the traces of version 3. No script has their cancels and forgets, so `ra sim --state` cannot be
// asked for the nodes: the page makes each step by these rules. It then has `ra check` confirm what stands after them.
import {conflict, isEarlier} from "./table.js";
import {isSame, lineOf, messageOf} from "./texts.js";

export const cellAt = (state, node, name) => state.cells.find((cell) => cell.node === node && cell.name === name);

const othersOf = (nodes, node) => Array.from({length: nodes}, (_, place) => place + 1).filter((other) => other !== node);

const IDLE = {phase: "idle", client: null, mode: null, number: 0, awaits: [], defers: []};

// Returns the state in which nothing has happened yet.
export function beginningOf(nodes, names) {
    const numbers = Array.from({length: nodes}, (_, place) => place + 1);
    const cells = numbers.flatMap((node) => names.map((name) => ({node, name, highest: 0, ...structuredClone(IDLE), queued: []})));
    return {nodes, steps: 0, cells, messages: [], clients: [], waiting: [], holding: []};
}

// A step that is being made: the state, what was sent, and the marks.
class Making {
    constructor(before) {
        this.state = structuredClone(before);
        this.sends = [];
        this.marks = [];
    }

    send(message) {
        this.sends.push(`send ${lineOf(message)}`);
        this.state.messages.push(message);
    }

    mark(word, {node, client, name, mode, number}) {
        this.marks.push(`${word} ${node} ${client} ${name} ${mode} ${number}`);
    }

    // A client gets a number, and its node asks all others.
    stamp(cell, client, mode) {
        cell.highest += 1;
        Object.assign(cell, {phase: "waiting", client, mode, number: cell.highest, awaits: othersOf(this.state.nodes, cell.node)});
        for (const to of cell.awaits) this.send({kind: "request", from: cell.node, to, name: cell.name, mode, number: cell.number});
        this.mark("request", cell);
        this.state.waiting.push({node: cell.node, client, name: cell.name, mode, number: cell.number});
        if (!cell.awaits.length) this.enter(cell);
    }

    // Takes the request of a cell out of the lock table.
    takeOut(cell) {
        const isOther = (entry) => entry.node !== cell.node || entry.name !== cell.name;
        this.state.waiting = this.state.waiting.filter(isOther);
        this.state.holding = this.state.holding.filter(isOther);
    }

    enter(cell) {
        this.takeOut(cell);
        this.state.holding.push({node: cell.node, client: cell.client, name: cell.name, mode: cell.mode, number: cell.number});
        cell.phase = "inside";
        this.mark("enter", cell);
    }

    // A request ends, by a leave or a withdrawal: the deferred REPLYs go out, and the next client of the queue gets a number.
    end(cell, word) {
        for (const {node, number} of cell.defers)
            this.send({kind: "reply", from: cell.node, to: node, name: cell.name, mode: null, number});
        this.mark(word, cell);
        this.takeOut(cell);
        Object.assign(cell, structuredClone(IDLE));
        const next = cell.queued.shift();
        if (next) this.stamp(cell, next.client, next.mode);
    }

    ask([, node, client, name, mode]) {
        const cell = cellAt(this.state, Number(node), name);
        if (cell.phase === "idle") this.stamp(cell, client, mode);
        else cell.queued.push({client, mode});
    }

    release([, node, , name]) {
        this.end(cellAt(this.state, Number(node), name), "leave");
    }

    cancel([, node, client, name]) {
        const cell = cellAt(this.state, Number(node), name);
        if (cell.queued.some((each) => each.client === client)) cell.queued = cell.queued.filter((each) => each.client !== client);
        else this.end(cell, "withdraw");
    }

    // All highest numbers of the node become the greatest of them. A name that it has not met has the number of its start, which none is below.
    forget([, node]) {
        const cells = this.state.cells.filter((cell) => cell.node === Number(node));
        const highest = Math.max(...cells.map((cell) => cell.highest));
        for (const cell of cells) cell.highest = highest;
    }

    request({from, to, name, mode, number}) {
        const cell = cellAt(this.state, to, name);
        cell.highest = Math.max(cell.highest, number);
        if (cell.phase === "idle" || !conflict(cell.mode, mode) || !isEarlier({number: cell.number, node: to}, {number, node: from})) {
            this.send({kind: "reply", from: to, to: from, name, mode: null, number});
            return;
        }
        const old = cell.defers.find((each) => each.node === from);
        if (old) old.number = Math.max(old.number, number);
        else cell.defers.push({node: from, number});
        cell.defers.sort((one, other) => one.node - other.node);
    }

    reply({from, to, name, number}) {
        const cell = cellAt(this.state, to, name);
        if (cell.phase !== "waiting" || cell.number !== number || !cell.awaits.includes(from)) return;
        cell.awaits = cell.awaits.filter((other) => other !== from);
        if (!cell.awaits.length) this.enter(cell);
    }

    // What happens to a message: it is delivered, lost or repeated.
    carry(words) {
        const message = messageOf(words), place = this.state.messages.findIndex((other) => isSame(message, other));
        if (words[0] === "repeat") this.state.messages.push(message);
        else this.state.messages.splice(place, 1);
        if (words[0] === "deliver") this[message.kind](message);
    }
}

// Makes a step, the line of a trace, and returns what stands after it, with the lines of what it sent and of its marks.
export function makeStep(before, line) {
    const words = line.split(" "), made = new Making(before);
    if (["ask", "release", "cancel", "forget"].includes(words[0])) made[words[0]](words);
    else made.carry(words);
    made.state.steps += 1;
    made.state.messages.forEach((message, place) => { message.place = String(place); });
    return {line, state: made.state, sends: made.sends, marks: made.marks};
}

// Returns steps that show all of a state by what they send and mark: each request ends, each queued client gets its number and ends its
// request, too, a new client asks for each name, and all messages under way are lost.
export function stepsThatShow(before, newcomer) {
    const steps = [];
    const make = (line) => steps.push(makeStep(steps.length ? steps[steps.length - 1].state : before, line));
    const now = () => steps.length ? steps[steps.length - 1].state : before;
    for (const {node, name} of before.cells) {
        for (let cell = cellAt(now(), node, name); cell.phase !== "idle"; cell = cellAt(now(), node, name))
            make(`${cell.phase === "inside" ? "release" : "cancel"} ${node} ${cell.client} ${name}`);
        make(`ask ${node} ${newcomer} ${name} X`);
    }
    for (const message of now().messages) make(`lose ${lineOf(message)}`);
    return steps;
}
