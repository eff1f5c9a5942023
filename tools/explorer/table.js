// The lock table: who holds a name, who waits for it, and who is in the way of whom. Of a mark log, the page makes the table by
// itself, since no command of `ra` prints it. It then has `ra check --marks` confirm it.
import {readMark} from "./texts.js";

const COMPATIBLE = new Set(["IS IS", "IS IX", "IX IS", "IX IX", "IS S", "S IS", "S S", "IS SIX", "SIX IS"]);
const GREATEST = 18446744073709551615n;

export const conflict = (one, other) => !COMPATIBLE.has(`${one} ${other}`);

// Tells whether a request goes before another one.
export const isEarlier = (one, other) => one.number < other.number || (one.number === other.number && one.node < other.node);

// Returns the entries of the lock table that are in the way of one that waits.
function obstaclesOf(state, entry) {
    const conflicting = (other) => other.name === entry.name && conflict(other.mode, entry.mode);
    return [
        ...state.holding.filter(conflicting).map((other) => ({...other, how: "holds it"})),
        ...state.waiting.filter((other) => conflicting(other) && isEarlier(other, entry)).map((other) => ({...other, how: "asked earlier"})),
    ];
}

// Returns everybody that waits, each with those in its way: clients that wait with a request, and clients that are queued.
export function waitsOf(state) {
    const waits = state.waiting.map((entry) => ({...entry, queued: false, blockers: obstaclesOf(state, entry)}));
    for (const cell of state.cells)
        cell.queued.forEach(({client, mode}, place) => {
            const before = [{client: cell.client, mode: cell.mode, how: cell.phase === "inside" ? "holds it" : "asked earlier"},
                ...cell.queued.slice(0, place).map((other) => ({...other, how: "is queued before it"}))];
            waits.push({node: cell.node, client, name: cell.name, mode, queued: true,
                blockers: before.map((other) => ({...other, node: cell.node, name: cell.name}))});
        });
    return waits;
}

// Two nodes may each have a client with the same number.
const clientOf = ({node, client}) => `${node} ${client}`;

// Returns a deadlock as a circle of waits, or null. Each ends only after the next one: that is the request in its way, or one of the client
// whose request is in its way and holds the name. Of each it has the wait, and the request in its way.
export function circleOf(waits) {
    const keyOf = (wait) => `${clientOf(wait)} ${wait.name}`;
    const byKey = new Map(waits.map((wait) => [keyOf(wait), wait])), byClient = new Map();
    for (const wait of waits) byClient.set(clientOf(wait), [...byClient.get(clientOf(wait)) ?? [], wait]);
    const waitsAfter = (next) => next.how === "holds it" ? byClient.get(clientOf(next)) ?? []
        : next.how === "asked earlier" && byKey.has(keyOf(next)) ? [byKey.get(keyOf(next))] : [];
    const done = new Set();
    const search = (wait, path) => {
        const start = path.findIndex((link) => link.wait === wait);
        if (start >= 0) return path.slice(start);
        if (done.has(wait)) return null;
        for (const next of wait.blockers)
            for (const later of waitsAfter(next)) {
                const found = search(later, [...path, {wait, next}]);
                if (found) return found;
            }
        done.add(wait);
        return null;
    };
    for (const wait of waits) {
        const found = search(wait, []);
        if (found) return found;
    }
    return null;
}

// The lock table after some marks of a log that is valid so far. A node has at most one request on a name.
export class LockTable {
    constructor() {
        this.waiting = new Map();
        this.holding = new Map();
        this.names = new Set();
        // The names that no request can be made for any more.
        this.spent = new Set();
        this.nodes = 0;
    }

    take(line) {
        const {word, entry} = readMark(line), key = `${entry.node} ${entry.name}`;
        this.names.add(entry.name);
        this.nodes = Math.max(this.nodes, entry.node);
        if (word === "request") this.waiting.set(key, entry);
        else if (word === "leave") this.holding.delete(key);
        else this.waiting.delete(key);
        if (word !== "enter") return;
        this.holding.set(key, entry);
        if (entry.number === GREATEST) this.spent.add(entry.name);
    }

    // Returns a state as it is shown. A mark log has no messages, so it has no nodes that await or defer something.
    state() {
        return {nodes: this.nodes, names: [...this.names], spent: [...this.spent], cells: [], messages: [], clients: [],
            waiting: [...this.waiting.values()], holding: [...this.holding.values()]};
    }
}

// Returns marks that are a run of the lock table after a state only if its table has these entries and no others: each is taken out,
// and a new request for each name is let in. It needs a number above all that were granted.
export function marksThatShow({waiting, holding, names, spent}) {
    const line = (word, {node, client, name, mode, number}) => `${word} ${node} ${client} ${name} ${mode} ${number}`;
    const free = names.filter((name) => !spent.includes(name));
    const last = free.map((name) => ({node: 1, client: 0, name, mode: "X", number: GREATEST}));
    return [...holding.map((entry) => line("leave", entry)), ...waiting.map((entry) => line("withdraw", entry)),
        ...last.flatMap((entry) => [line("request", entry), line("enter", entry)])];
}
