// Scripts for traces: the page opens a trace of version 1 or 2 as a script with choices, since `ra` prints the states of these.

const MOST_CLIENTS = 64;

// Returns a script whose clients do what those of a trace do, with the number there of the client of a step. The clients keep their
// numbers if a script can have them: it has one client for each number up to the greatest, each at one node, and each waits for a name
// before it goes on. Those that the trace does not have are `absent`.
// If the trace is cut off, they leave in the end what they have.
export function scriptOf(trace, isCut) {
    const steps = trace.steps.filter((step) => ["ask", "release"].includes(step.words[0]));
    const keys = [
        ({words: [, , client]}) => client,
        ({words: [, node, client]}) => `${node} ${client}`,
        ({words: [, node, client, name]}) => `${node} ${client} ${name}`,
    ];
    const isKept = keepsNumbers(steps) && takesTurns(trace, keys[0]);
    const keyOf = isKept ? keys[0] : takesTurns(trace, keys[1]) ? keys[1] : keys[2];
    const clients = clientsOf(steps, keyOf, isKept);
    if (clients.size > MOST_CLIENTS) throw new Error(`the trace needs a script of ${clients.size} clients, and it can have ${MOST_CLIENTS}`);
    const all = [...clients.values()];
    if (isCut) for (const {ops, has} of all) ops.push(...[...has].map((name) => `U ${name}`));
    const tables = all.map(({node, ops}) => `    { node = ${node}, ops = [${ops.map((op) => `"${op}"`).join(", ")}] },\n`);
    return {
        script: `nodes = ${trace.nodes}\nclient = [\n${tables.join("")}]\n`,
        clientOf: (step) => clients.get(keyOf(step)).number,
        absent: all.filter(({ops}) => !ops.length).map(({number}) => String(number)),
        renamed: isKept ? [] : all.map(({number, was}) => `client ${number} is ${was} in the trace`),
    };
}

// Returns the clients of a script by their keys: each with its number, node and operations, and the names that it has asked for and not
// left. A script has at least one.
function clientsOf(steps, keyOf, isKept) {
    const clients = new Map(), add = (key, node, was) => clients.set(key, {number: clients.size + 1, node, ops: [], has: new Set(), was});
    if (isKept) for (let client = 1; client <= Math.max(1, ...steps.map((step) => Number(step.words[2]))); client++) add(String(client), 1);
    for (const step of steps) {
        const [word, node, client, name, mode] = step.words, key = keyOf(step);
        if (!clients.has(key)) add(key, node, `client ${client} at node ${node}`);
        const it = clients.get(key);
        it.node = node;
        it.ops.push(word === "ask" ? `${mode} ${name}` : `U ${name}`);
        if (word === "ask") it.has.add(name);
        else it.has.delete(name);
    }
    return clients;
}

// Tells whether each client of a trace has a number that it can have in a script, and is at one node.
function keepsNumbers(steps) {
    const nodes = new Map();
    return steps.every(({words: [, node, client]}) => {
        if (!nodes.has(client)) nodes.set(client, node);
        return nodes.get(client) === node && Number(client) >= 1 && Number(client) <= MOST_CLIENTS;
    });
}

// Tells whether no client does anything while it waits or is queued.
function takesTurns(trace, keyOf) {
    const waits = new Map();
    for (const step of trace.steps) {
        if (["ask", "release"].includes(step.words[0])) {
            if (waits.get(keyOf(step))) return false;
            waits.set(keyOf(step), step.words[0] === "ask");
        }
        for (const mark of step.marks) {
            const words = mark.split(" ");
            if (words[0] === "enter") waits.set(keyOf({words}), false);
        }
    }
    return true;
}
