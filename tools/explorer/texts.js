// How the texts that `ra` reads and prints are read: states, traces and mark logs.

const STEPS = ["ask", "release", "cancel", "forget", "deliver", "lose", "repeat"];
const MARKS = ["request", "enter", "leave", "withdraw"];

export const isTrace = (text) => text.startsWith("trace ");
export const isMarkLog = (text) => MARKS.some((word) => text.startsWith(`${word} `));

// Reads the message that the line of a step names.
export function messageOf(words) {
    const [, kind, from, to, name, ...rest] = words;
    return {kind, from: Number(from), to: Number(to), name, mode: kind === "request" ? rest[0] : null,
        number: Number(rest[rest.length - 1])};
}

export const lineOf = ({kind, from, to, name, mode, number}) => [kind, from, to, name, ...(mode ? [mode] : []), number].join(" ");

export const isSame = (one, other) => ["kind", "from", "to", "name", "mode", "number"].every((key) => one[key] === other[key]);

const readEntry = ([node, client, name, mode, number]) => ({node: Number(node), client, name, mode, number: Number(number)});

// Reads the lines of `ra sim --state`.
export function readState(text) {
    const state = {steps: 0, cells: [], messages: [], clients: [], waiting: [], holding: []};
    // What a node awaits, defers and has in its queue follows its own line.
    const last = () => state.cells[state.cells.length - 1];
    const readers = {
        steps: ([count]) => { state.steps = Number(count); },
        node: ([node, name, highest, phase, client, mode, number]) => state.cells.push({node: Number(node), name,
            highest: Number(highest), phase, client, mode, number: Number(number), awaits: [], defers: [], queued: []}),
        awaits: ([, , other]) => last().awaits.push(Number(other)),
        defers: ([, , other, number]) => last().defers.push({node: Number(other), number: Number(number)}),
        queued: ([, , client, mode]) => last().queued.push({client, mode}),
        message: ([place, kind, from, to, name, ...rest]) => state.messages.push({place, kind, from: Number(from), to: Number(to),
            name, mode: kind === "request" ? rest[0] : null, number: Number(rest[rest.length - 1])}),
        client: ([client, node, what, ...rest]) => state.clients.push({client, node: Number(node), what, rest}),
        waiting: (words) => state.waiting.push(readEntry(words)),
        holding: (words) => state.holding.push(readEntry(words)),
    };
    for (const line of text.trimEnd().split("\n")) {
        const [first, ...words] = line.split(" ");
        if (!Object.hasOwn(readers, first)) throw new Error(`ra sim --state printed a line that this page does not know: ${line}`);
        readers[first](words);
    }
    return state;
}

// Reads a trace: its first line, and its steps, each with its line and its marks.
export function readTrace(text) {
    const lines = text.split("\n");
    const [, version, nodes, start] = lines[0].split(" ");
    const trace = {text, version, nodes: Number(nodes), start, steps: []};
    lines.slice(1).forEach((line, place) => {
        const words = line.split(" ");
        const last = trace.steps[trace.steps.length - 1];
        if (STEPS.includes(words[0])) trace.steps.push({line, number: place + 2, words, sends: [], marks: []});
        else if (words[0] === "send") last?.sends.push(line);
        else if (MARKS.includes(words[0])) last?.marks.push(line);
    });
    return trace;
}

// Reads a line of a mark log. Its numbers may be above those that a Number has exactly.
export function readMark(line) {
    const [word, node, client, name, mode, number] = line.split(" ");
    return {word, entry: {node: Number(node), client, name, mode, number: BigInt(number)}};
}

// Returns the lines of a text that ends in a line feed or, if it was cut, in a part of a line.
export function linesOf(text) {
    const lines = text.split("\n");
    return lines[lines.length - 1] === "" ? lines.slice(0, -1) : lines;
}
