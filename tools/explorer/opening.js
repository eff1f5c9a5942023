// Opens scripts, traces and mark logs, and finds runs of a script. Each returns the step to begin with.
import {scriptOf} from "./scripts.js";
import {ask, askRa, inWords, withoutOptions} from "./server.js";
import {choicesOf, isChoice, logOf, replaceRun, run, viewAfter} from "./run.js";
import {isMarkLog, isTrace, linesOf, readTrace} from "./texts.js";

// The most steps that are opened: of a trace it may have no more, and of a mark log the last ones are.
const MOST_OPENED = 1000;

// Begins a run. If what is needed of it cannot be loaded, the run is as before.
async function begin(facts, place = 0) {
    const undo = replaceRun(facts);
    try {
        await viewAfter(0);
        const copies = run.kind === "script" ? run.steps.findIndex((step) => !isChoice(step)) : 0;
        await viewAfter(copies < 0 ? run.steps.length : copies);
    } catch (fault) {
        undo();
        throw fault;
    }
    return place;
}

// Opens a text: a mark log if it looks like one or `how.isMarks` says so, a trace, or a script with the run that `how` asks for.
export async function openText(name, text, how = {}) {
    if (how.isMarks || isMarkLog(text)) return openMarks(name, text);
    if (isTrace(text)) return openTrace(name, text);
    if (!how.policy) return begin({name, text});
    const {policy, seed, lose, repeat} = how;
    const told = await askRa("/run", {script: text, policy, seed, lose, repeat});
    return begin({name, text, steps: await stepsIn(text, told.out)});
}

// Returns the steps of a run that `ra` prints as choices or, if a message is repeated, as a trace.
async function stepsIn(script, printed) {
    if (!isTrace(printed)) return printed.trim().split(" ").filter(Boolean);
    return stepsOf(script, readTrace(printed), ({words}) => words[2]);
}

// ---- Traces and mark logs

// Returns what `ra` found wrong with a text: the line, its number, and why. Returns null if the text is valid.
function wrongIn(told, text) {
    const found = /^invalid ([0-9]+) (\w+)\n$/.exec(told.out);
    if (!found && !told.out.startsWith("valid\n")) throw new Error(inWords(told));
    if (!found) return null;
    const number = Number(found[1]), line = linesOf(text)[number - 1] ?? null, note = withoutOptions(told.err);
    const head = `line ${number}, '${line}': `;
    return {number, cause: found[2], line, why: note.startsWith(head) ? note.slice(head.length) : note};
}

// Opens a trace, as a script with the choices that make the same steps. If it is wrong, it is opened at its last step before the wrong line.
async function openTrace(name, text) {
    const told = await ask("/check", {trace: text}), wrong = wrongIn(told, text);
    if (wrong?.number === 1) throw new Error(inWords(told));
    const lines = text.split("\n");
    const trace = readTrace((wrong ? lines.slice(0, wrong.number - 1) : lines).join("\n"));
    if (trace.start !== "0") throw new Error("the numbers of this trace begin above 0, and those of a script begin with 0");
    if (trace.steps.length > MOST_OPENED) throw new Error(`the trace has more than ${MOST_OPENED} steps`);
    const place = wrong ? trace.steps.length : 0;
    if (trace.version === "3") {
        const rules = rulesOf(lines[0], trace);
        return begin({name, kind: "rules", text, steps: trace.steps.map(({line}) => line), rules, wrong}, place);
    }
    const {script, clientOf, absent, renamed} = scriptOf(trace, wrong !== null);
    return begin({name, text: script, steps: await stepsOf(script, trace, clientOf), wrong, absent, notes: renamed}, place);
}

// Returns what the steps of a trace of version 3 need: its first line, its nodes and names, and of each client what it asks for.
function rulesOf(first, {nodes, steps}) {
    const wishes = [], names = new Set();
    for (const {words: [, node, client, name, mode]} of steps.filter((step) => step.words[0] === "ask")) {
        names.add(name);
        let own = wishes.find((each) => each.node === Number(node) && each.client === client);
        if (!own) wishes.push(own = {node: Number(node), client, locks: []});
        if (!own.locks.some((each) => each.name === name)) own.locks.push({name, mode});
    }
    return {first, nodes, names: [...names].sort(), wishes};
}

// Returns the steps of a trace as steps of the run: choices up to the first repeat, and then lines with the clients of the script.
async function stepsOf(script, trace, clientOf) {
    const isOfClient = ({words}) => ["ask", "release"].includes(words[0]);
    const first = trace.steps.findIndex((step) => step.words[0] === "repeat");
    const plain = first < 0 ? trace.steps : trace.steps.slice(0, first);
    const choices = await choicesOf(script, plain.map((step) => ({line: step.line, choice: isOfClient(step) ? `c${clientOf(step)}` : null})));
    const rest = trace.steps.slice(plain.length).map((step) =>
        isOfClient(step) ? [step.words[0], step.words[1], clientOf(step), ...step.words.slice(3)].join(" ") : step.line);
    return [...choices, ...rest];
}

// Opens a mark log, of which each mark is a step. If it is wrong, it is opened at its last mark before the wrong line.
async function openMarks(name, text) {
    const wrong = wrongIn(await ask("/check-marks", {trace: text}), text);
    const lines = linesOf(text).slice(0, wrong ? wrong.number - 1 : undefined);
    const steps = lines.slice(Math.max(0, lines.length - MOST_OPENED));
    const notes = steps.length < lines.length ? [`Of ${lines.length} marks, the last ${steps.length} are shown.`] : [];
    return begin({name, kind: "marks", text, steps, wrong, log: logOf(lines, steps.length), notes}, wrong ? steps.length : 0);
}

// ---- Finding and shrinking

// What stays as it is if another run of the same script begins.
const sameScript = () => ({name: run.name, text: run.text, absent: run.absent, notes: run.notes});

// Finds the first run of some seeds that ends as asked, and opens it at its end. One that is stuck may be shrunk.
export async function findRun({from, to, ends, lose, repeat, shrinks}) {
    const policy = Number(lose) || Number(repeat) ? "faulty" : "seeded";
    const told = await askRa("/find", {script: run.text, policy, from, to, ends, lose, repeat});
    const does = ends === "stuck" ? "gets stuck" : "finishes";
    if (told.out === "none\n") throw new Error(`of the runs with seeds ${from} to ${to}, none ${does}`);
    const seed = /this run has seed ([0-9]+)/.exec(told.err)?.[1];
    const news = `${seed ? `Seed ${seed}` : "This"} is the first of ${from} to ${to} whose run ${does}.`;
    const steps = await stepsIn(run.text, told.out);
    return beginAtEnd(shrinks && ends === "stuck" ? await shrunk(steps, news) : {steps, news});
}

// Opens a shorter run that is stuck, too, at its end.
export const shrinkRun = async () => beginAtEnd(await shrunk(run.steps.slice(0, run.at), run.news));

const beginAtEnd = ({steps, news}) => begin({...sameScript(), steps, news}, steps.length);

// Returns the steps of a shorter run that is stuck, too: `ra` leaves out steps as long as the others still get stuck.
async function shrunk(choices, news) {
    if (!choices.every(isChoice)) throw new Error("a run with repeats cannot be shrunk");
    const told = await askRa("/shrink", {script: run.text, choices: choices.join(" ")});
    if (told.out === "none\n")
        throw new Error("only a run that is stuck can be shrunk: somebody waits, nothing is under way, and nobody can go on");
    const steps = told.out.trim().split(" ");
    const about = steps.length < choices.length ? `It was shrunk from ${choices.length} steps to ${steps.length}.`
        : `None of its ${steps.length} steps can be left out.`;
    return {steps, news: `${news} ${about}`.trim()};
}
