// The run that is shown, and what stands after each of its steps. A run is one of these kinds:
//
// - "script": a script, and steps that are choices, such as `c1` or `m0`. `ra` prints the state by `sim --state`, and the trace by
//   `sim --trace`. From the first repeat on, a step is the line of a trace instead, since no choice is a repeat. Then `ra` is asked for
//   the state without the copies.
// - "rules": a trace of version 3, which may have cancels, forgets and sends. Each step is a line. The page makes the steps by the rules
//   in rules.js, and `ra check` confirms what stands after them.
// - "marks": a mark log. Each step is a mark, and the page makes the lock table, which `ra check --marks` confirms.
import {counted} from "./elements.js";
import {beginningOf, makeStep, stepsThatShow} from "./rules.js";
import {ask, askRa} from "./server.js";
import {LockTable, marksThatShow} from "./table.js";
import {isSame, lineOf, messageOf, readState, readTrace} from "./texts.js";

// The most lines that are drawn: the last ones.
const MOST_DRAWN = 400;

// What was opened: its name, kind and text, which is the script of that kind. The steps that are known, and how many of them were taken.
//
// - `notes` are told of the whole run, and `news` until the next step is another one.
// - `wrong` is the line that cannot follow the last step, if the text has one.
// - `absent` has the clients of the script that the trace does not have which it was made for.
// - `rules` is what steps by the rules need: the first line, the nodes and names, and what the clients ask for.
// - `log` is what a mark log needs: its lines, how many come before the first step, and the lock table after each step.
const NO_RUN = {name: "", kind: "script", text: "", steps: [], at: 0, notes: [], news: "", wrong: null, absent: [], rules: null, log: null};
export const run = {...NO_RUN};
// What `ra` told of the first steps: views[k] is a promise of what stands after k of them.
let views = [];

export const isChoice = (step) => run.kind === "script" && /^[cml][0-9]+$/.test(step);

// Makes these the facts of the run, and returns what brings back those before.
export function replaceRun(facts) {
    const [old, kept] = [{...run}, views];
    Object.assign(run, NO_RUN, facts);
    views = [];
    return () => {
        Object.assign(run, old);
        views = kept;
    };
}

// Makes this the next step. Steps that were known after those that were taken are dropped, unless the next one is the same.
export async function addStep(step) {
    if (run.steps[run.at] === step) return;
    const [{steps, wrong, news}, kept] = [run, views];
    Object.assign(run, {steps: [...steps.slice(0, run.at), step], wrong: null, news: ""});
    views = views.slice(0, run.at + 1);
    await viewAfter(run.at + 1).catch((fault) => {
        Object.assign(run, {steps, wrong, news});
        views = kept;
        throw fault;
    });
}

// Returns what stands after the first steps. A view has the state, the messages under way, the trace or mark log so far, and whether
// nothing is left to do.
export function viewAfter(count) {
    const step = run.steps[count - 1];
    const find = async () => {
        if (run.kind === "marks") return viewOfMarks(count);
        if (run.kind === "rules") {
            const before = count ? await viewAfter(count - 1) : null;
            return viewByRules(before ? [...before.made, makeStep(before.state, step)] : []);
        }
        return !count || isChoice(step) ? loadChoices(run.text, run.steps.slice(0, count)) : advance(await viewAfter(count - 1), step);
    };
    views[count] ??= find().then((view) => {
        view.state.nodes = view.trace.nodes;
        return view;
    }).catch((fault) => {
        views[count] = undefined;
        throw fault;
    });
    return views[count];
}

const checkOf = (view) => view.check ??= ask(run.kind === "marks" ? "/check-marks" : "/check", {trace: view.trace.text});

// Adds what `ra check` and `ra draw` say of a view.
export async function judge(view) {
    const lines = view.trace.text.split("\n").length - 1;
    view.from = Math.max(1, lines - MOST_DRAWN + 1);
    const asked = {trace: view.trace.text, from: String(view.from)};
    const draw = () => !lines ? null : ask(run.kind === "marks" ? "/draw-marks" : "/draw", asked);
    const confirm = {rules: confirmByRules, marks: confirmMarks, script: checkUnderWay}[run.kind];
    [view.checked, view.picture] = await Promise.all([checkOf(view), draw(), confirm(view)]);
}

// ---- A script

// Returns what stands after these choices. Such a view also has what is needed to go on with copies: the same run without them
// (`bare`), and the copies and second answers that are under way (`extras`).
async function loadChoices(script, choices) {
    const given = {script, choices: choices.join(" ")};
    const [state, trace] = await Promise.all([askRa("/state", given), askRa("/trace", given)]);
    const view = {state: readState(state.out), isDone: state.status === 0, trace: readTrace(trace.out), extras: []};
    view.under = view.state.messages;
    view.bare = view.trace.steps.map(({line}, place) => ({line, choice: choices[place], step: place + 1}));
    return view;
}

// Returns how many messages were sent by a valid trace.
async function sentIn(view) {
    const found = /^valid\nrequests [0-9]+\nmessages ([0-9]+)\n$/.exec((await checkOf(view)).out);
    if (!found) throw new Error(`ra check does not find the trace valid: ${(await checkOf(view)).out}`);
    return Number(found[1]);
}

// Returns what stands after one more step, of a run with copies. No choice is a repeat, so `ra sim --state` cannot be asked for it. But a
// message that came before changes no node: its node only answers a REQUEST again. So the nodes are as in the run without the copies. The
// trace has all steps, and `ra check` judges it and the messages under way.
async function advance(view, line) {
    const {bare, extras, isAgain} = withoutCopies(view, line);
    const next = await loadChoices(run.text, bare.map((step) => step.choice));
    const marks = bare.length > view.bare.length ? next.trace.steps[next.trace.steps.length - 1].marks : [];
    const text = [...view.trace.text.trimEnd().split("\n").slice(0, -1), line, ...marks, "end", ""].join("\n");
    Object.assign(next, {trace: readTrace(text), bare, extras});
    if (isAgain && await sentIn(next) > await sentIn(view)) await answerAgain(next, messageOf(line.split(" ")));
    next.under = [...next.state.messages, ...next.extras].map((message, place) => ({...message, place: String(place)}));
    next.isDone &&= !next.extras.length;
    return next;
}

// Returns the steps of the run without its copies, and the copies under way, after one more step. It also tells whether a copy was
// delivered after the message itself.
function withoutCopies(view, line) {
    const words = line.split(" "), step = view.trace.steps.length + 1;
    const add = (choice) => ({bare: [...view.bare, {line, choice, step}], extras: view.extras, isAgain: false});
    if (!["deliver", "lose", "repeat"].includes(words[0])) return add(`c${words[2]}`);
    const message = messageOf(words);
    const original = view.state.messages.find((other) => isSame(message, other));
    const copy = view.extras.findIndex((other) => isSame(message, other));
    if (!original && copy < 0) throw new Error(`this message is not under way: ${line}`);
    if (words[0] === "repeat") return {bare: view.bare, extras: [...view.extras, message], isAgain: false};
    // Of several equal ones, the first that is delivered is the message itself, and the last that is lost.
    if (words[0] === "deliver" ? original : copy < 0) return add((words[0] === "deliver" ? "m" : "l") + original.place);
    return {bare: view.bare, extras: view.extras.filter((_, place) => place !== copy), isAgain: words[0] === "deliver"};
}

// Adds the REPLY to a REQUEST that came again. If that REPLY was lost before, it is under way after all in the run without copies.
async function answerAgain(view, {from, to, name, number}) {
    const reply = {kind: "reply", from: to, to: from, name, mode: null, number};
    const lost = view.bare.findIndex(({line}) => line === `lose ${lineOf(reply)}`);
    if (lost < 0) {
        view.extras = [...view.extras, reply];
        return;
    }
    const kept = view.bare.filter((_, place) => place !== lost);
    const choices = await choicesOf(run.text, kept.map(({line, choice}) => ({line, choice: choice.startsWith("c") ? choice : null})));
    const {state, isDone} = await loadChoices(run.text, choices);
    Object.assign(view, {bare: kept.map((step, place) => ({...step, choice: choices[place]})), state, isDone});
}

// Returns the choices that make these steps. The choice of a client is known; that of a message is its place. A message that is sent later
// comes after all others, so the state is asked for only if a step takes one that was not under way then.
export async function choicesOf(script, steps) {
    const choices = [];
    let messages = [];
    for (const {line, choice} of steps) {
        if (choice) {
            choices.push(choice);
            continue;
        }
        const words = line.split(" "), message = messageOf(words);
        const find = () => messages.findIndex((other) => isSame(message, other));
        if (find() < 0) ({messages} = readState((await askRa("/state", {script, choices: choices.join(" ")})).out));
        const place = find();
        if (place < 0) throw new Error(`no choice makes this step: ${line}`);
        messages.splice(place, 1);
        choices.push((words[0] === "deliver" ? "m" : "l") + place);
    }
    return choices;
}

// Has `ra check` judge the messages under way of a run with copies: there are as many as it counts, and all of them can be lost.
async function checkUnderWay(view) {
    if (view.bare.length === view.trace.steps.length) return;
    const count = (word) => view.trace.steps.filter((step) => step.words[0] === word).length;
    const left = await sentIn(view) + count("repeat") - count("deliver") - count("lose");
    const lost = view.under.map((message) => `lose ${lineOf(message)}\n`).join("");
    const told = await ask("/check", {trace: view.trace.text.replace(/end\n$/, `${lost}end\n`)});
    if (left !== view.under.length || !told.out.startsWith("valid\n"))
        throw new Error(`the page and ra check differ on the messages under way: ${left} and ${view.under.length}, ${told.out}`);
}

// ---- Steps by the rules

// Returns the trace of these steps.
function traceOf(first, made) {
    const lines = made.flatMap(({line, sends, marks}) => [line, ...(first.endsWith(" sends") ? sends : []), ...marks]);
    return [first, ...lines, "end", ""].join("\n");
}

// Returns what stands after steps that were made by the rules.
function viewByRules(made) {
    const {first, nodes, names, wishes} = run.rules;
    const state = made.length ? made[made.length - 1].state : beginningOf(nodes, names);
    state.clients = wishes.map(({node, client, locks}) => clientByRules(state, node, client, locks));
    const isLeft = state.waiting.length || state.holding.length || state.messages.length;
    return {state, isDone: !isLeft, trace: readTrace(traceOf(first, made)), made, under: state.messages};
}

// Returns what a client waits for and holds, and what it can do: these steps are lines of a trace.
function clientByRules(state, node, client, locks) {
    const all = state.cells.filter((cell) => cell.node === node), isOwn = (each) => each.client === client;
    const waits = all.filter((cell) => cell.phase === "waiting" && isOwn(cell) || cell.queued.some(isOwn));
    const holds = all.filter((cell) => cell.phase === "inside" && isOwn(cell));
    const free = locks.filter(({name}) => ![...waits, ...holds].some((cell) => cell.name === name));
    const lines = [
        ...waits.map(({name}) => ({does: `cancel ${name}`, line: `cancel ${node} ${client} ${name}`})),
        ...holds.map(({name}) => ({does: `unlock ${name}`, line: `release ${node} ${client} ${name}`})),
        ...free.map(({name, mode}) => ({does: `lock ${name} (${mode})`, line: `ask ${node} ${client} ${name} ${mode}`})),
    ];
    return {client, node, lines, rest: ["enabled"]};
}

// Has `ra check` confirm what a view made by the rules has: what was sent and marked, by a trace with sends, and what stands now, by more
// steps that show it.
async function confirmByRules(view) {
    const own = new Set(run.rules.wishes.map(({client}) => client));
    let newcomer = 4294967295;
    while (own.has(String(newcomer))) newcomer -= 1;
    const text = traceOf(`trace 3 ${run.rules.nodes} 0 sends`, [...view.made, ...stepsThatShow(view.state, String(newcomer))]);
    const told = await ask("/check", {trace: text});
    if (!told.out.startsWith("valid\n")) throw new Error(`the page and ra check differ on this step: ${told.out}${told.err}`);
}

// ---- A mark log

// Returns what the steps of a mark log need, of which the last ones are shown.
export function logOf(lines, shown) {
    const skipped = lines.length - shown, table = new LockTable();
    lines.slice(0, skipped).forEach((line) => table.take(line));
    const states = [table.state()];
    for (const line of lines.slice(skipped)) {
        table.take(line);
        states.push(table.state());
    }
    return {lines, skipped, states};
}

function viewOfMarks(count) {
    const {lines, skipped, states} = run.log, state = states[count];
    const text = lines.slice(0, skipped + count).map((line) => `${line}\n`).join("");
    const steps = lines.slice(skipped, skipped + count).map((line, place) =>
        ({line, number: skipped + place + 1, words: line.split(" "), sends: [], marks: []}));
    return {state, isDone: !state.waiting.length && !state.holding.length, trace: {text, nodes: state.nodes, steps}, under: []};
}

// Has `ra check --marks` confirm the lock table of a view, by more marks that show it.
async function confirmMarks(view) {
    const marks = marksThatShow(view.state).map((line) => `${line}\n`).join("");
    const told = await ask("/check-marks", {trace: view.trace.text + marks});
    if (!told.out.startsWith("valid\n")) throw new Error(`the page and ra check differ on this mark: ${told.out}${told.err}`);
}

// ---- The next step

// Returns the step that a word stands for after a view: a choice or, if the run has copies, the line of a trace. The word `r0` repeats the
// message at place 0. What cannot be done is an error that says why.
export function stepOf(view, word) {
    if (run.kind === "marks") throw new Error("a mark log can only be gone through");
    if (run.kind === "rules" && linesByRules(view).includes(word)) return word;
    if (run.kind === "rules" && !/^[mlr][0-9]{1,9}$/.test(word))
        throw new Error("a step of this trace is a click, or m, l or r and a number, such as m0");
    if (!/^[cmlr][0-9]{1,9}$/.test(word)) throw new Error("a step is c, m, l or r and a number, such as c1 or m0");
    const letter = word[0], number = Number(word.slice(1));
    const line = letter === "c" ? lineOfClient(view, String(number)) : lineOfPlace(view, letter, number);
    const isListed = letter !== "r" && run.kind === "script" && run.steps.slice(0, run.at).every(isChoice);
    return isListed ? `${letter}${number}` : line;
}

function lineOfPlace({under}, letter, place) {
    const does = {m: "deliver", l: "lose", r: "repeat"}[letter];
    if (under[place]) return `${does} ${lineOf(under[place])}`;
    const last = under.length - 1;
    throw new Error(!under.length ? `no message is under way, so there is none to ${does}`
        : `no message has place ${place}: ${counted(under.length, "message")} under way, ${last ? `at places 0 to ${last}` : "at place 0"}`);
}

function lineOfClient({state}, client) {
    const found = state.clients.find((each) => each.client === client && !run.absent.includes(client));
    if (!found) throw new Error(`there is no client ${client}`);
    const {node, what, rest: [does, name, mode]} = found;
    if (what === "done") throw new Error(`client ${client} is done`);
    // A client that waits has the name at the beginning.
    if (what === "waits") throw new Error(`client ${client} waits for ${does}, and can do nothing until it is let in`);
    if (found.rest.at(-1) !== "enabled") throw new Error(`client ${client} cannot go on`);
    return does === "lock" ? `ask ${node} ${client} ${name} ${mode}` : `release ${node} ${client} ${name}`;
}

// Returns the steps of clients and nodes that can be made after a view made by the rules.
function linesByRules({state, trace}) {
    const forgets = Array.from({length: trace.nodes}, (_, place) => `forget ${place + 1}`);
    return [...state.clients.flatMap(({lines}) => lines.map(({line}) => line)), ...forgets];
}
