// What the server of the page answers. It runs `ra`, which tells more than this page needs: how to call it, for example.

// Asks the server, and returns what it answers. A request that it refuses is an error.
export async function ask(path, fields) {
    const answer = await fetch(path, {
        method: "POST",
        headers: {"Content-Type": "application/json", "X-Token": location.hash.slice(1)},
        body: JSON.stringify(fields),
    }).catch(() => {
        throw new Error("tools/explore does not answer: it has ended, or was started again with another address");
    });
    const told = await answer.json();
    if (!answer.ok) throw new Error(told.fault);
    return told;
}

// Asks for a text that `ra` prints. A refusal of `ra` is an error with its note.
export async function askRa(path, fields) {
    const told = await ask(path, fields);
    if (told.status !== 0 && told.status !== 3) throw new Error(inWords(told));
    return told;
}

// Returns what `ra` printed and noted, for the reader of this page.
export const inWords = ({out, err}) => `${out.trim()}\n${withoutOptions(err)}`.trim();

const OPTION = "--(?:choices|help|seeds?|find|shrink|trace|marks|state|as-choices|policy|lose|repeat|from|to)\\b";
// From one mark of punctuation to the next.
const PART = new RegExp(`(?:[;:,] | \\()[^;:,()\n]*${OPTION}[^;:,()\n]*\\)?`, "g");

// Returns a note without the name of the program, and without the parts that name options of its command line: a reader who
// clicked has typed none.
export function withoutOptions(note) {
    const lines = note.trim().replaceAll(/^ra: /gm, "").replaceAll(PART, "").split("\n");
    return lines.filter((line) => !new RegExp(OPTION).test(line)).join("\n");
}
