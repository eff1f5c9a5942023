// What all parts of the page use: its elements, and words for lists and counts.

export const at = (id) => document.getElementById(id);

// Makes an element. A child that is a text is put in as text, never as HTML.
export function make(tag, has = {}, ...children) {
    const it = document.createElement(tag);
    for (const [name, value] of Object.entries(has)) {
        if (name === "data") Object.assign(it.dataset, value);
        else if (name in it) it[name] = value;
        else it.setAttribute(name, value);
    }
    it.append(...children.filter((child) => child !== null && child !== ""));
    return it;
}

// Tells something in an element, such as what went wrong. Without a text, the element is hidden.
export function tell(id, text) {
    at(id).textContent = text;
    at(id).hidden = !text;
}

// "1", "1 and 2", "1, 2 and 3".
export function listed(things) {
    const all = [...things];
    return all.length < 2 ? all.join("") : `${all.slice(0, -1).join(", ")} and ${all[all.length - 1]}`;
}

export const nodesOf = (numbers) => `${numbers.length === 1 ? "node" : "nodes"} ${listed(numbers)}`;
export const counted = (count, thing) => `${count} ${thing}${count === 1 ? "" : "s"}`;
