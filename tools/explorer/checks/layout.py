"""How the page looks on a small laptop: nothing is cut off, texts can be read, and the picture can be folded away."""
from checks.trial import example, serving

# The parts of the page that reach out of their place, or that have more in them than is seen.
CUT = """[...document.querySelectorAll("header *, footer *, #left *, #right *")].filter((it) => {
    const box = it.getBoundingClientRect(), place = it.closest("header, footer, #left, #right").getBoundingClientRect();
    if (!box.width || it.matches("input, select, option, #picture")) return false;
    const isWide = getComputedStyle(it).display !== "inline" && it.scrollWidth > it.clientWidth + 1;
    return box.left < place.left - 1 || box.right > Math.min(place.right, innerWidth) + 1 || isWide;
}).map((it) => `${it.tagName} ${it.id} ${it.className}: ${it.textContent.slice(0, 40)}`)"""
# The size in pixels of the smallest text of the page, and of the picture as it is shown.
SMALLEST = """(() => {
    const own = (it) => [...it.childNodes].some((child) => child.nodeType === 3 && child.data.trim());
    const size = (it) => parseFloat(getComputedStyle(it).fontSize);
    const svg = document.getElementById("picture").shadowRoot.querySelector("svg");
    const scale = svg.getBoundingClientRect().width / svg.viewBox.baseVal.width;
    return [Math.min(...[...document.querySelectorAll("body *")].filter(own).map(size)),
        Math.min(...[...svg.querySelectorAll("text")].map((it) => size(it) * scale))];
})()"""
# The lanes that are not seen whole without scrolling, and in how many rows the lanes are.
HIDDEN = """[...document.querySelectorAll(".lane")].filter((it) => {
    const box = it.getBoundingClientRect();
    return box.top < 0 || box.bottom > document.querySelector("footer").getBoundingClientRect().top || box.right > innerWidth;
}).length"""
# Whether the number of a line, and the name of a node, are seen in the picture as far as it is scrolled: down for one, across for the other.
IS_SEEN = """((line, node) => {
    const panel = document.getElementById("picture"), place = panel.getBoundingClientRect();
    const row = [...panel.shadowRoot.querySelectorAll("text.row")].find((it) => it.textContent === line).getBoundingClientRect();
    const name = [...panel.shadowRoot.querySelectorAll("text.node")].find((it) => it.textContent === node).getBoundingClientRect();
    return row.top >= place.top && row.bottom <= place.bottom && name.left >= place.left && name.right <= place.right;
})"""
# The texts of the picture that are cut at its right or left. The legend is above what is shown.
CUT_TEXTS = """(() => {
    const svg = document.getElementById("picture").shadowRoot.querySelector("svg"), place = svg.getBoundingClientRect();
    return [...svg.querySelectorAll("text")].filter((it) => {
        const box = it.getBoundingClientRect();
        return box.bottom > place.top && (box.right > place.right + 1 || box.left < place.left - 1);
    }).map((it) => it.textContent);
})()"""
ROWS = "new Set([...document.querySelectorAll('.lane')].map((it) => it.getBoundingClientRect().top)).size"


def script_of(nodes, name):
    """Returns a script with a client at each node."""
    clients = "".join(f'{{ node = {node}, ops = ["SIX {name}", "U {name}"] }},\n' for node in range(1, nodes + 1))
    return f"nodes = {nodes}\nclient = [\n{clients}]\n"


LONG = "a-name-of-thirty-two-characters."
# The height of the screen, less what the browser takes, the nodes, and the name that all clients lock.
SCREENS = [(650, 2, "r"), (650, 4, "r"), (650, 4, LONG), (650, 6, "r"), (650, 12, LONG), (800, 4, "r"), (800, 5, LONG)]


def try_many_nodes(page):
    """Opens runs of two nodes and more, on two screens."""
    for height, nodes, name in SCREENS:
        what = f"{nodes} nodes at 1366 by {height}, {name}"
        page.resize(1366, height)
        page.open(script_of(nodes, name), policy="oldest")
        page.press(*["ArrowRight"] * (nodes + 2))
        page.trial.same(f"{what}: where it is", f"step {nodes + 2} of {nodes * (2 * nodes)}", page.position())
        page.trial.same(f"{what}: cut off", [], page.see(CUT))
        page.trial.same(f"{what}: texts of the picture that are cut off", [], page.see(CUT_TEXTS))
        # Each node has asked, in two lines, and the first two messages have come.
        line, node = str(2 * nodes + 3), "node 1" if nodes == 2 else "node 3"
        page.trial.is_true(f"{what}: the last step is seen in the picture", page.see(f"{IS_SEEN}('{line}', '{node}')"))
        smallest = page.see(SMALLEST)
        page.trial.is_true(f"{what}: texts of 11 pixels and more, not {smallest}", min(smallest) >= 10.99)
        page.keep(f"{nodes}-nodes-{height}-{len(name)}")
    page.open(script_of(4, "r"))
    page.trial.same("4 nodes, all idle: lanes that are not seen whole", 0, page.see(HIDDEN))
    page.trial.same("4 nodes: rows of lanes", 1, page.see(ROWS))
    page.resize(1366, 650)


def try_folding(page, address):
    """Folds the picture away. The choice stays for another run, after a reload, and at another start, whose port is another one."""
    is_shown = "document.getElementById('picture').checkVisibility()"
    page.open(script_of(5, "r"))
    page.trial.same("5 nodes beside the picture: rows of lanes", 2, page.see(ROWS))
    page.click("#fold")
    page.trial.same("folded: the picture is shown", False, page.see(is_shown))
    page.trial.same("folded: 5 nodes: rows of lanes", 1, page.see(ROWS))
    page.trial.same("folded: cut off", [], page.see(CUT))
    page.keep("folded")
    page.choose("deferral.trace")
    page.press("End")
    page.trial.same("folded, another run: the picture is shown", False, page.see(is_shown))
    page.go(address)
    page.trial.same("folded, after a reload: the picture is shown", False, page.see(is_shown))
    with serving("--ra", page.ra.path) as (_, other, _, _):
        page.go(other)
        page.trial.same("folded, at another start: the picture is shown", False, page.see(is_shown))
    page.go(address)
    page.click("#fold")
    page.trial.same("unfolded: the picture is shown", True, page.see(is_shown))
    page.trial.is_true("unfolded: its texts can be read", min(page.see(SMALLEST)) >= 10.99)
    page.go(address)
    page.trial.same("unfolded, after a reload: the picture is shown", True, page.see(is_shown))


def try_scrolling(page):
    """Opens another run after the left side was scrolled."""
    for how in (lambda: page.choose("tie.trace"), lambda: page.open(example("two-clients.marks"))):
        page.choose("table-and-rows.toml")
        page.see("document.getElementById('left').scrollTop = 10000")
        page.trial.is_true("the left side can be scrolled", page.see("document.getElementById('left').scrollTop") > 0)
        how()
        page.trial.same("another run: how far the left side is scrolled", 0, page.see("document.getElementById('left').scrollTop"))
