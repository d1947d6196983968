"""The script of a page: it sorts and searches the table of launches. Without it the page has all that it has with it, in the manifest's order."""

OF_PAGE = r"""
"use strict";
(() => {
const table = document.getElementById("launches"), search = document.getElementById("search"), found = document.getElementById("found");
if (!table || !search) return;
document.documentElement.classList.add("js");
const body = table.tBodies[0], heads = [...table.tHead.rows[0].cells], rows = [...body.rows];
const parts = rows.map(row => document.getElementById(row.querySelector("a").hash.slice(1)));
const texts = rows.map(row => row.textContent.toLowerCase());
const order = new Intl.Collator("en", {numeric: true});
heads.forEach((head, column) => {
    const button = document.createElement("button");
    button.type = "button";
    button.append(...head.childNodes);
    head.append(button);
    head.setAttribute("aria-sort", "none");
    const key = row => head.dataset.kind ? Number(row.cells[column].dataset.n ?? row.cells[column].textContent) : row.cells[column].textContent;
    button.addEventListener("click", () => {
        const sign = head.getAttribute("aria-sort") === "ascending" ? -1 : 1;
        for (const each of heads) each.setAttribute("aria-sort", "none");
        head.setAttribute("aria-sort", sign > 0 ? "ascending" : "descending");
        const keyed = rows.map((row, at) => [key(row), at, row]);
        const less = head.dataset.kind ? (one, other) => one - other : order.compare;
        keyed.sort((one, other) => sign * less(one[0], other[0]) || one[1] - other[1]);
        body.append(...keyed.map(each => each[2]));
    });
});
const look = () => {
    const words = search.value.toLowerCase().split(/\s+/).filter(Boolean);
    let count = 0;
    rows.forEach((row, at) => {
        const is = words.every(word => texts[at].includes(word));
        row.hidden = !is;
        if (parts[at]) parts[at].hidden = !is;
        count += is;
    });
    found.textContent = words.length ? count + " of " + rows.length + " launches are shown" : "";
};
search.addEventListener("input", look);
addEventListener("hashchange", () => {
    const part = document.getElementById(location.hash.slice(1));
    if (part && part.hidden) { search.value = ""; look(); part.scrollIntoView(); }
});
look();
})();
"""
