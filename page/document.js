"use strict";

// ---- the document

const byId = (id) => document.getElementById(id);
const fill = (id, ...nodes) => byId(id).replaceChildren(...nodes);

// A new element. An attribute that is a function is a listener; one that is undefined is left out.
function make(tag, attributes, ...children) {
  const node = document.createElement(tag);
  for (const [name, value] of Object.entries(attributes)) {
    if (typeof value === "function") node.addEventListener(name, value);
    else if (value !== undefined) node.setAttribute(name, value);
  }
  node.append(...children);
  return node;
}

const makeButton = (words, act, attributes) => make("button", { click: act, ...attributes }, words);

// A table. A row is {cells, attributes}, a cell a text, a node or a list of them. Each cell knows its heading, for narrow screens.
function makeTable(caption, headings, rows, classes = []) {
  const cellOf = (cell, at) => {
    const children = [cell].flat().filter((child) => child !== undefined && child !== "");
    return make("td", { "data-label": headings[at], class: classes[at] }, ...(children.length ? [make("div", {}, ...children)] : []));
  };
  return make("table", {},
    make("caption", {}, caption),
    make("thead", {}, make("tr", {}, ...headings.map((heading) => make("th", { scope: "col" }, heading)))),
    make("tbody", {}, ...rows.map((row) => make("tr", row.attributes || {}, ...row.cells.map(cellOf)))));
}

// Options of a chooser, which keeps what was chosen where that is still there.
function setOptions(id, options) {
  const select = byId(id);
  const chosen = select.value;
  select.replaceChildren(...options.map(([value, words]) => make("option", { value }, words)));
  if (options.some(([value]) => String(value) === chosen)) select.value = chosen;
}

// Tells a sentence in the status line of a view.
function tell(view, sentence, isBad = false) {
  const line = byId(`${view}Status`);
  line.textContent = sentence;
  line.classList.toggle("bad", isBad);
}

// A complaint as a sentence. Those of a table are objects, which name a row, or none.
const sentenceOf = (complaint) => complaint.says ?? complaint;

// Lists complaints. Beside those of a row of a document stands the row; such a document is JSON.
function listComplaints(id, complaints = [], text = "") {
  fill(id, ...complaints.map((complaint) => {
    const shown = complaint.row ? [make("br", {}), make("code", {}, JSON.stringify(JSON.parse(text).rows[complaint.row - 1]))] : [];
    return make("li", {}, sentenceOf(complaint), ...shown);
  }));
}

// Marks what belongs together: hovering or focusing one thing marks the others. Arrow keys go from thing to thing.
function bindMarks(id) {
  const holder = byId(id);
  const alike = (thing) => [...holder.querySelectorAll(`[data-stop='${thing.dataset.stop}']`)];
  const mark = (event) => {
    const thing = event.target.closest("[data-mark]");
    const marks = thing ? [thing.dataset.mark, ...(thing.dataset.with || "").split(" ")] : [];
    for (const other of holder.querySelectorAll("[data-mark]")) other.classList.toggle("on", marks.includes(other.dataset.mark));
  };
  holder.addEventListener("mouseover", mark);
  holder.addEventListener("mouseleave", mark);
  holder.addEventListener("focusin", (event) => {
    mark(event);
    const thing = event.target;
    if (!thing.dataset.stop) return;
    for (const other of alike(thing)) {
      other.tabIndex = other === thing ? 0 : -1;
      if (other.hasAttribute("aria-selected")) other.setAttribute("aria-selected", other === thing);
    }
  });
  holder.addEventListener("keydown", (event) => {
    const stops = event.target.dataset.stop ? alike(event.target) : [];
    const step = { ArrowRight: 1, ArrowDown: 1, ArrowLeft: -1, ArrowUp: -1 }[event.key];
    const next = stops[stops.indexOf(event.target) + step];
    if (next) {
      event.preventDefault();
      next.focus();
    }
  });
}

function bindFile(inputId, dropId, take) {
  const zone = byId(dropId);
  byId(inputId).addEventListener("change", (event) => event.target.files[0] && take(event.target.files[0]));
  zone.addEventListener("drop", (event) => event.dataTransfer.files[0] && take(event.dataTransfer.files[0]));
  for (const kind of ["dragover", "dragleave", "drop"]) zone.addEventListener(kind, () => zone.classList.toggle("over", kind === "dragover"));
}

