// ---- a message: its bytes, its pieces and its bitmaps

const PURCHASE = { mti: "0200", elements: { 2: "4111111111111111", 3: "000000", 4: "000000001000", 7: "0102030405", 11: "000007", 32: "12345", 49: "840" } };
const ECHO_TEST = { mti: "0800", elements: { 7: "0102030405", 11: "000001", 70: "301" } };

// What the response codes mean.
const CODES = {
  "00": "approved", 12: "invalid transaction", 13: "invalid amount", 14: "no such account", 21: "already reversed", 30: "format error",
  51: "not enough money", 94: "another order under its key", 96: "can't be answered now",
};
const codeWords = (code) => code + (CODES[code] ? ` ${CODES[code]}` : "");

const toHex = (bytes) => Array.from(bytes, (byte) => byte.toString(16).padStart(2, "0")).join("").toUpperCase();
const toBytes = (hex) => Uint8Array.from(hex.match(/../g) || [], (digits) => parseInt(digits, 16));
const toText = (hex) => new TextDecoder("latin1").decode(toBytes(hex));
const linesOf = (hex) => (hex.match(/.{1,64}/g) || []).join("\n");
const bytesOf = async (file) => new Uint8Array(await file.arrayBuffer());

const valueOf = (message, number) => message.pieces.find((piece) => piece.element === number)?.value;
const typeOf = (message) => message.pieces[0]?.value || "";

// The pieces of a message in one shape, the bad one last.
function piecesOf({ pieces, fault }) {
  const shaped = pieces.map((piece, at) => {
    const isElement = piece.kind === "element";
    const name = isElement ? piece.name : piece.kind === "type" ? "Message type" : bitmapName(piece.offset > 4);
    const value = piece.kind === "bitmap" ? piece.elements.join(" ") : piece.value;
    return { ...piece, name, value, tone: isElement ? (at % 2 ? "odd" : "even") : piece.kind };
  });
  if (fault) {
    const element = fault.element > 1 ? fault.element : undefined;
    shaped.push({ ...fault, kind: "bad", element, name: badName(pieces, fault), value: fault.bytes, meaning: fault.sentence, tone: "bad" });
  }
  return shaped;
}

const bitmapName = (isSecond) => (isSecond ? "Secondary bitmap" : "Primary bitmap");

function badName(pieces, { element }) {
  if (element > 1) return nameOf(element);
  return pieces.length ? bitmapName(element === 1) : "Message type";
}

function prefixSize(piece) {
  const { length, prefix } = (piece.kind === "element" && table.rows[piece.element]) || { length: "fixed" };
  return length === "fixed" ? 0 : prefix === "ascii" ? length.length : Math.ceil(length.length / 2);
}

// The bytes in their order, each with the place of its piece. Those of a length in front of a bad body aren't told.
function cellsOf(pieces) {
  const cells = [];
  pieces.forEach((piece, place) => {
    while (cells.length < piece.offset) cells.push({ text: "..", place, class: "byte" });
    const prefix = prefixSize(piece);
    (piece.bytes.match(/../g) || []).forEach((text, at) => {
      cells.push({ text, place, class: piece.offset + at === piece.badByte ? "byte hit" : at < prefix ? "byte prefix" : "byte" });
    });
    if (piece.badByte === cells.length) cells.push({ text: "--", place, class: "byte hit" });
  });
  return cells;
}

function characterOf(digits) {
  const code = parseInt(digits, 16);
  return digits === "**" ? "*" : code >= 0x20 && code < 0x7f ? String.fromCharCode(code) : ".";
}

function spoken({ kind, element, name, offset, bytes }) {
  return `${kind === "bad" ? "bad: " : ""}${element ? `element ${element}, ` : ""}${name}, byte ${offset}, ${bytes.length / 2} bytes`;
}

// The cells of a line in runs of one piece. The first run of a piece that isn't seen yet can be focused.
function runsOf(cells, pieces, seen, textOf) {
  const runs = [];
  cells.forEach((cell, at) => {
    const { place } = cell;
    if (at === 0 || cells[at - 1].place !== place) {
      const option = { role: "option", "data-stop": "byte", "aria-label": spoken(pieces[place]), "aria-selected": "false", tabindex: seen.size ? -1 : 0 };
      runs.push(make("span", { class: `run ${pieces[place].tone}`, "data-mark": place, ...(seen.has(place) ? { "aria-hidden": "true" } : option) }));
      seen.add(place);
    }
    runs.at(-1).append(make("span", { class: cell.class }, textOf(cell.text)));
  });
  return runs;
}

// The bytes of a message, sixteen a line, and behind them their characters.
function makeBytes(pieces) {
  const cells = cellsOf(pieces);
  const seen = new Set();
  const lines = [];
  for (let start = 0; start < cells.length; start += 16) {
    const line = cells.slice(start, start + 16);
    lines.push(make("div", { class: "line" },
      make("span", { class: "offset", "aria-hidden": "true" }, String(start).padStart(4, "0")),
      make("span", { class: "hex" }, ...runsOf(line, pieces, seen, (text) => text)),
      make("span", { class: "text", "aria-hidden": "true" }, ...runsOf(line, pieces, seen, characterOf))));
  }
  const legend = [["type", "type"], ["bitmap", "bitmap"], ["even", "element"], ["prefix", "length"]];
  if (pieces.at(-1)?.kind === "bad") legend.push(["hit", "bad byte"]);
  return make("div", { class: "card" },
    make("h3", {}, "Bytes"),
    make("div", { class: "lines", role: "listbox", "aria-label": "Bytes, piece by piece" }, ...lines),
    make("p", { class: "legend" }, ...legend.map(([tone, words]) => make("span", { class: tone }, words))));
}

// The rows of a piece: itself, and its parts.
function pieceRows({ element, kind, meaning, name, offset, parts, tone, value }, place) {
  const chip = element ? make("span", { class: `chip ${tone}` }, element) : "";
  const attributes = { "data-mark": place, "data-stop": "row", tabindex: place ? -1 : 0, class: kind === "bad" ? "bad" : undefined };
  const inner = (parts || []).map((part) => ({
    attributes: { class: "part" },
    cells: ["", "", "\u00a0".repeat(2 * (part.depth || 0)) + (part.tag ? `${part.tag} ` : "") + part.name, part.value, part.meaning],
  }));
  return [{ attributes, cells: [offset, chip, name, value, meaning] }, ...inner];
}

// A bitmap as a grid of its 64 bits, and in words.
function makeBitmap({ name, elements }, at, bitmaps) {
  const bits = at === 0 && bitmaps.length > 1 ? [1, ...elements] : elements;
  const numbers = Array.from({ length: 64 }, (_, bit) => 64 * at + bit + 1);
  return make("div", {},
    make("p", { class: "label" }, name),
    make("p", { class: "sr" }, `Bits that are set: ${bits.join(", ")}`),
    make("div", { class: "grid", "aria-hidden": "true" }, ...numbers.map((bit) => make("span", { class: bits.includes(bit) ? "set" : "" }, bit))));
}

// The byte that was found, with its character where it has one.
function foundWords(found) {
  if (!/^[0-9A-F]{2}$/i.test(found)) return "";
  const code = parseInt(found, 16);
  return `, counted from 0: ${found}` + (code > 32 && code < 127 ? ` (${String.fromCharCode(code)})` : "");
}

// What is wrong with a message, what is wanted there, and hints.
function makeFault({ fault, hints, pieces }) {
  const { cause, element, offset, badByte, wanted, sentence, usually } = fault;
  const where = badName(pieces, fault) + (element > 1 ? ` (element ${element})` : "") + ` at byte ${offset}`;
  const found = (fault.bytes || "").slice(2 * (badByte - offset), 2 * (badByte - offset) + 2);
  const told = [["Where", where], ["Bad byte", badByte + foundWords(found)], ["Wanted", wanted], ["Usually", usually]].filter(([, words]) => words !== undefined);
  return make("div", { class: "fault" },
    make("h3", {}, `${cause}: ${sentence}`),
    make("dl", {}, ...told.flatMap(([name, words]) => [make("dt", {}, name), make("dd", {}, words)])),
    make("ul", { class: "acts" }, ...(hints || []).map((hint) => make("li", {}, makeHint(hint)))));
}

function showMessage(id, message) {
  const shown = [];
  if (message) {
    const pieces = piecesOf(message);
    const rows = makeTable("Pieces", ["Offset", "Element", "Name", "Value", "Meaning"], pieces.flatMap(pieceRows), ["", "", "", "mono"]);
    const bitmaps = pieces.filter((piece) => piece.kind === "bitmap");
    if (message.fault) shown.push(makeFault(message));
    shown.push(make("div", { class: "shown" }, makeBytes(pieces), make("div", { class: "card" }, rows)));
    if (bitmaps.length) shown.push(make("div", { class: "card stack" }, make("h3", {}, "Bitmaps"), make("div", { class: "maps" }, ...bitmaps.map(makeBitmap))));
  }
  fill(id, ...shown);
}

