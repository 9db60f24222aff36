// ---- Play

const QUICK = {
  purchase: { mti: "0200", process: "000000" }, hold: { mti: "0100", process: "000000" },
  completion: { mti: "0220", process: "000000", names: ["hold"] }, reversal: { mti: "0400", names: ["debit", "credit", "hold", "completion"] },
  inquiry: { mti: "0200", process: "310000" },
};
const playing = { bodies: [], openings: [{ pan: "4111111111111111", currency: "840", opening: "5000" }], journal: [], trace: 0, day: [], next: 0 };

function showOpenings() {
  const field = (account, at, name) => make("input", {
    value: account[name], class: "mono", "aria-label": `${name} of account ${at + 1}`, size: name === "pan" ? 19 : 6,
    input: (event) => {
      account[name] = event.target.value;
      replay(PAUSE);
    },
  });
  const remove = (at) => {
    playing.openings.splice(at, 1);
    showOpenings();
    replay();
    byId("addAccount").focus();
  };
  const rows = playing.openings.map((account, at) => ({
    cells: [
      ...["pan", "currency", "opening"].map((name) => field(account, at, name)),
      makeButton("Remove", () => remove(at), { "aria-label": `Remove account ${at + 1}` }),
    ],
  }));
  fill("openings", makeTable("Accounts before the first message, in minor units", ["Number", "Currency", "Opening", "Remove"], rows));
}

// The entries that the chosen kind of message can name, the last one first.
function showNamed() {
  const what = byId("what").value;
  const { names = [] } = QUICK[what];
  const entries = playing.journal.filter((entry) => names.includes(entry.what)).reverse();
  fill("named", ...entries.map((entry) => make("option", { value: entry.place }, `${entry.place}: ${entry.what} ${entry.trace}`)));
  byId("named").disabled = names.length === 0;
  byId("amount").disabled = what === "reversal" || what === "inquiry";
  byId("account").disabled = what === "reversal";
}

// The message of the small form, or nothing where it would have to name an entry and none is there.
function quickMessage() {
  const { mti, process, names } = QUICK[byId("what").value];
  const account = playing.openings[byId("account").value];
  const entry = names && playing.journal.find(({ place }) => String(place) === byId("named").value);
  if (names ? !entry : !account) {
    tell("play", names ? "The journal has no entry that it could name." : "There is no account.", true);
    return null;
  }
  if (!byId("amount").disabled && !/^[1-9]\d{0,11}$/.test(byId("amount").value)) {
    tell("play", "An amount is in whole minor units: 2500 for 25.00.", true);
    return null;
  }
  playing.trace += 1;
  const now = new Date().toISOString().replace(/\D/g, "").slice(4, 14);
  const elements = { 7: now, 11: String(playing.trace).padStart(6, "0"), 32: entry ? entry.acquirer : "12345" };
  if (process) Object.assign(elements, { 2: account.pan, 3: process, 49: account.currency });
  if (!byId("amount").disabled) elements[4] = byId("amount").value.padStart(12, "0");
  if (entry) elements[90] = entry.type + entry.trace + entry.time + entry.acquirer.padStart(11, "0") + "0".repeat(11);
  return { mti, elements };
}

function quick(isSent) {
  const message = quickMessage();
  if (!message) return;
  setMessage(message);
  if (isSent) deliverBuilt(false);
  else tell("play", "Built, and not sent yet.");
}

// Delivers the built message, without a frame.
function deliverBuilt(isAnswerLost) {
  run("play", async () => {
    const { hex, complaints } = await ask("build", { table: chosenTable("table"), message: typedMessage(), frames: null });
    if (!hex) return () => tell("play", complaints.map(sentenceOf).join(" "), true);
    playing.bodies.push({ hex, isAnswerLost });
    return played();
  });
}

function takeBack() {
  if (playing.bodies.pop()?.isOfDay) playing.next -= 1;
  replay();
}

function replay(pause) {
  run("play", played, pause);
}

// Plays all deliveries from the beginning, and all but the last one, and reads what was delivered.
async function played() {
  const accounts = playing.openings.map((account) => ({ ...account, opening: Number(account.opening) }));
  const bodies = playing.bodies.map((body) => body.hex);
  const request = { table: chosenTable("table"), clear: isClear() };
  const input = bodies.map((hex) => (hex.length / 2).toString(16).padStart(4, "0") + hex).join("");
  const [before, after, read] = await Promise.all([
    ask("play", { ...request, accounts, bodies: bodies.slice(0, -1) }),
    ask("play", { ...request, accounts, bodies }),
    bodies.length ? ask("look", { ...request, input, isHex: true, frames: "binary2", skip: 0 }) : { messages: [] },
  ]);
  const refused = after.refused || after.complaints?.map(sentenceOf).join(" ");
  return refused ? () => tell("play", refused, true) : () => showPlay(before, after, read.messages);
}

function showPlay(before, after, messages) {
  const { day, next, bodies } = playing;
  playing.journal = after.journal;
  fill("accounts", makeAccounts(before.accounts, after.accounts));
  fill("deliveries", makeDeliveries(after.answers, messages));
  fill("journal", makeJournal(before.journal, after.journal));
  tell("play", playSentence(after.answers, JSON.stringify(before.accounts) === JSON.stringify(after.accounts)));
  setOptions("account", after.accounts.map(({ account, currency }, at) => [at, `${account} ${currency}`]));
  showNamed();
  byId("again").disabled = byId("takeBack").disabled = bodies.length === 0;
  byId("dayNext").disabled = byId("dayAll").disabled = next >= day.length;
  byId("dayBack").disabled = !bodies.at(-1)?.isOfDay;
  byId("dayTold").textContent = day.length ? `${next} of ${day.length} frames played` : "No day is loaded.";
}

// The place of the first delivery of the same bytes where that got the same answer, or -1.
function firstOf(answers, at) {
  const { bodies } = playing;
  const first = bodies.findIndex(({ hex }) => hex === bodies[at].hex);
  return first < at && answers[at].hex && answers[first].hex === answers[at].hex ? first : -1;
}

function playSentence(answers, isStill) {
  const last = answers.length - 1;
  if (last < 0) return "The journal is empty. Send a message.";
  const { kind, code, place, says } = answers[last];
  if (kind === "unreadable") return "The issuer can't read it: " + says;
  if (kind === "silent") return "No answer: the issuer answers requests and advices alone.";
  const first = firstOf(answers, last);
  return `The issuer answers ${codeWords(code)}` + (place ? `, at place ${place}.` : ".")
    + (place && isStill && first < 0 ? " No account changes." : "")
    + (first < 0 ? "" : ` The first answer comes again, that of delivery ${first + 1}: nothing is posted twice.`)
    + (playing.bodies[last].isAnswerLost ? " That answer was lost: the acquirer doesn't know it." : "");
}

const makeNews = (words) => make("strong", { class: "news" }, words);

function makeAccounts(before, after) {
  const rows = after.map((now, at) => {
    const was = before[at];
    const changed = (name) => (now[name] === was[name] ? now[name] : [makeNews(now[name]), ` was ${was[name]}`]);
    return { cells: [now.account, now.currency, now.opening, changed("ledger"), changed("available"), now.holds + (now.holds ? `, ${now.held} held` : "")] };
  });
  return makeTable("Accounts now, in minor units", ["Account", "Currency", "Opening", "Ledger", "Available", "Open holds"], rows, ["mono"]);
}

function makeDeliveries(answers, messages) {
  const rows = answers.map(({ code, kind }, at) => {
    const message = messages[at];
    const first = firstOf(answers, at);
    const answer = code ? codeWords(code) + (first < 0 ? "" : `, as delivery ${first + 1}`) : kind;
    return { cells: [at + 1, message && typeOf(message), message && valueOf(message, 11), playing.bodies[at].isAnswerLost ? "lost" : answer] };
  });
  return makeTable("Deliveries, and the answers that came", ["No.", "Type", "Trace", "Answer"], rows);
}

const isNamed = (of, entry) => of && ["time", "type", "trace", "acquirer"].every((name) => of[name] === entry[name]);

// The journal. An entry that names another one links to it, and is linked from it.
function makeJournal(before, after) {
  const link = (words) => (entry) => [make("a", { href: `#entry${entry.place}` }, `${words} ${entry.place}`), " "];
  const rows = after.map((entry, at) => {
    const { account, amount, balance, code, left, of, place, time, trace, type, what } = entry;
    const named = after.filter((other) => isNamed(of, other));
    const naming = after.filter((other) => isNamed(other.of, entry));
    const news = !before[at] ? "new" : JSON.stringify(before[at]) === JSON.stringify(entry) ? "" : "changed";
    const links = [...named.flatMap(link("of")), ...naming.flatMap(link("named by"))];
    const missing = of && named.length === 0 ? `of ${of.type} ${of.trace}, not here` : "";
    return {
      attributes: { id: `entry${place}`, tabindex: -1, "data-mark": place, "data-with": [...named, ...naming].map((other) => other.place).join(" ") },
      cells: [place, news && makeNews(news), type, trace, time, what, account, amount, left, codeWords(code), balance, [missing, ...links]],
    };
  });
  const headings = ["Place", "Last", "Type", "Trace", "Time", "What", "Account", "Amount", "Left", "Code", "Balance", "Links"];
  return makeTable("Journal", headings, rows);
}

function bodiesOf(bytes, header) {
  const size = header === "ascii4" ? 4 : 2;
  const bodies = [];
  for (let at = 0; at < bytes.length;) {
    const digits = toHex(bytes.slice(at, at + size));
    const count = header === "binary2" ? parseInt(digits, 16) : Number(header === "ascii4" ? toText(digits) : digits);
    at += size + count;
    if (!(at <= bytes.length)) throw new Error("Frame " + (bodies.length + 1) + " isn't whole under this header.");
    bodies.push({ hex: toHex(bytes.slice(at - count, at)), isOfDay: true });
  }
  return bodies;
}

// Takes a day of frames, of which nothing is played yet.
async function takeDay(file) {
  const bytes = await bytesOf(file);
  const header = byId("dayFrames").value;
  playing.day = header ? bodiesOf(bytes, header) : [{ hex: toHex(bytes), isOfDay: true }];
  playOver();
  return played();
}

function playDay(count) {
  const bodies = playing.day.slice(playing.next, playing.next + count);
  playing.next += bodies.length;
  playing.bodies.push(...bodies);
  replay();
}

function playOver() {
  playing.bodies = [];
  playing.next = 0;
}

