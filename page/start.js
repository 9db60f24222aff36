// ---- the page

const TABS = [...document.querySelectorAll("[role=tab]")];

function chooseTab(tab) {
  for (const other of TABS) {
    other.setAttribute("aria-selected", other === tab);
    other.tabIndex = other === tab ? 0 : -1;
    byId(other.getAttribute("aria-controls")).hidden = other !== tab;
  }
}

TABS.forEach((tab, at) => {
  tab.addEventListener("click", () => chooseTab(tab));
  tab.addEventListener("keydown", (event) => {
    const to = { ArrowRight: at + 1, ArrowLeft: at - 1, Home: 0, End: -1 }[event.key];
    if (to === undefined) return;
    event.preventDefault();
    TABS.at(to % TABS.length).focus();
    chooseTab(TABS.at(to % TABS.length));
  });
});

chooseTab(TABS[0]);

// What each button does.
const CLICKS = {
  lookPurchase: () => run("look", () => lookExample(false)),
  lookBroken: () => run("look", () => lookExample(true)),
  lookEmpty: () => {
    setInput("", "hex");
    looked.isKindChosen = false;
    byId("input").focus();
  },
  add: addElement,
  buildTake: takeFromLook,
  buildPurchase: () => setMessage(PURCHASE),
  buildEcho: () => setMessage(ECHO_TEST),
  copyHex: () => copy(typed.hex, "The hex"),
  copyJson: () => copy(JSON.stringify(typedMessage()), "The JSON"),
  download,
  quickBuild: () => quick(false),
  quickSend: () => quick(true),
  send: () => deliverBuilt(false),
  loseAnswer: () => deliverBuilt(true),
  loseRequest: () => tell("play", "The request was lost on its way. The issuer saw nothing, and nothing happened."),
  again: () => {
    playing.bodies.push({ hex: playing.bodies.at(-1).hex });
    replay();
  },
  takeBack,
  dayBack: takeBack,
  dayNext: () => playDay(1),
  dayAll: () => playDay(playing.day.length),
  playOver: () => {
    playOver();
    replay();
  },
  addAccount: () => {
    playing.openings.push({ pan: "", currency: "840", opening: "0" });
    showOpenings();
    byId("openings").querySelector("tr:last-child input").focus();
  },
  begin: () => byId("order").reportValidity() && happen(`begin ${Number(byId("order").value)}`),
  endsUndo: () => {
    events.pop();
    playEnds();
  },
  endsOver: () => {
    events = [];
    playEnds();
  },
  endsExample: () => {
    events = [];
    happen(...LOST_ANSWER);
  },
};

// What each field does when it is typed into or chosen from.
const INPUTS = {
  input: () => {
    looked.isKindChosen = looked.isKindChosen && byId("input").value !== "";
    look();
  },
  skip: look,
  mti: build,
  opening: () => playEnds(PAUSE),
};
const CHANGES = {
  table: () => run("tables", useTable),
  clear: refresh,
  kind: () => {
    looked.isKindChosen = true;
    look();
  },
  frames: look,
  skip: look,
  other: build,
  buildFrames: build,
  what: showNamed,
};
for (const [kind, acts] of Object.entries({ click: CLICKS, input: INPUTS, change: CHANGES })) {
  for (const [id, act] of Object.entries(acts)) byId(id).addEventListener(kind, () => act());
}
bindFile("tableFile", "tables", (file) => run("tables", () => takeDocument("tables", "table", file)));
bindFile("otherFile", "otherDrop", (file) => run("build", () => takeDocument("build", "other", file)));
bindFile("inputFile", "inputDrop", async (file) => setInput(linesOf(toHex(await bytesOf(file))), "hex"));
bindFile("dayFile", "dayDrop", (file) => run("play", () => takeDay(file)));
for (const id of ["lookMessage", "buildMessage", "journal"]) bindMarks(id);
// a file that is dropped beside a field isn't opened by the browser
for (const kind of ["dragover", "drop"]) document.addEventListener(kind, (event) => event.preventDefault());

for (const id of ["frames", "buildFrames", "dayFrames"]) setOptions(id, ["", "ascii4", "binary2", "bcd2"].map((name) => [name, name || "none"]));
byId("dayFrames").value = "ascii4";
setOptions("what", Object.entries(QUICK).map(([name, { mti }]) => [name, `${name} (${mti})`]));
// card data are hidden at each load, also where the browser brings an earlier page back
byId("clear").checked = false;
window.addEventListener("pageshow", (event) => event.persisted && location.reload());
showOpenings();
showNamed();
run("tables", useTable);
playEnds();
