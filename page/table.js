// ---- the table, and whether card data are shown

const BUILT_IN = ["ascii87", "bcd87"];
const documents = {};
let table = { rows: {}, names: {}, mti: "ascii", version: 0 };

const isClear = () => byId("clear").checked;
const wordsOf = (id) => byId(id).selectedOptions[0].textContent;
const nameOf = (number) => table.names[number] || `Element ${number}`;

// The table that a chooser names, as the server takes it.
function chosenTable(id) {
  const chosen = byId(id).value;
  return BUILT_IN.includes(chosen) ? chosen : { document: documents[id] };
}

// Learns the rows of the chosen table, and brings all views up to it.
async function useTable() {
  const chosen = chosenTable("table");
  const { document: { rows, ...heading }, names } = await ask("table", { table: chosen });
  return () => {
    listComplaints("tableComplaints");
    tell("tables", chosen.document ? `${wordsOf("table")} is in use, with ${rows.length} rows.` : "");
    table = { ...heading, names, rows: Object.fromEntries(rows.map((row) => [row.number, row])) };
    showElements();
    refresh();
  };
}

// Takes a table document for a chooser where it is good, and lists its complaints where it isn't.
async function takeDocument(view, id, file) {
  const text = await file.text();
  const { complaints } = await ask("table", { table: { document: text } });
  return () => {
    listComplaints(`${id}Complaints`, complaints, text);
    if (complaints) return tell(view, `${file.name} isn't a good table. ${wordsOf(id)} stays in use.`, true);
    documents[id] = text;
    setOptions(id, [...BUILT_IN.map((name) => [name, name]), ["document", file.name]]);
    return setField(id, "document");
  };
}

// Brings each view up to a changed table or switch.
function refresh() {
  look();
  build();
  replay();
}

function setField(id, value) {
  byId(id).value = value;
  byId(id).dispatchEvent(new Event("change"));
}

