// ---- the server

const LIMIT = 1000000;
const PAUSE = 150;
const turns = {};

// Asks the server. A refusal is an Error with its sentence.
async function ask(path, request) {
  const body = JSON.stringify(request);
  if (new Blob([body]).size > LIMIT) throw new Error("This takes more than 1,000,000 bytes, the most that a request may have.");
  const response = await fetch(`/api/${path}`, { method: "POST", headers: { "Content-Type": "application/json" }, body }).catch(() => {
    throw new Error("The server doesn't answer. Is 'rumpadol page' still running?");
  });
  const answer = await response.json();
  if (!response.ok) throw new Error(answer.error);
  return answer;
}

// Does the work of a view behind a pause, and then what the work gives, unless newer work of that view has begun meanwhile.
function run(view, work, pause = 0) {
  const turn = (turns[view] || 0) + 1;
  const isNewest = () => turns[view] === turn;
  const start = async () => {
    if (!isNewest()) return;
    const show = await work().catch((fault) => () => tell(view, fault.message, true));
    if (isNewest()) show();
    if (isNewest()) byId(view).setAttribute("aria-busy", false);
  };
  turns[view] = turn;
  byId(view).setAttribute("aria-busy", true);
  if (pause) setTimeout(start, pause);
  else start();
}

