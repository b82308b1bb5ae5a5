// The line: a file that is dropped, chosen, pasted or an example; its tasks, its models, or its fault beside the row.
import { ask } from "./calls.js";
import { count, fill, make, makeTable, toBase64 } from "./parts.js";
import { TasksTable } from "./tasks.js";

const KEPT = "line";
const place = document.getElementById("line-shown");
const element = (id) => document.getElementById(id);

// What is shown: the file, whether it is a line or a mix, and the table in which pairs are ticked.
export const line = { file: null, isMix: false, table: null };

// Makes all ways to give a file hand it to `take`.
export function offerWays(examples, take) {
  const hand = (file) => file && readFile(file).then(take);
  element("choose").onchange = (event) => hand(event.target.files[0]);
  element("choose-certificate").onchange = (event) => hand(event.target.files[0]);
  const takePasted = () => take(makeFile("pasted.csv", new TextEncoder().encode(element("pasted").value)));
  element("take-pasted").onclick = takePasted;
  offerExamples(examples, take);
  document.addEventListener("dragover", (event) => event.preventDefault());
  document.addEventListener("drop", (event) => {
    event.preventDefault();
    hand(event.dataTransfer.files[0]);
  });
}

function offerExamples(examples, take) {
  const list = element("examples");
  list.append(...examples.map((it) => make("option", { value: it.name }, it.name)));
  list.onchange = () => {
    const example = examples.find((it) => it.name === list.value);
    list.value = "";
    if (example) take(example);
  };
}

// A file as the server takes it.
const makeFile = (name, bytes) => ({ name, bytes: toBase64(bytes) });

async function readFile(file) {
  return makeFile(file.name, new Uint8Array(await file.arrayBuffer()));
}

// What a file is, with what can be shown of it.
export async function lookAt(file) {
  const events = await ask({ ask: "look", files: { line: file } });
  const told = (name) => events.find((event) => event.told === name);
  return {
    kind: told("file")?.is_a, tasks: told("tasks")?.tasks, mix: told("mix"), records: told("records")?.records,
    fault: told("fault")?.why, ran: events.find((event) => event.told === "ran"),
  };
}

// Shows a file that is a line or a mix, and whether it has no fault.
export function showLine(file, seen) {
  const title = make("p", { class: "name" }, make("strong", {}, file.name));
  const body = make("div");
  fill(place, title, body);
  Object.assign(line, { file, isMix: seen.kind === "mix", table: null });
  const isGood = Boolean(seen.tasks || seen.mix);
  if (seen.mix) showMix(title, body, seen);
  else if (seen.tasks) line.table = new TasksTable(body, seen.tasks);
  else showFault(body, seen);
  if (isGood) remember(file);
  return isGood;
}

// The fault of a file: in the program's words, beside the row that they name.
function showFault(body, { ran, fault, records = [] }) {
  const words = ran?.fault ?? fault ?? "";
  const named = ran?.number;
  const where = named ? `${ran.place} ${named}: ` : "";
  const columns = Math.max(1, ...records.map((it) => it.fields.length));
  const rows = records.map((it) => {
    const cells = Array.from({ length: columns }, (_, column) => it.fields[column] ?? "");
    return [String(it.number), ...cells, String(it.number) === named ? make("strong", { class: "wrong" }, words) : ""];
  });
  const table = makeTable("As it came", [ran?.place ?? "row", ...Array(columns).fill(""), ""], rows, [0]);
  table.querySelector("td .wrong")?.closest("tr").classList.add("fault");
  fill(body, make("p", { class: "wrong", role: "alert" }, where + words), records.length ? table : null);
  table.querySelector(".fault")?.scrollIntoView({ block: "nearest" });
}

// The models of a mix: a column each, and the tasks with what is before them in the combined instance.
function showMix(title, body, { mix, ran }) {
  title.append(` ${count(String(mix.models.length), "model")}, total demand ${ran.combined.demand}`);
  const heading = ["Task", ...mix.models.map((it) => `${it.model}, ${it.demand} wanted`), "All together", "After"];
  const rows = mix.tasks.map((task) => [
    task.task, ...mix.models.map((it) => it.times[task.task] ?? "0"), task.time, task.after,
  ]);
  // All columns but the last one have numbers.
  fill(body, makeTable("Times of the models", heading, rows, [...heading.keys()].slice(0, -1)));
}

// The browser keeps the last line. A line that is too long for it is not kept.
function remember(file) {
  try {
    localStorage.setItem(KEPT, JSON.stringify(file));
  } catch {
    localStorage.removeItem(KEPT);
  }
}

// The line that the browser kept.
export function remembered() {
  try {
    return JSON.parse(localStorage.getItem(KEPT));
  } catch {
    return null;
  }
}
