// The question about a line, or about a mix of models: its fields, and what of them goes to the server.
import { line } from "./line.js";
import { fillEffort, showWrong, wordsOf } from "./parts.js";

export const MOST_POINTS = 60n;
const EFFORT = ["units", "seek", "helpers"];
const SEQUENCE_EFFORT = ["units", "seek"];
const FIELDS = { solve: ["cycle"], cycle: ["stations"], effic: ["least", "most"], curve: ["from", "to", "step"] };
const lineForm = document.getElementById("ask-line");
const modelsForm = document.getElementById("ask-models");

// Makes both forms hand their questions to `take`. `commands` has the keys of each command of the program.
export function offerQuestions(commands, take) {
  const showKeys = () => fillEffort(document.getElementById("effort"), commands[commandOf()], EFFORT);
  showKeys();
  fillEffort(document.getElementById("models-effort"), commands.sequence, SEQUENCE_EFFORT);
  for (const radio of lineForm.querySelectorAll("input[name=ask]")) radio.onchange = showKeys;
  offer(lineForm, askLine, take);
  offer(modelsForm, askModels, take);
}

// The command that answers the chosen question.
function commandOf() {
  const chosen = lineForm.elements.ask.value;
  return chosen === "curve" ? "solve" : chosen;
}

function offer(form, makeQuestion, take) {
  form.onsubmit = (event) => {
    event.preventDefault();
    showWrong(form, "");
    const question = makeQuestion();
    if (question) take(question, form);
  };
}

// Shows the form that fits what the line is.
export function showForm() {
  lineForm.hidden = line.isMix;
  modelsForm.hidden = !line.isMix;
}

function askLine() {
  const chosen = lineForm.elements.ask.value;
  const words = wordsOf(lineForm, ["line", ...EFFORT, ...(chosen === "curve" ? [] : FIELDS[chosen])]);
  const question = { ask: chosen, files: { line: line.file }, words, apart: line.table.pairs() };
  if (chosen !== "curve") return question;
  const cycles = readCycles();
  return cycles && { ...question, cycles };
}

// The cycle times of a curve, the longest first, since these are answered soonest.
function readCycles() {
  const [from, to, step] = FIELDS.curve.map((name) => lineForm.elements[name].value.trim());
  const wrong = FIELDS.curve.find((name) => !/^[1-9][0-9]{0,18}$/.test(lineForm.elements[name].value.trim()));
  if (wrong) return showWrong(lineForm, "Cycle times and steps are whole numbers from 1 on.", wrong);
  if (BigInt(to) < BigInt(from)) return showWrong(lineForm, "The range ends before it begins.", "to");
  const steps = (BigInt(to) - BigInt(from)) / BigInt(step);
  if (steps >= MOST_POINTS) return showWrong(lineForm, `At most ${MOST_POINTS} points: take longer steps.`, "step");
  const last = BigInt(from) + steps * BigInt(step);
  return Array.from({ length: Number(steps) + 1 }, (_, point) => String(last - BigInt(point) * BigInt(step)));
}

function askModels() {
  const words = wordsOf(modelsForm, ["cycle", "interval", "length", ...SEQUENCE_EFFORT]);
  return { ask: "models", files: { mix: line.file }, words };
}

// Asks for the fewest stations at this cycle time.
export function askCycle(cycle) {
  lineForm.elements.cycle.value = cycle;
  lineForm.elements.ask.value = "solve";
  lineForm.requestSubmit();
}
