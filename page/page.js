// The page: hands files and questions to each other, and what the server tells to those who show it.
import { BalanceAnswer, Taken } from "./answer.js";
import { start } from "./calls.js";
import { CurveAnswer } from "./curve.js";
import { line, lookAt, offerWays, remembered, showLine } from "./line.js";
import { SequenceAnswer } from "./models.js";
import { fill, make, showWrong } from "./parts.js";
import { askCycle, offerQuestions, showForm } from "./question.js";
import { leave, runJob } from "./run.js";

const shown = document.getElementById("answer-shown");
const lineForm = document.getElementById("ask-line");
// The commands that give the same answer in a terminal.
const MAINS = {
  solve: ["solve"], cycle: ["cycle"], effic: ["effic"], check: ["check", "effic-check"], curve: ["solve"],
  models: ["combine", "solve", "sequence"],
};

// A message where the answers stand.
const say = (text, kind) => fill(shown, make("p", { class: kind, role: "alert" }, text));

// Takes a file: a line or a mix is shown, a certificate is checked.
async function takeFile(file) {
  try {
    const seen = await lookAt(file);
    if (["certificate", "product"].includes(seen.kind)) await askAbout(file);
    else if (seen.kind === "sequence") say("In a terminal sequence-check checks such a certificate.", "wrong");
    else takeLine(file, seen);
  } catch (fault) {
    say(fault.message, "wrong");
  }
}

function takeLine(file, seen) {
  leave();
  const isGood = showLine(file, seen);
  showForm();
  for (const button of document.querySelectorAll("form button.main")) button.disabled = !isGood;
  say(isGood ? "Nothing was asked of this line yet." : "The line has a fault, which stands beside it.", "hint");
}

// Has a certificate checked for the line.
async function askAbout(file) {
  if (!line.table) {
    say("Which line is the certificate of? Take the line first.", "wrong");
    return;
  }
  const files = { line: line.file, cert: file };
  await ask({ ask: "check", files, words: {}, apart: line.table.pairs() }, lineForm);
}

// Asks, and shows what comes.
async function ask(question, form) {
  fill(shown);
  const refuse = (text, field) => showWrong(form, text, field);
  const parts = makeParts(question, refuse);
  try {
    await runJob(question, (event, job) => parts.forEach((part) => part.hear(event, job)));
  } catch (fault) {
    say(fault.message, "wrong");
  }
  document.getElementById("answer").scrollIntoView({ block: "start" });
}

// The parts of an answer to this question.
function makeParts(question, refuse) {
  const parts = question.ask === "curve"
    ? [new CurveAnswer(shown, question.cycles, askCycle, refuse)]
    : [new BalanceAnswer(shown, question.ask, refuse)];
  if (question.ask === "models") parts.push(new SequenceAnswer(shown));
  return [...parts, new Taken(shown, MAINS[question.ask])];
}

async function open() {
  try {
    const { version, commands, examples } = await start();
    document.getElementById("version").textContent = version;
    offerWays(examples, takeFile);
    offerQuestions(commands, ask);
    takeNothing();
    const file = remembered();
    if (file) await takeFile(file);
  } catch (fault) {
    say(fault.message, "wrong");
  }
}

// Nothing can be asked before there is a line.
function takeNothing() {
  for (const button of document.querySelectorAll("form button.main")) button.disabled = true;
}

open();
