// The answer to a question about a line: how many stations or how short a cycle, what the check says of it, the
// picture, the stations and the plan; and what can be taken along.
import { fileAddress } from "./calls.js";
import { fold, fill, make, makeTable } from "./parts.js";
import { makePicture } from "./picture.js";
import { readProgress } from "./run.js";
import { fieldOf, sayAnswer, sayRefusal, sayStopped } from "./words.js";

const SEARCHES = ["solve", "cycle", "effic"];
const CHECKS = ["check", "effic-check"];
// What can be taken along, in this order, with what it is.
const TAKEN = {
  "plan.csv": "Plan (CSV)", "picture.svg": "Picture (SVG)", "answer.cert": "Certificate",
  "timeline.svg": "Timeline (SVG)", "sequence.txt": "Sequence", "answer.proof": "Certificate of the sequence",
  "combined.in2": "Combined instance (IN2)", pairs: "Pairs that may not share a station",
};

// What the check says of a certificate, in the program's words.
export function makeChecked(read) {
  const good = read.kind === "answer";
  const name = make("strong", {}, good ? "Checked: " : "The check: ");
  return make("p", { class: good ? "checked" : "wrong" }, name, read.said.trim() || read.fault);
}

// The part of an answer that has a balance. `refuse` shows what the program refuses beside the question.
export class BalanceAnswer {
  constructor(place, ask, refuse) {
    this.ask = ask;
    this.refuse = refuse;
    this.found = this.balance = this.told = null;
    const names = ["headline", "checked", "picture", "stations", "plan"];
    this.places = Object.fromEntries(names.map((name) => [name, make("div", { class: name })]));
    this.places.headline.setAttribute("role", "status");
    place.append(...Object.values(this.places));
  }

  hear(event, job) {
    if (event.told === "progress" && SEARCHES.includes(event.command)) {
      this.told = readProgress(event.pairs).bounds ?? this.told;
    }
    if (event.told === "ran") this.hearRun(event);
    if (event.told === "picture") this.showPicture(event, job);
    if (event.told === "stopped" && !this.found) this.say(sayStopped(this.told, this.balance, event.seconds));
    if (event.told === "fault") this.say(event.why, "wrong");
  }

  hearRun(event) {
    if (event.command === "balance" && event.kind === "answer" && event.balance) this.hearQuick(event);
    else if (event.command === "balance" || SEARCHES.includes(event.command)) this.hearSearch(event);
    else if (CHECKS.includes(event.command)) this.hearCheck(event);
    else if (event.command === "plan" && event.plan) this.showPlan(event.plan);
  }

  // The quick balance gives the first bounds.
  hearQuick(event) {
    this.balance = event;
    this.say(`Between ${event.total_bound.stations} and ${event.balance.stations} stations so far`, "so-far");
  }

  hearSearch(event) {
    if (event.kind !== "answer") {
      this.say(sayRefusal(event), "wrong");
      this.refuse(sayRefusal(event), fieldOf(event));
      return;
    }
    // A task that is too long is told by the quick balance first; the search then has its certificate.
    this.found = event;
    const command = event.command === "balance" ? "solve" : event.command;
    this.say(sayAnswer(command, event, event.took));
    if (event.idle) this.places.headline.append(make("p", { class: "idle" }, `Idle time ${event.idle.time}`));
    if (SEARCHES.includes(event.command) && event.code < 2) {
      fill(this.places.checked, make("p", {}, "The certificate is checked .."));
    }
  }

  hearCheck(event) {
    if (this.ask === "check") {
      this.found = event;
      this.say(event.kind === "answer" ? sayAnswer(event.command, event) : "The certificate isn't accepted");
    }
    fill(this.places.checked, makeChecked(event));
  }

  say(text, kind = "") {
    fill(this.places.headline, make("p", { class: `big ${kind}` }, text));
  }

  showPicture(picture, job) {
    fill(this.places.picture, makePicture(picture, job));
    const rows = picture.stations.map((it) => [it.station, it.tasks, it.time, it.idle]);
    fill(this.places.stations, makeTable("Stations", ["Station", "Tasks", "Load", "Idle"], rows, [0, 2, 3]));
  }

  showPlan({ heading, rows }) {
    const open = fold("Plan: when each task is done", makeTable("Plan", heading, rows, [0, 2, 4, 5, 6]));
    fill(this.places.plan, open);
  }
}

// What of an answer can be taken along: its files, and the commands that give the same in a terminal.
export class Taken {
  constructor(place, mains) {
    this.mains = mains;
    this.main = [];
    this.all = [];
    this.files = make("ul", { class: "files" });
    this.commands = make("div", { class: "commands" });
    place.append(make("h3", {}, "To take along"), this.files, this.commands);
  }

  hear(event, job) {
    if (event.told === "run") this.noteCommand(event);
    if (event.files) this.showFiles(event.files, job);
  }

  noteCommand({ command, shown }) {
    this.all.push(shown);
    if (this.mains.includes(command)) this.main.push(shown);
    fill(this.commands, this.main.length ? this.makeCommands() : null);
  }

  makeCommands() {
    const text = this.main.join("\n");
    const button = make("button", { type: "button", class: "small", onclick: () => copy(text, button) }, "Copy");
    return make(
      "div", {}, make("p", {}, "The same in a terminal:"),
      make("div", { class: "command" }, make("pre", {}, text), button),
      fold("All commands of this answer", make("pre", {}, this.all.join("\n"))),
    );
  }

  showFiles(files, job) {
    fill(this.files, ...Object.keys(TAKEN).filter((name) => files[name]).map((name) => make(
      "li", {}, make("a", { href: fileAddress(job, name), download: files[name] }, TAKEN[name]),
    )));
  }
}

async function copy(text, button) {
  try {
    await navigator.clipboard.writeText(text);
    button.textContent = "Copied";
  } catch {
    button.textContent = "Not copied";
  }
}
