// The table of the tasks of a line, in which pairs that may not share a station are ticked.
import { fill, make } from "./parts.js";

// A pair of task numbers as a text, the same for either order.
const pairOf = (one, two) => `${Math.min(one, two)},${Math.max(one, two)}`;

export class TasksTable {
  constructor(place, tasks) {
    this.place = place;
    this.tasks = tasks;
    this.ticked = new Set();
    this.chosen = null;
    this.fixed = this.pairsOfSheet();
    this.render();
  }

  // The pairs that the sheet itself has: its fourth column names tasks.
  pairsOfSheet() {
    const numbers = new Map(this.tasks.map((it, index) => [it.task, index + 1]));
    const pairs = this.tasks.flatMap((it, index) => it.apart.split(";").map((name) => name.trim()).filter(Boolean)
      .map((name) => pairOf(index + 1, numbers.get(name))));
    return new Set(pairs);
  }

  // The pairs that were ticked, as the server takes them.
  pairs() {
    return [...this.ticked].map((pair) => pair.split(",").map(Number));
  }

  // The numbers of the tasks that may not share a station with one.
  partners(number) {
    const pairs = [...this.fixed, ...this.ticked].map((pair) => pair.split(",").map(Number));
    return pairs.filter((pair) => pair.includes(number)).map(([one, two]) => (one === number ? two : one));
  }

  render() {
    const last = this.chosen ? `Not with ${this.tasks[this.chosen - 1].task}` : "Not at one station with";
    const heading = ["", "Task", "Time", "After", last].map((it) => make("th", { scope: "col" }, it));
    const rows = this.tasks.map((task, index) => this.makeRow(task, index + 1));
    const table = make(
      "table", {}, make("caption", {}, `${this.tasks.length} tasks`),
      make("thead", {}, make("tr", {}, ...heading)), make("tbody", {}, ...rows),
    );
    const scrolled = this.place.querySelector(".scroll")?.scrollTop ?? 0;
    const region = make("div", { class: "scroll tasks", tabIndex: 0, role: "region", "aria-label": "Tasks" }, table);
    fill(this.place, region);
    region.scrollTop = scrolled;
  }

  makeRow(task, number) {
    return make(
      "tr", { class: number === this.chosen ? "chosen" : "" },
      make("td", { class: "number" }, String(number)), make("th", { scope: "row" }, task.task),
      make("td", { class: "number" }, task.time), make("td", {}, task.after), make("td", {}, this.makeApart(number)),
    );
  }

  // The last cell of a row: a tick while a partner of the chosen task is looked for, else its partners and a button.
  makeApart(number) {
    if (this.chosen && number !== this.chosen) return this.makeTick(number);
    const names = this.partners(number).map((it) => this.tasks[it - 1].task).join("; ");
    const isChosen = number === this.chosen;
    const button = make("button", {
      type: "button", class: "small", "aria-expanded": String(isChosen), "data-task": String(number),
      "aria-label": isChosen ? "Done" : `Tasks that may not share a station with ${this.tasks[number - 1].task}`,
      onclick: () => this.choose(isChosen ? null : number),
    }, isChosen ? "Done" : "Tick ..");
    return make("span", { class: "apart" }, names && make("span", {}, names), button);
  }

  makeTick(number) {
    const pair = pairOf(this.chosen, number);
    const names = [this.chosen, number].map((it) => this.tasks[it - 1].task);
    return make("input", {
      type: "checkbox", checked: this.fixed.has(pair) || this.ticked.has(pair), disabled: this.fixed.has(pair),
      "data-pair": pair, "aria-label": `${names[0]} and ${names[1]} may not share a station`,
      onchange: (event) => (event.target.checked ? this.ticked.add(pair) : this.ticked.delete(pair)),
    });
  }

  choose(number) {
    const before = this.chosen;
    this.chosen = number;
    this.render();
    this.place.querySelector(`button[data-task="${number ?? before}"]`).focus();
  }
}
