// The curve: the fewest stations at each cycle time of a range, as a chart that fills in while the answers come. A
// point that is proved is filled; where a search stopped, a range stands. A click or Enter takes a point's cycle time.
import { fold, fill, make, makeTable } from "./parts.js";
import { fieldOf, sayAnswer, sayRefusal } from "./words.js";

const SVG = "http://www.w3.org/2000/svg";
const WIDTH = 720, HEIGHT = 330, LEFT = 48, RIGHT = 16, TOP = 30, BOTTOM = 44;
// How many cycle times are written below the chart at most, and how many numbers of stations beside it.
const MOST_MARKS = 8;

// An element of a chart.
function draw(tag, properties, ...children) {
  const element = document.createElementNS(SVG, tag);
  for (const [name, value] of Object.entries(properties)) element.setAttribute(name, value);
  element.append(...children);
  return element;
}

// The numbers of stations that an answer tells, or nothing where no number is enough.
function boundsOf(read) {
  if (read.infeasible) return null;
  return read.optimal ? { lower: read.optimal.value, upper: read.optimal.value } : read.bounds;
}

export class CurveAnswer {
  constructor(place, cycles, take, refuse) {
    this.cycles = [...cycles].reverse();
    this.take = take;
    this.refuse = refuse;
    this.points = new Map();
    this.headline = make("div", { class: "headline", role: "status" });
    this.chart = make("div", { class: "chart scroll", tabIndex: 0, role: "region", "aria-label": "The curve" });
    this.table = make("div");
    place.append(this.headline, this.chart, this.table);
    this.say();
  }

  hear(event) {
    if (event.told === "point" && event.kind === "answer") this.add(event);
    else if (event.told === "point") this.refuseAll(event);
    else if (event.told === "stopped") this.say(`; stopped after ${event.seconds} s by hand`);
    else if (event.told === "fault") this.say(`; ${event.why}`);
  }

  add(event) {
    this.points.set(event.cycle, event);
    this.say();
    this.render();
  }

  refuseAll(event) {
    fill(this.headline, make("p", { class: "big wrong" }, sayRefusal(event)));
    this.refuse(sayRefusal(event), fieldOf(event));
  }

  say(more = "") {
    const text = `${this.points.size} of ${this.cycles.length} cycle times answered${more}`;
    fill(this.headline, make("p", { class: "big" }, text));
  }

  render() {
    const focused = this.chart.querySelector(":focus")?.dataset.cycle;
    fill(this.chart, this.makeChart());
    if (focused) this.chart.querySelector(`[data-cycle="${focused}"]`)?.focus();
    const done = this.cycles.filter((cycle) => this.points.has(cycle));
    const rows = done.map((cycle) => [cycle, this.sayPoint(cycle), this.points.get(cycle).checked.trim()]);
    const isOpen = this.table.querySelector("details")?.open ?? false;
    const table = makeTable("The curve", ["Cycle time", "Stations", "The check"], rows, [0]);
    fill(this.table, fold("The curve as a table", table));
    this.table.querySelector("details").open = isOpen;
  }

  sayPoint(cycle) {
    const point = this.points.get(cycle);
    return sayAnswer("solve", point, point.took);
  }

  makeChart() {
    const answered = this.cycles.filter((cycle) => this.points.has(cycle));
    const drawn = answered.map((cycle) => ({ cycle, bounds: boundsOf(this.points.get(cycle)) }))
      .filter((it) => it.bounds);
    const numbers = drawn.flatMap((it) => [Number(it.bounds.lower), Number(it.bounds.upper)]);
    const across = scale(this.cycles.map(Number), LEFT, WIDTH - RIGHT);
    const down = scale(numbers.length ? numbers : [0, 1], HEIGHT - BOTTOM, TOP);
    const points = drawn.map((it) => this.makePoint(it, across, down));
    points.at(-1)?.setAttribute("tabindex", "0");
    return draw(
      "svg", { viewBox: `0 0 ${WIDTH} ${HEIGHT}`, role: "group", "aria-label": "Fewest stations at each cycle time" },
      ...this.makeAxes(across, down, numbers), ...points,
    );
  }

  makeAxes(across, down, numbers) {
    const base = HEIGHT - BOTTOM + 12;
    const axis = draw("path", { class: "axis", d: `M${LEFT - 12} ${TOP}V${base}H${WIDTH - RIGHT}` });
    const mark = (it) => draw("text", { x: across(Number(it)), y: base + 16, "text-anchor": "middle" }, it);
    const below = some(this.cycles).map(mark);
    const sorted = [...new Set(numbers)].sort((one, two) => one - two);
    const beside = some(sorted).flatMap((it) => [
      draw("path", { class: "grid", d: `M${LEFT - 12} ${down(it)}H${WIDTH - RIGHT}` }),
      draw("text", { x: LEFT - 18, y: down(it) + 4, "text-anchor": "end" }, String(it)),
    ]);
    const names = [
      draw("text", { class: "name", x: WIDTH - RIGHT, y: HEIGHT - 2, "text-anchor": "end" }, "cycle time"),
      draw("text", { class: "name", x: 2, y: 12 }, "stations"),
    ];
    return [axis, ...beside, ...below, ...names];
  }

  makePoint({ cycle, bounds }, across, down) {
    const [x, low, high] = [across(Number(cycle)), down(Number(bounds.lower)), down(Number(bounds.upper))];
    const isProved = bounds.lower === bounds.upper;
    const said = `Cycle time ${cycle}: ${this.sayPoint(cycle)}`;
    const kind = isProved ? "point proved" : "point range";
    const group = draw(
      "g", { class: kind, role: "button", tabindex: "-1", "aria-label": said, "data-cycle": cycle },
      draw("title", {}, said),
      draw("rect", { class: "near", x: x - 6, y: high - 10, width: 12, height: low - high + 20 }),
      ...(isProved ? [] : [draw("path", { d: `M${x} ${low}V${high}` }), draw("circle", { cx: x, cy: low, r: 4 })]),
      draw("circle", { cx: x, cy: high, r: 4 }),
    );
    group.addEventListener("click", () => this.take(cycle));
    group.addEventListener("keydown", (event) => this.move(event, group, cycle));
    return group;
  }

  // Enter takes a point; the arrows go to the next one.
  move(event, group, cycle) {
    if (event.key === "Enter" || event.key === " ") this.take(cycle);
    else if (event.key === "ArrowRight") focusPoint(group.nextElementSibling);
    else if (event.key === "ArrowLeft") focusPoint(group.previousElementSibling);
    else return;
    event.preventDefault();
  }
}

function focusPoint(element) {
  if (!element?.classList.contains("point")) return;
  for (const other of element.parentNode.querySelectorAll(".point")) other.setAttribute("tabindex", "-1");
  element.setAttribute("tabindex", "0");
  element.focus();
}

// Where a number stands between the places of the least and the greatest one.
function scale(numbers, from, to) {
  const least = Math.min(...numbers), most = Math.max(...numbers);
  if (most === least) return () => (from + to) / 2;
  return (number) => Math.round(from + ((to - from) * (number - least)) / (most - least));
}

// Some of a list, from its first on, in equal steps.
function some(list) {
  const step = Math.ceil(list.length / MOST_MARKS);
  return list.filter((_, index) => index % step === 0);
}
