// A job while it runs: what it is at, the seconds, the bounds so far, and a button that stops it.
import { begin, follow, forget, stop } from "./calls.js";
import { fill, make } from "./parts.js";

const place = document.getElementById("running");
let current = null;

// What a line of progress says: bounds where it has them, and all else as it was printed.
export function readProgress(pairs) {
  const { lower, upper, ...rest } = pairs;
  const others = Object.entries(rest).map((pair) => pair.join(" "));
  return { bounds: lower && upper ? { lower, upper } : null, text: others.join(", ") };
}

// Begins a job, and hands on what it tells. Whatever was asked before is stopped and forgotten.
export async function runJob(question, hear) {
  await leave();
  const job = await begin(question);
  const mine = { job, close: null };
  current = mine;
  show(mine);
  mine.close = follow(job, (event) => {
    if (current !== mine) return;
    note(event);
    hear(event, job);
  });
}

// Leaves the job that there is, and waits until its processor is free.
export async function leave() {
  if (!current) return;
  const { job, close } = current;
  current = null;
  close?.();
  place.hidden = true;
  await forget(job);
}

// Shows that a job runs.
function show(mine) {
  const button = make("button", { type: "button", id: "stop", onclick: () => halt(mine, button) }, "Stop");
  fill(
    place, make("p", {}, make("span", { id: "doing", role: "status" }, "Begun"), " ", make("span", { id: "seconds" })),
    make("p", { id: "progress" }), button,
  );
  place.hidden = false;
}

// Stops a job.
async function halt(mine, button) {
  button.disabled = true;
  await stop(mine.job).catch(() => {});
}

// Notes what a job is at.
function note(event) {
  if (event.told === "end") {
    place.hidden = true;
    return;
  }
  if (event.seconds !== undefined) document.getElementById("seconds").textContent = `${event.seconds} s`;
  if (event.told === "run") document.getElementById("doing").textContent = `${event.command} runs`;
  if (event.told === "progress") noteProgress(readProgress(event.pairs));
}

// Notes a line of progress.
function noteProgress({ bounds, text }) {
  const so_far = bounds ? `so far between ${bounds.lower} and ${bounds.upper}` : "";
  document.getElementById("progress").textContent = [so_far, text].filter(Boolean).join("; ");
}

// The page that goes away takes its job along.
window.addEventListener("pagehide", leave);
