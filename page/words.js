// Sentences for what the program answered. Every number in them is one that it printed, but for the seconds of a run.
import { count } from "./parts.js";

const stations = (number) => count(number, "station");

// What an answer says, in a sentence; `seconds` tells how long a search took.
export function sayAnswer(command, read, seconds) {
  if (read.infeasible) return `No number of stations is enough: ${read.infeasible.task} takes ${read.infeasible.time}`;
  if (read.stopped) return `${sayBounds(command, read)}; stopped after ${seconds} s by ${read.stopped.cause}`;
  return {
    solve: () => `${stations(read.optimal.value)}, proved the fewest`,
    cycle: () => `Cycle time ${read.optimal.value}, proved the least`,
    effic: () => `${sayAt(read.at)}: product ${read.optimal.value}, proved the least`,
    sequence: () => `Utility work ${read.optimal.value}, proved the least`,
    check: () => sayAccepted(read.accepted),
    "effic-check": () => sayAccepted(read.accepted),
  }[command]();
}

// The stations and the cycle time of a product.
const sayAt = (at) => `${stations(at.stations)} at cycle time ${at.cycle}`;

// The bounds of a search that stopped.
function sayBounds(command, { bounds: { lower, upper }, at }) {
  return {
    solve: `Between ${lower} and ${stations(upper)}`,
    cycle: `Cycle time between ${lower} and ${upper}`,
    effic: `Product between ${lower} and ${upper}${at ? `, as of ${sayAt(at)}` : ""}`,
    sequence: `Utility work between ${lower} and ${upper}`,
  }[command];
}

// What an accepted certificate shows.
function sayAccepted(accepted) {
  const { infeasible, cycle, lower, upper } = accepted;
  if (infeasible) return `Accepted: no number of stations is enough, since task ${infeasible} is too long`;
  const isProved = lower === upper;
  const most = cycle ? stations(upper) : upper;
  const found = isProved ? `${most}, the ${cycle ? "fewest" : "least"}` : `between ${lower} and ${most}`;
  const what = accepted.stations ? "cycle time " : "product ";
  return `Accepted: ${cycle ? "" : what}${found}`;
}

// What stands when a search was stopped by hand: the bounds that were told last, or those of the quick balance.
export function sayStopped(told, balance, seconds) {
  const found = told ?? (balance && { lower: balance.total_bound.stations, upper: balance.balance.stations });
  const after = `stopped after ${seconds} s by hand`;
  return found ? `Between ${found.lower} and ${stations(found.upper)}; ${after}` : `No bounds yet; ${after}`;
}

// What the program refused, in its words.
export function sayRefusal(read) {
  if (read.kind === "usage") return read.key ? `${read.key}: ${read.fault}` : read.fault;
  if (read.kind === "input" && read.number) return `${read.place} ${read.number}: ${read.fault}`;
  if (read.kind === "unread") return read.said.trim();
  return read.fault;
}

// The key of the field at which a refusal belongs.
export function fieldOf(read) {
  return read.fault === "no cycle time" ? "cycle" : read.key ?? "";
}
