// The answer to a question about a mix of models, behind its balance: the sequence, its timeline, and the utility work.
import { makeChecked } from "./answer.js";
import { fill, make, makeTable } from "./parts.js";
import { makePicture } from "./picture.js";
import { sayAnswer, sayRefusal } from "./words.js";

export class SequenceAnswer {
  constructor(place) {
    const names = ["headline", "checked", "order", "picture", "stations"];
    this.places = Object.fromEntries(names.map((name) => [name, make("div", { class: name })]));
    this.places.headline.setAttribute("role", "status");
    place.append(make("h3", {}, "The sequence"), ...Object.values(this.places));
  }

  hear(event, job) {
    if (event.told === "timeline") fill(this.places.picture, makePicture(event, job));
    if (event.told !== "ran") return;
    if (event.command === "sequence") this.showSequence(event);
    if (event.command === "timeline-draw" && event.kind !== "answer") this.refusePicture(event);
    if (event.command === "utility" && event.utilities) this.showUtility(event);
    if (event.command === "sequence-check") fill(this.places.checked, makeChecked(event));
  }

  refusePicture(event) {
    fill(this.places.picture, make("p", { class: "wrong" }, sayRefusal(event)));
  }

  showSequence(event) {
    const good = event.kind === "answer";
    const text = good ? sayAnswer("sequence", event, event.took) : sayRefusal(event);
    fill(this.places.headline, make("p", { class: good ? "big" : "big wrong" }, text));
    if (!good || !event.sequence) return;
    const units = event.sequence.models.split(" ").map((model) => make("li", {}, model));
    fill(this.places.order, make("ol", { class: "units", "aria-label": "Order of launch" }, ...units));
  }

  showUtility(event) {
    const rows = event.utilities.map((it) => [it.station, it.work]);
    const all = make("p", {}, `Total utility work ${event.total_utility.work}`);
    fill(this.places.stations, makeTable("Utility work", ["Station", "Utility work"], rows, [0, 1]), all);
  }
}
