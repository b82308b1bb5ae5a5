// A picture of the program as an image, with what each of its boxes tells where it is pointed at.
import { fileAddress } from "./calls.js";
import { make } from "./parts.js";

// The picture that an event tells of; its boxes lie over the image at their places in it.
export function makePicture(picture, job) {
  const image = make("img", {
    src: fileAddress(job, picture.file), alt: `${picture.title}. ${picture.lines.join(". ")}`,
    width: picture.width, height: picture.height,
  });
  const ground = make("div", { class: "ground" }, image, ...picture.boxes.map((box) => makeBox(box, picture)));
  ground.style.maxWidth = `${picture.width}px`;
  return make("div", { class: "picture scroll", tabIndex: 0, role: "region", "aria-label": picture.title }, ground);
}

// A box over the image.
function makeBox(box, picture) {
  const element = make("span", { class: "box", title: box.title });
  const share = (part, whole) => `${(100 * part) / Number(whole)}%`;
  element.style.left = share(box.x, picture.width);
  element.style.width = share(box.width, picture.width);
  element.style.top = share(box.y, picture.height);
  element.style.height = share(box.height, picture.height);
  return element;
}
