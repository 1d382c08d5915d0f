// Elements of the page, and shapes of a drawing. What came with the records is put in as text, never as markup.

const SVG_NAMES = "http://www.w3.org/2000/svg";
const XML_NAMES = "http://www.w3.org/XML/1998/namespace";

export function fixed(number) { return Math.round(number * 10) / 10; }

export function element(name, classes, ...children) {
  const made = document.createElement(name);
  if (classes) made.className = classes;
  made.append(...children);
  return made;
}

export function button(classes, act, ...children) {
  const made = element("button", classes, ...children);
  made.type = "button";
  made.addEventListener("click", act);
  return made;
}

export function shape(name, attributes, ...children) {
  const made = document.createElementNS(SVG_NAMES, name);
  for (const [key, value] of Object.entries(attributes)) {
    if (key === "xml:space") made.setAttributeNS(XML_NAMES, key, value);
    else made.setAttribute(key, typeof value === "number" ? fixed(value) : value);
  }
  made.append(...children);
  return made;
}

// The shapes of a picture that is told as plain objects.
export function shown({ name, attributes, children }) {
  return shape(name, attributes, ...children.map((child) => (typeof child === "string" ? child : shown(child))));
}

// Two kinds of events, at whose first something is lit up and at whose second it goes out.
export function whileOver(target, light) {
  for (const event of ["mouseenter", "focus"]) target.addEventListener(event, () => light(true));
  for (const event of ["mouseleave", "blur"]) target.addEventListener(event, () => light(false));
}

// What of a shape's look comes from the style sheet of the page, which a file of its own doesn't have.
const LOOKS = ["fill", "stroke", "stroke-width", "stroke-dasharray", "stroke-linecap", "stroke-linejoin", "paint-order",
  "font-family", "font-size", "font-style", "font-weight", "text-anchor", "visibility", "display"];

// A drawing as the text of an SVG file, which looks as it does in the page.
export function asFile(svg) {
  const copy = svg.cloneNode(true), originals = [svg, ...svg.querySelectorAll("*")];
  [copy, ...copy.querySelectorAll("*")].forEach((made, place) => {
    const look = getComputedStyle(originals[place]);
    for (const name of LOOKS) made.setAttribute(name, look.getPropertyValue(name));
    made.removeAttribute("class");
  });
  copy.setAttribute("xmlns", SVG_NAMES);
  return new XMLSerializer().serializeToString(copy);
}

// Hands a text to the browser as a file to keep.
export function save(name, kind, text) {
  const link = element("a", "");
  link.href = URL.createObjectURL(new Blob([text], { type: kind }));
  link.download = name;
  link.click();
  setTimeout(() => URL.revokeObjectURL(link.href), 10_000);
}
