// Small helpers over the document. Text goes in as text nodes, never as markup.

const SVG = "http://www.w3.org/2000/svg";

export const byId = (id) => document.getElementById(id);

function fill(node, attributes, children) {
  for (const [name, value] of Object.entries(attributes)) {
    if (value === true) node.setAttribute(name, "");
    else if (value !== false && value !== null && value !== undefined) node.setAttribute(name, String(value));
  }
  node.append(...children.flat().filter((child) => child !== null && child !== undefined));
  return node;
}

/** An element with these attributes. What is null, undefined or false is left out. */
export function make(tag, attributes = {}, ...children) {
  return fill(document.createElement(tag), attributes, children);
}

export function makeSvg(tag, attributes = {}, ...children) {
  return fill(document.createElementNS(SVG, tag), attributes, children);
}

/** A line icon out of the page's own set. */
export function icon(name) {
  return makeSvg("svg", { class: "icon", "aria-hidden": "true" }, makeSvg("use", { href: `#icon-${name}` }));
}

/** Sets a text only where it changes, so that nothing is announced twice. */
export function say(node, text) {
  if (node.textContent !== text) node.textContent = text;
}

const LEAST_SIZE = 9;

/** Sets one or two numbers, none of which breaks: where they are too long for their place they get smaller. */
export function sayNumbers(node, text) {
  if (node.textContent === text) return;
  const [first, ...rest] = text.split(" ").map((part) => make("span", { class: "number" }, part));
  node.replaceChildren(first, ...rest.flatMap((part) => [" ", part]));
  node.style.fontSize = "";
  let size = parseFloat(getComputedStyle(node).fontSize);
  while (node.scrollWidth > node.clientWidth && size > LEAST_SIZE) {
    size -= 1;
    node.style.fontSize = `${size}px`;
  }
}

/** Calls a function once the calls have paused for so long. */
export function debounced(milliseconds, call) {
  let timer = 0;
  return (...given) => {
    clearTimeout(timer);
    timer = setTimeout(() => call(...given), milliseconds);
  };
}

/** Calls a function at once, and at most once in so long. What was asked in between is done at the end of it. */
export function throttled(milliseconds, call) {
  let timer = 0;
  let last = -Infinity;
  return () => {
    const wait = last + milliseconds() - performance.now();
    if (timer) return;
    timer = setTimeout(() => {
      timer = 0;
      last = performance.now();
      call();
    }, Math.max(0, wait));
  };
}
