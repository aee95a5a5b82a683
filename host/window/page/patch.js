// Elements of SVG as descriptions, and a drawing that changes only where its description does.
const SPACE = "http://www.w3.org/2000/svg";

/// Describes an element. Empty texts are left out.
export function svg(name, attributes, ...children) {
  return { name, attributes, children: children.filter((child) => child !== "") };
}

/// Makes a node from its description.
export function made(wanted) {
  if (typeof wanted === "string") return document.createTextNode(wanted);
  const node = document.createElementNS(SPACE, wanted.name);
  if (wanted.name === "svg") node.setAttribute("xmlns", SPACE);
  for (const [key, value] of Object.entries(wanted.attributes)) node.setAttribute(key, value);
  node.append(...wanted.children.map(made));
  return node;
}

/// Changes a node that was made from another description, and returns the node that is there now.
function changed(node, before, wanted) {
  if (typeof wanted === "string" || typeof before === "string" || before.name !== wanted.name) {
    if (before === wanted) return node;
    const other = made(wanted);
    node.replaceWith(other);
    return other;
  }
  for (const [key, value] of Object.entries(wanted.attributes)) if (before.attributes[key] !== value) node.setAttribute(key, value);
  for (const key of Object.keys(before.attributes)) if (!(key in wanted.attributes)) node.removeAttribute(key);
  let child = node.firstChild;
  wanted.children.forEach((one, at) => {
    if (at < before.children.length) child = changed(child, before.children[at], one).nextSibling;
    else node.append(made(one));
  });
  for (let left = before.children.length - wanted.children.length; left > 0; left -= 1) node.lastChild.remove();
  return node;
}

/// An element of the page that shows one drawing.
export class Canvas {
  constructor(root) {
    this.root = root;
    this.before = null;
  }

  /// Shows what is described.
  show(wanted) {
    if (this.before) changed(this.root.firstChild, this.before, wanted);
    else this.root.replaceChildren(made(wanted));
    this.before = wanted;
  }

  /// Shows an element instead of a drawing.
  replace(node) {
    this.before = null;
    this.root.replaceChildren(node);
  }
}

/// Has an element contain these nodes; those that it has already stay untouched.
export function put(parent, nodes) {
  nodes.forEach((node, at) => {
    const there = parent.childNodes[at] ?? null;
    if (there !== node) parent.insertBefore(node, there);
  });
  while (parent.childNodes.length > nodes.length) parent.lastChild.remove();
}
