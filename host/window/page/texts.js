// Values and names as texts.

/// The most characters of a value on one line.
const SHORT = 34;

/// Characters that a picture can't have are shown by their signs.
export function clean(text) {
  return String(text).replace(/[\u0000-\u001f]/g, (control) => String.fromCharCode(0x2400 + control.charCodeAt(0)))
    .replace(/[\u007f-\u009f\u2028\u2029\u202a-\u202e\u2066-\u2069\ufffe\uffff]|[\ud800-\udbff](?![\udc00-\udfff])|(?<![\ud800-\udbff])[\udc00-\udfff]/g, "\ufffd");
}

export function hue(cell) { return `k${cell % 6}`; }

export function called(name) { return name.startsWith("anon$") ? "closure" : `Fn ${name}`; }

export function functionName(name) { return name.startsWith("anon$") ? "closure" : name; }

/// The text of a value without values inside.
export function plain(value) {
  switch (value.k) {
    case "text": return JSON.stringify(value.s) + (value.n > [...value.s].length ? ` .. ${value.n} characters` : "");
    case "blob": return `[${value.s}]` + (value.n * 2 > value.s.length ? ` .. ${value.n} bytes` : "");
    case "closed": return "marked";
    case "array": return value.n === 0 ? "[]" : null;
    case "map": return value.n === 0 ? "#{}" : null;
    case "fn": return value.n === 0 ? called(value.s) : null;
    case "cell": return null;
    default: return value.s;
  }
}

export function label(value) {
  return (value.const ? "const " : "") + (value.tag ? `tag ${value.tag} ` : "");
}

/// A value on one line, if it is short and holds no cells.
export function inline(value) {
  const own = plain(value);
  if (own !== null) return label(value) + own;
  if (value.k === "cell" || value.k === "fn" || value.of.length < value.n || value.n > 12) return null;
  const parts = [];
  for (const [at, item] of value.of.entries()) {
    const text = inline(item);
    if (text === null) return null;
    parts.push(value.k === "map" ? `${value.keys[at]}: ${text}` : text);
  }
  const whole = label(value) + (value.k === "map" ? `#{${parts.join(", ")}}` : `[${parts.join(", ")}]`);
  return whole.length <= SHORT ? whole : null;
}

