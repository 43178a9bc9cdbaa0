// How many texts and edges of fields are seen, and those of them whose contrast with what is behind
// is less than WCAG 2.1 asks for at level AA: 4.5 of a text, 3 of a large one and of an edge.
function faint() {
  const parts = (colour) => colour.match(/[0-9.]+/g).map(Number);
  const light = (part) =>
    part / 255 <= 0.04045 ? part / 255 / 12.92 : ((part / 255 + 0.055) / 1.055) ** 2.4;
  const luminance = ([r, g, b]) => 0.2126 * light(r) + 0.7152 * light(g) + 0.0722 * light(b);
  const ratio = (one, other) => {
    const [dark, bright] = [luminance(one), luminance(other)].sort((a, b) => a - b);
    return (bright + 0.05) / (dark + 0.05);
  };
  const isDark = matchMedia("(prefers-color-scheme: dark)").matches;
  const behind = (found) => {
    for (; found; found = found.parentElement) {
      const colour = parts(getComputedStyle(found).backgroundColor);
      if (colour.length === 3 || colour[3] === 1) {
        return colour;
      }
    }
    return isDark ? [0, 0, 0] : [255, 255, 255];
  };
  const isSeen = (found) => found.getClientRects().length > 0;
  const isText = (node) => node.nodeType === Node.TEXT_NODE && node.textContent.trim();
  const hasText = (found) => [...found.childNodes].some(isText);
  const texts = [...document.querySelectorAll("body *")].filter(
    (found) => hasText(found) && isSeen(found) && !/script|option/i.test(found.tagName),
  );
  const faint = [];
  for (const found of texts) {
    const style = getComputedStyle(found);
    const size = parseFloat(style.fontSize);
    const least = size >= 24 || (size >= 18.66 && style.fontWeight >= 700) ? 3 : 4.5;
    const has = ratio(parts(style.color), behind(found));
    if (has < least) {
      faint.push([found.tagName, found.className, has.toFixed(2)]);
    }
  }
  const selector = "input[type=text], textarea, select, button";
  const fields = [...document.querySelectorAll(selector)].filter(isSeen);
  // The edge of a step is that of the circle before its name.
  const edgeOf = (field) => {
    const part = field.closest("#way") ? "::before" : null;
    return parts(getComputedStyle(field, part).borderTopColor);
  };
  for (const field of fields) {
    const has = ratio(edgeOf(field), behind(field.parentElement));
    if (has < 3) {
      faint.push([field.id, "edge", has.toFixed(2)]);
    }
  }
  return [texts.length + fields.length, faint];
}
