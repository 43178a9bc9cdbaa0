// How wide the window, the page and its visible part are, and what stands out of that part. What
// scrolls by itself may be wider.
function wide() {
  const seen = document.documentElement.clientWidth;
  const out = [...document.querySelectorAll("body *")].filter((found) => {
    const box = found.getBoundingClientRect();
    return box.width && box.right > seen + 1 && !found.closest("pre, .wide-table");
  });
  const names = out.slice(0, 5).map((found) => `${found.tagName}#${found.id}`);
  return [window.innerWidth, document.documentElement.scrollWidth, seen, names];
}
