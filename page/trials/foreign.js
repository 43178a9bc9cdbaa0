// Tries to have other code and other styles in the page: what of it ran, the page's colour, whether
// the browser knows trusted types, and how many images there are then.
async function foreign() {
  window.ran = [];
  const box = document.createElement("div");
  document.body.append(box);
  const put = (tag, properties) => {
    const element = Object.assign(document.createElement(tag), properties);
    box.append(element);
    return element;
  };
  const ways = [
    () => box.setAttribute("onclick", "ran.push('handler')"),
    () => box.click(),
    () => put("script", { textContent: "ran.push('script')" }),
    () => put("a", { href: "javascript:ran.push('link')" }).click(),
    () => put("style", { textContent: "body { color: red }" }),
    () => {
      box.innerHTML = "<img src=x onerror=\"ran.push('image')\">";
    },
  ];
  for (const way of ways) {
    try {
      way();
    } catch {
      // That is how it should be.
    }
  }
  await new Promise((done) => setTimeout(done, 300));
  const colour = getComputedStyle(document.body).color;
  const images = box.querySelectorAll("img").length;
  box.remove();
  return [window.ran, colour, Boolean(window.trustedTypes), images];
}
