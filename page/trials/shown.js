// What the place of a tool shows, when no work is left there; null before.
function shown(tool) {
  const work = document.getElementById(`${tool}-work`);
  const all = (parent, selector) => [...parent.querySelectorAll(selector)];
  const texts = (parent, selector) => all(parent, selector).map((found) => found.textContent);
  const say = work.querySelector(".say");
  const busy = work.querySelector(".results").getAttribute("aria-busy") === "true";
  if (busy || !say.textContent) {
    return null;
  }
  const answer = (box) => ({
    words: box.querySelector(".words").textContent,
    status: Number(box.querySelector(".status").textContent.split(" ")[0]),
    text: box.querySelector("pre").textContent,
    files: texts(box, "ul li"),
  });
  return {
    title: say.textContent,
    mood: say.className.replace("say", "").trim(),
    said: all(work, ".said").map(answer),
    list: all(work, ".checklist li").map((item) => [item.className, item.textContent]),
    rows: all(work, "tbody tr").map((row) => texts(row, "td")),
    links: all(work, "a.save").map((link) => link.download),
    publish: texts(work, ".publish"),
    more: texts(work, ".result > p"),
  };
}
