// What is wrong with the names and labels of the page, for those who don't see it.
function unnamed() {
  const faults = [];
  const all = (selector) => [...document.querySelectorAll(selector)];
  const ids = all("[id]").map((found) => found.id);
  const twice = ids.filter((id, place) => ids.indexOf(id) !== place);
  faults.push(...twice.map((id) => `two of ${id}`));
  for (const field of all("input, textarea, select")) {
    if (![...field.labels].some((label) => label.textContent.trim())) {
      faults.push(`no label: ${field.id}`);
    }
  }
  for (const form of all("form")) {
    const labels = [...form.querySelectorAll("label")].map((label) => label.textContent);
    const same = labels.filter((label, place) => labels.indexOf(label) !== place);
    faults.push(...same.map((label) => `two labels in ${form.id}: ${label}`));
  }
  // What scrolls has to take the focus, so that keys can scroll it.
  for (const found of all("body *")) {
    const scrolls = /auto|scroll/.test(getComputedStyle(found).overflowY);
    const higher = found.scrollHeight > found.clientHeight + 1;
    const more = higher || found.scrollWidth > found.clientWidth + 1;
    if (scrolls && more && found.tabIndex < 0) {
      faults.push(`no key scrolls ${found.tagName} ${found.className}`);
    }
  }
  for (const button of all("button, a, summary")) {
    if (!(button.getAttribute("aria-label") || button.textContent).trim()) {
      faults.push(`no name: ${button.outerHTML}`);
    }
  }
  for (const name of ["aria-controls", "aria-labelledby", "aria-describedby"]) {
    for (const found of all(`[${name}]`)) {
      const missing = found.getAttribute(name).split(" ").filter((id) => !ids.includes(id));
      faults.push(...missing.map((id) => `${name} of ${found.id} has no ${id}`));
    }
  }
  for (const work of all(".work")) {
    if (!work.querySelector("[role=status]")) {
      faults.push(`nothing tells of ${work.id}`);
    }
  }
  faults.push(...all("[tabindex]").filter((found) => found.tabIndex > 0).map((found) => found.id));
  const levels = all("h1, h2, h3, h4").map((head) => Number(head.tagName[1]));
  const steps = levels.filter((level, place) => place && level > levels[place - 1] + 1);
  if (steps.length || levels.filter((level) => level === 1).length !== 1) {
    faults.push(`heads: ${levels}`);
  }
  if (!document.documentElement.lang || !document.title) {
    faults.push("no language, or no title");
  }
  return faults;
}
