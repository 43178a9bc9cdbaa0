// Hands files to places of the page, case by case, and tells what is said of each: below its field,
// and where `presses` is set, by the tool whose button is pressed then.
async function places(files, cases, presses) {
  const held = {};
  for (const [name, text] of Object.entries(files)) {
    const bytes = Uint8Array.from(atob(text), (letter) => letter.charCodeAt(0));
    held[name] = new File([bytes], name);
  }
  const pause = () => new Promise((done) => setTimeout(done, 4));
  const give = (id, name) => {
    const all = new DataTransfer();
    if (name) {
      all.items.add(held[name]);
    }
    const field = document.getElementById(id);
    field.files = all.files;
    field.dispatchEvent(new Event("change", { bubbles: true }));
    return field;
  };
  async function toldOf(field, name) {
    const told = document.getElementById(`${field}-told`);
    while (!told.textContent.startsWith(`${name}, `)) {
      await pause();
    }
    return [told.textContent.slice(name.length + 2), told.className];
  }
  async function pressed(form) {
    form.querySelector("[type=submit]").click();
    const work = document.getElementById(`${form.id}-work`);
    const say = work.querySelector(".say");
    while (!say.textContent || work.querySelector(".results[aria-busy=true]")) {
      await pause();
    }
    return [say.textContent, say.className, work.querySelectorAll(".said, .checklist li").length];
  }
  const said = [];
  for (const [field, name] of cases) {
    const { form } = give(field, name);
    const told = name ? await toldOf(field, name) : null;
    said.push(presses ? await pressed(form) : told);
  }
  return said;
}
