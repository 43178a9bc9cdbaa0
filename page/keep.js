// page/keep.js: files that were made here and have to be kept: each with a link that saves it, and
// a fingerprint to write down.
const Keep = (() => {
  const { make } = Fields;

  // The first 16 digits of a digest, in fours.
  const inFours = (digest) => digest.slice(0, 16).match(/.{4}/g).join(" ");

  const fingerprint = async (bytes) => inFours(await Work.digestOf(bytes));

  // Puts a text where other programs take it from; false where this browser doesn't let it.
  async function copy(text) {
    try {
      await navigator.clipboard.writeText(text);
      return true;
    } catch {
      const field = make("textarea", { value: text, className: "copied" });
      document.body.append(field);
      field.select();
      const done = document.execCommand("copy");
      field.remove();
      return done;
    }
  }

  function copyButton(text, about, textContent = "Copy") {
    const button = make("button", { type: "button", className: "small copy", textContent });
    button.setAttribute("aria-label", `Copy ${about}`);
    button.addEventListener("click", async () => {
      const done = await copy(text);
      button.textContent = done ? "Copied" : "This browser doesn't let a page copy";
      button.focus();
    });
    return button;
  }

  // A text to publish as it is, with a button that copies it.
  function publish(text, about) {
    const line = make("pre", { className: "publish", tabIndex: 0, textContent: text });
    return make("div", { className: "row publishing" }, line, copyButton(text, about));
  }

  // A file with its name, what is done with it, its fingerprint, and whether it was saved. `then`
  // is called when it is.
  async function card(place, name, bytes, about, then = () => {}) {
    const print = await fingerprint(bytes);
    const state = make("span", { className: "odd state-of-file", textContent: "Not saved yet" });
    const save = place.secretLink(name, bytes, "Save");
    save.setAttribute("aria-label", `Save ${name}`);
    save.addEventListener("click", () => {
      Object.assign(state, { className: "good state-of-file", textContent: "Saved" });
      save.classList.add("again");
      then();
    });
    const code = make("code", { className: "fingerprint", textContent: print });
    const copied = copyButton(`${name} ${print}`, `the name and fingerprint of ${name}`);
    return make(
      "div",
      { className: "kept" },
      make("h3", {}, name),
      make("p", { textContent: about }),
      make("p", { className: "row" }, save, state),
      make("p", { className: "row" }, "Fingerprint, to write down: ", code, copied),
    );
  }

  return { card, copyButton, publish, fingerprint, inFours };
})();
