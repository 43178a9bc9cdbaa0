// page/page.js: begins the page, or the end of it that works in a Worker.
const Page = (() => {
  const { find, notice } = Fields;

  const tabs = () => [...document.querySelectorAll("[role=tab]")];

  // Shows one tab, and hides the others.
  function choose(name) {
    tabs().forEach((tab) => {
      const chosen = tab.id === `tab-${name}`;
      tab.setAttribute("aria-selected", String(chosen));
      tab.tabIndex = chosen ? 0 : -1;
      find(tab.getAttribute("aria-controls")).hidden = !chosen;
    });
    Way.chosen(name);
    Announced.goOn();
    notice("");
  }

  const nameOf = (tab) => tab.id.replace("tab-", "");

  // Arrows go from tab to tab, as the pattern of tabs has it.
  function step(event) {
    const all = tabs();
    const at = all.indexOf(event.target);
    const places = { ArrowRight: at + 1, ArrowLeft: at - 1, Home: 0, End: -1 };
    if (!(event.key in places)) {
      return;
    }
    event.preventDefault();
    const tab = all.at(places[event.key] % all.length);
    choose(nameOf(tab));
    tab.focus();
  }

  function beginTabs() {
    tabs().forEach((tab) => tab.addEventListener("click", () => choose(nameOf(tab))));
    find("tabs").addEventListener("keydown", step);
    const named = location.hash.slice(1);
    if (tabs().some((tab) => nameOf(tab) === named)) {
      choose(named);
    }
  }

  // The module's bytes, which stand in the page as base64.
  function codeOf(element) {
    const text = atob(element.textContent.replace(/\s/g, ""));
    return Uint8Array.from(text, (letter) => letter.charCodeAt(0));
  }

  // Where the Worker's script lies: this very script. Where a browser asks for it, that one address
  // is all that the page may ever run.
  function workerAddress(script) {
    const address = URL.createObjectURL(new Blob([script], { type: "text/javascript" }));
    if (!globalThis.trustedTypes) {
      return address;
    }
    const policy = trustedTypes.createPolicy("page", { createScriptURL: () => address });
    return policy.createScriptURL("");
  }

  // Tells at once where this browser can't run the module.
  function tryModule() {
    Parts.moduleJob(new Parts.Place(find("module-work")), (digest) => {
      find("module-digest").textContent = digest;
      performance.mark("ready");
    });
  }

  // Who leaves while a secret isn't saved is asked first.
  function askBeforeLeaving() {
    window.addEventListener("beforeunload", (event) => {
      if (Parts.unsaved.size) {
        event.preventDefault();
      }
    });
  }

  function begin(script) {
    Parts.setting.code = codeOf(find("module"));
    Parts.setting.queue = new Work.Queue(workerAddress(script));
    document.querySelectorAll(".file").forEach(Fields.beginFile);
    Fields.beginDrops();
    [Announced, Check, Bid, Look, Audit].forEach((part) => part.begin());
    beginTabs();
    Way.begin();
    askBeforeLeaving();
    tryModule();
    [Sell, Rehearsal].forEach((part) => part.begin());
  }

  return { begin, choose };
})();

if (typeof document === "object") {
  Page.begin(document.currentScript.textContent);
} else {
  Work.serve(globalThis);
}
