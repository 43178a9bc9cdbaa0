// page/way.js: a bidder's way in five steps, and where one is on it.
const Way = (() => {
  const { find } = Fields;
  const STEPS = ["announcement", "bid", "keep", "look", "check"];

  // The step that is shown; and whether somebody went further than the first one
  const state = { at: "announcement", begun: false };

  // What is asked before a step is left for one behind it; a sentence where that can't be yet
  const guards = { keep: () => "" };

  // What is done before a step is shown
  const entering = { check: () => {} };

  const isBehind = (step, other) => STEPS.indexOf(step) > STEPS.indexOf(other);

  function show() {
    for (const step of STEPS) {
      const button = find(`way-${step}`);
      if (step === state.at) {
        button.setAttribute("aria-current", "step");
      } else {
        button.removeAttribute("aria-current");
      }
      button.parentElement.className = isBehind(state.at, step) ? "done" : "";
      const part = find(`step-${step}`);
      if (part) {
        part.hidden = step !== state.at;
      }
    }
  }

  // Goes to a step, unless the one before it holds one back: then that is said there.
  function go(step) {
    const guard = guards[state.at];
    const why = guard && isBehind(step, state.at) ? guard() : "";
    if (why) {
      return false;
    }
    if (entering[step]) {
      entering[step]();
    }
    state.at = step;
    state.begun = state.begun || step !== "announcement";
    show();
    Page.choose(step === "check" ? "check" : "bid");
    const head = find(`way-${step}`);
    head.focus();
    scrollTo(0, Math.max(0, find("way").offsetTop - 8));
    return true;
  }

  // A tab was chosen by itself: the way stands above its steps, and above Check once it was begun.
  function chosen(tab) {
    if (tab === "check" && state.begun) {
      state.at = "check";
    } else if (tab === "bid" && state.at === "check") {
      state.at = "look";
    }
    show();
    find("way").hidden = !(tab === "bid" || (tab === "check" && state.begun));
  }

  function begin() {
    STEPS.forEach((step) => find(`way-${step}`).addEventListener("click", () => go(step)));
    document.querySelectorAll("[data-go]").forEach((button) => {
      button.addEventListener("click", () => go(button.dataset.go));
    });
    const named = location.hash.replace("#step-", "");
    if (STEPS.includes(named) && location.hash.startsWith("#step-")) {
      go(named);
    } else {
      show();
    }
  }

  return { begin, go, chosen, guards, entering };
})();
