// Stops the next sample as soon as it can be stopped, which no slow browser misses, and notes what
// its bar showed, and what each Worker was asked before and after, where Workers are watched.
function stops() {
  window.stopped = null;
  const asked = () => (window.workers || []).map((worker) => [worker.asked.slice(), worker.ended]);
  new MutationObserver((_, watcher) => {
    const row = document.querySelector("#sample-work .row");
    if (row.hidden) {
      return;
    }
    watcher.disconnect();
    const bar = row.querySelector("progress");
    const shown = [bar.value, bar.max];
    const before = asked();
    row.querySelector("button").click();
    window.stopped = { bar: shown, before, after: asked() };
  }).observe(document.querySelector("#sample-work"), { subtree: true, attributes: true });
}
