// Notes each Worker that the page makes: what it was asked, and whether it has ended. Where
// `refused` is set none is made.
window.workers = [];
window.Worker = class extends Worker {
  constructor(address) {
    if (window.refused) {
      throw new Error("none");
    }
    super(address);
    Object.assign(this, { asked: [], handed: [], ended: false });
    window.workers.push(this);
  }

  postMessage(message, ports) {
    this.asked.push(message.words ? message.words[0] : message.task);
    this.handed.push(message.module instanceof WebAssembly.Module);
    super.postMessage(message, ports || []);
  }

  terminate() {
    this.ended = true;
    super.terminate();
  }
};
