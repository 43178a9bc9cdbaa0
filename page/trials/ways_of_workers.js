// Asks for an address in each way that a Worker has. What is refused may throw, or say nothing.
async function waysOfWorkers(at) {
  const ways = [
    () => fetch(at),
    () => {
      const request = new XMLHttpRequest();
      request.open("GET", at, false);
      request.send();
    },
    () => importScripts(at),
    () => import(at),
    () => new WebSocket(at.replace("http", "ws")),
    () => new EventSource(at),
  ];
  for (const way of ways) {
    try {
      await way();
    } catch {
      // That is how it should be.
    }
  }
}
