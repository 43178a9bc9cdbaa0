// Asks for an address in the way that is named first. What is refused may throw, or say nothing.
async function ways(name, at) {
  const put = (tag, properties, parent = document.body) => {
    const element = Object.assign(document.createElement(tag), properties);
    parent.append(element);
    return element;
  };
  const ways = {
    fetch: () => fetch(at),
    "fetch-without-answer": () => fetch(at, { mode: "no-cors" }),
    request() {
      const request = new XMLHttpRequest();
      request.open("GET", at);
      request.send();
    },
    beacon: () => navigator.sendBeacon(at, "x"),
    image: () => put("img", { src: at }),
    script: () => put("script", { src: at }),
    style: () => put("link", { rel: "stylesheet", href: at }, document.head),
    prefetch: () => put("link", { rel: "prefetch", href: at }, document.head),
    frame: () => put("iframe", { src: at }),
    object: () => put("object", { data: at }),
    sound: () => put("audio", { src: at }).load(),
    font: () => new FontFace("x", `url(${at})`).load(),
    events: () => new EventSource(at),
    socket: () => new WebSocket(at.replace("http", "ws")),
    worker: () => new Worker(at),
    import: () => import(at),
    form: () => put("form", { action: at, target: "x" }).submit(),
    post: () => put("form", { action: at, method: "post" }).requestSubmit(),
  };
  if (name) {
    await ways[name]();
  }
  return Object.keys(ways);
}
