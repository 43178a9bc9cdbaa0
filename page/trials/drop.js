// Drops files that are made here, or a text, on an element. None of that is left to the browser.
function drop(selector, files, text) {
  const held = new DataTransfer();
  files.forEach(([name, content]) => held.items.add(new File([content], name)));
  if (text) {
    held.setData("text/plain", text);
  }
  const at = document.querySelector(selector);
  for (const kind of ["dragenter", "dragover", "drop"]) {
    const event = new DragEvent(kind, { dataTransfer: held, bubbles: true, cancelable: true });
    at.dispatchEvent(event);
    if (!event.defaultPrevented) {
      throw new Error(`${kind} is left to the browser`);
    }
  }
}
