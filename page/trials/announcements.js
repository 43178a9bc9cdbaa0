// Hands announcements to the page, each as its bytes in base64, and tells what is said of each.
async function announcements(all) {
  const field = document.getElementById("announced-announcement");
  const told = document.getElementById("announced-told");
  const about = document.getElementById("announced-announcement-told");
  const card = document.getElementById("announced-card");
  const pause = (time) => new Promise((done) => setTimeout(done, time));
  const said = [];
  for (const [place, text] of all.entries()) {
    const bytes = Uint8Array.from(atob(text), (letter) => letter.charCodeAt(0));
    const held = new DataTransfer();
    held.items.add(new File([bytes], `announcement-${place}`));
    field.files = held.files;
    field.dispatchEvent(new Event("change", { bubbles: true }));
    const isThere = () =>
      about.textContent.startsWith(`announcement-${place}, `) &&
      (told.textContent || about.textContent.includes("another file"));
    while (!isThere()) {
      await pause(5);
    }
    said.push(card.hidden ? told.textContent || about.textContent : "taken");
    if (!card.hidden) {
      document.getElementById("announced-away").click();
    }
    told.textContent = "";
  }
  return said;
}
