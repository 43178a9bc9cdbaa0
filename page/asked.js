// page/asked.js: commands of the program whose answers are waited for, one after another.
const Asked = (() => {
  const ROOM = 320 * 1024 * 1024;

  const fileOf = (bytes) => ({ file: new Blob([bytes]), from: "made on this page" });

  // The answer of a command over files, given as bytes by their names. Where the work is
  // stopped or fails the place says so, and no answer ever comes.
  function command(place, doing, words, files, more = {}) {
    const handed = Object.entries(files).map(([name, bytes]) => [name, fileOf(bytes)]);
    const room = more.wanted ? { roomSize: more.room || ROOM } : {};
    return new Promise((done) => {
      Parts.command(place, doing, words, Object.fromEntries(handed), { ...more, ...room }, done);
    });
  }

  const bytesOf = (text) => new TextEncoder().encode(text);
  const textOf = (bytes) => new TextDecoder("latin1").decode(bytes);

  // The first bytes of a file, as a text of one letter for each.
  const headOf = async (file, most) => textOf(await file.slice(0, most).arrayBuffer());

  // 64 or 32 secret digits of the browser's own generator.
  const drawn = (bytes) => Work.digits(crypto.getRandomValues(new Uint8Array(bytes)));

  // The lines that were printed.
  const linesOf = (answer) => answer.text.split("\n").slice(0, -1);

  // The first 16 digits of a digest, in fours: by them people tell a file apart.
  const fingerprint = (digest) => digest.slice(0, 16).match(/.{4}/g).join(" ");

  return { command, bytesOf, textOf, headOf, drawn, linesOf, fingerprint };
})();
