// page/sell_guard.js: one tab and one line of copies for each auction, as far as a browser knows.
//
// The browser keeps, by the auction's id, the number and the digest of the last house that was
// opened after it was saved. It keeps no secret.
const Guard = (() => {
  // Milliseconds in which another tab answers
  const HEARING = 400;

  const nameOf = (id) => `vickrey-sell-${id}`;
  const RECORD = /^([1-9][0-9]{0,3}) ([0-9a-f]{64})$/;

  // ---- The last house that this browser knows of

  // Its number and digest; null where there is none; undefined where the browser keeps nothing.
  function recall(id) {
    try {
      const found = RECORD.exec(localStorage.getItem(nameOf(id)) || "");
      return found ? { number: Number(found[1]), digest: found[2] } : null;
    } catch {
      return undefined;
    }
  }

  // Whether it is kept.
  function remember(id, number, digest) {
    try {
      localStorage.setItem(nameOf(id), `${number} ${digest}`);
      return recall(id).digest === digest;
    } catch {
      return false;
    }
  }

  // What there is against a house with this digest: a sentence, or nothing.
  function against(house, digest) {
    const known = recall(house.said.id);
    if (!known || (known.number === house.number && known.digest === digest)) {
      return "";
    }
    if (known.number > house.number) {
      return (
        `This is an older copy: house ${house.number} of this auction, and this browser has seen ` +
        `house ${known.number}. Open that one. Whoever went on from an older copy could answer a ` +
        "second challenge, and so give every bid away."
      );
    }
    const before = [...house.earlier, digest][known.number - 1];
    if (before !== known.digest) {
      return (
        `This house comes from another copy: house ${known.number} that this browser has seen ` +
        "isn't among those that it was made of. Two lines of one auction could answer two " +
        "challenges. Go on with the one whose board is public, and destroy the other."
      );
    }
    return "";
  }

  // ---- One tab for each auction

  // A Web Lock: how to let go of it; null where another tab has it; undefined where there are none.
  function lock(name) {
    return new Promise((done) => {
      const hold = (held) => {
        if (!held) {
          done(null);
          return undefined;
        }
        return new Promise((release) => done(release));
      };
      try {
        navigator.locks.request(name, { ifAvailable: true }, hold).catch(() => done(undefined));
      } catch {
        done(undefined);
      }
    });
  }

  // The same by messages between tabs, in a browser without locks: who holds an auction answers who
  // asks. Of two that ask at once the one with the lower number has it.
  function claim(name) {
    let channel = null;
    try {
      channel = new BroadcastChannel(name);
    } catch {
      return Promise.resolve(undefined);
    }
    const own = crypto.getRandomValues(new Uint32Array(1))[0];
    let held = false;
    return new Promise((done) => {
      const end = setTimeout(() => {
        held = true;
        done(() => channel.close());
      }, HEARING);
      channel.onmessage = ({ data }) => {
        if (data.asks !== undefined && (held || own < data.asks)) {
          channel.postMessage({ taken: data.asks });
        } else if (data.asks !== undefined) {
          channel.postMessage({ asks: own });
        } else if (data.taken === own && !held) {
          clearTimeout(end);
          channel.close();
          done(null);
        }
      };
      channel.postMessage({ asks: own });
    });
  }

  // Holds an auction for this tab, as `lock` answers; by whatever this browser has.
  async function hold(id) {
    const locked = await lock(nameOf(id));
    return locked === undefined ? claim(nameOf(id)) : locked;
  }

  return { recall, remember, against, hold };
})();
