// portable/helper.js: the two calls of the system that node has none for, made by a helper on a file
// that it is handed as its standard input.
//
// The lock of an open file (F_OFD_SETLK) belongs to the open file and not to a process: so the helper
// takes it, and ends, and it stays until this process closes the file, or ends, however that ends.
// The built program and sqlite3 see it as any other. And whoever has a file open can tell the system
// to drop its copies of the file's pages (posix_fadvise). A helper that locked does that too, since
// to start one takes longer than what it does.
//
// Any tool that can make a call of the system will do; these two are nearly everywhere. There is no
// other way round: without them nothing is locked, and it is said.
"use strict";

const SET_LOCK = 37; // F_OFD_SETLK
const ADVISE = process.arch === "x64" ? 221 : 223; // the number of the call fadvise64
const DROP_COPIES = 4; // POSIX_FADV_DONTNEED

// How a helper ends that locked the file, and couldn't drop the copies.
const LOCKED_ALONE = 200;

// A helper is given the call and its words. It ends with 0 where the call did, with the number of
// the system's error where it failed, and with 255 where the helper can't make it.
const PERL = `
my ($call, @words) = @ARGV;
sub advise { my @given = map { $_ + 0 } @_; syscall(${ADVISE}, 0, @given) == 0 }
my $done = eval {
  $call eq "lock" ? fcntl(STDIN, ${SET_LOCK}, pack("s2x4q2lx4", $words[0], 0, @words[1, 2], 0))
                  : advise(@words);
};
exit($@ ? 255 : $! + 0) if !$done;
exit($call eq "advise" || eval { advise(0, 0, ${DROP_COPIES}) } ? 0 : ${LOCKED_ALONE});
`;
const PYTHON = `
import fcntl, os, struct, sys
words = [int(word) for word in sys.argv[2:]]
try:
    if sys.argv[1] == "lock":
        fcntl.fcntl(0, ${SET_LOCK}, struct.pack("=hh4xqql4x", words[0], 0, *words[1:], 0))
    else:
        os.posix_fadvise(0, *words)
except OSError as error:
    sys.exit(error.errno)
except BaseException:
    sys.exit(255)
try:
    if sys.argv[1] == "lock":
        os.posix_fadvise(0, 0, 0, ${DROP_COPIES})
except BaseException:
    sys.exit(${LOCKED_ALONE})
`;
const HELPERS = [
  ["perl", ["-e", PERL]],
  ["python3", ["-I", "-S", "-c", PYTHON]],
];

const NO_CALL = 38; // ENOSYS

// How a helper is started: with nothing of the environment but where programs are.
function surroundings(file) {
  const { PATH } = process.env;
  return { stdio: [file, "ignore", "ignore"], env: PATH === undefined ? {} : { PATH } };
}

// Whether a helper that ended so made the call. With 126 and 127 a shell says that it couldn't start
// what it was asked to, and no lock and no advice has such an error.
const hasTried = ({ error, signal, status }) =>
  !error && signal === null && (status < 126 || status === LOCKED_ALONE);

// Why a helper didn't make the call: what the system said of its start, or how it ended.
const reasonOf = (name, { error, signal, status }) =>
  `${name}: ${error?.code ?? signal ?? `status ${status}`}`;

// Makes the call on the open file, and answers 0, the number of an error, or LOCKED_ALONE.
function callOn(file, words, say) {
  const { spawnSync } = require("child_process"); // which few commands want
  const reasons = [];
  for (const [name, before] of HELPERS) {
    const ended = spawnSync(name, [...before, ...words.map(String)], surroundings(file));
    if (hasTried(ended)) {
      return ended.status;
    }
    reasons.push(reasonOf(name, ended));
  }
  const names = HELPERS.map(([name]) => name).join(" nor ");
  say(
    `vickrey: a store can't be locked here: there is neither ${names} that could ask Linux for the ` +
      `lock (${reasons.join(", ")})`,
  );
  return NO_CALL;
}

// Locks so many bytes of the open file from a start on, shares them, or gives them up, by its kind.
// It answers 0, or the number of an error, and whether the copies of the file's pages were dropped.
function lockRange(file, kind, start, length, say) {
  const answer = callOn(file, ["lock", kind, start, length], say);
  return { error: answer === LOCKED_ALONE ? 0 : answer, hasDropped: answer === 0 };
}

// Tells the system what the open file will be read like.
function advise(file, start, length, advice, say) {
  return callOn(file, ["advise", start, length, advice], say);
}

module.exports = { advise, DROP_COPIES, lockRange };
