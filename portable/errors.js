// portable/errors.js: errors of node as the numbers that Linux has for them.
"use strict";

// The numbers of Linux, by the names that every system has for its errors.
const NUMBERS = {
  EPERM: 1, ENOENT: 2, EINTR: 4, EIO: 5, ENXIO: 6, EBADF: 9, EAGAIN: 11, ENOMEM: 12, EACCES: 13,
  EBUSY: 16, EEXIST: 17, EXDEV: 18, ENODEV: 19, ENOTDIR: 20, EISDIR: 21, EINVAL: 22, ENFILE: 23,
  EMFILE: 24, ETXTBSY: 26, EFBIG: 27, ENOSPC: 28, ESPIPE: 29, EROFS: 30, EMLINK: 31, EPIPE: 32,
  EDEADLK: 35, ENAMETOOLONG: 36, ENOLCK: 37, ENOSYS: 38, ELOOP: 40, EOVERFLOW: 75, EOPNOTSUPP: 95,
  ESTALE: 116, EDQUOT: 122,
};

// What the error of a call of the system is to the program: a number below 0. An error that has no
// number here is one of input or output; what isn't the system's own is handed on.
function answerOf(error) {
  if (error instanceof RangeError || error.code === "ERR_OUT_OF_RANGE") {
    return -NUMBERS.EINVAL;
  }
  if (typeof error.syscall !== "string") {
    throw error;
  }
  return -(NUMBERS[error.code] ?? NUMBERS.EIO);
}

module.exports = { NUMBERS, answerOf };
