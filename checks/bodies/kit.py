"""What the kit says of a crate, and the commands that it gives."""
import json
import os
import subprocess
import sys

# What `rt must-fail` asks of the kit's own Python before it tries an edit, for which `rt` has no
# command: the words of a check of the crate here, what below it isn't built, and a sum of all that
# it stands on, with each crate's sum made once. Where the kit is another one, it says so.
QUESTION = """
import functools
import json
import os
import sys

sys.path.insert(0, sys.argv[1])
try:
    import rtlib

    rtlib.Crate.stamp = functools.lru_cache(maxsize=None)(rtlib.Crate.stamp)
    crate = rtlib.Crate(os.getcwd(), rtlib.root_above(os.getcwd()), {})
    said = {"unbuilt": [low.name for low in crate.below() if not low.is_built()]}
    said["built"] = crate.makes_rlib() and crate.is_built()
    said["sum"] = crate.stamp()
    said["words"] = [rtlib.RATTLE, "check", *crate.words(["--jobs", "1"], keeps=False)]
except (ImportError, AttributeError, TypeError) as error:
    sys.exit(f"checks/edits.py: rattle-kit-13b and 13f will do, and this kit is another: {error}")
print(json.dumps(said))
"""


def output(words, folder):
    """The status of a command in this folder, all that it says, and its seconds of a processor."""
    with subprocess.Popen(words, cwd=folder, stdin=subprocess.DEVNULL, stdout=subprocess.PIPE,
                          stderr=subprocess.STDOUT) as ran:
        said = ran.stdout.read().decode("utf-8", "replace")
        _, status, used = os.wait4(ran.pid, 0)
        ran.returncode = os.WEXITSTATUS(status) if os.WIFEXITED(status) else -os.WTERMSIG(status)
    return ran.returncode, said, used.ru_utime + used.ru_stime


def asked(folder, tools):
    """What the kit, whose programs lie in `tools`, says of the crate of this folder."""
    words = [sys.executable, "-B", "-c", QUESTION, tools]
    status, said, _ = output(words, folder)
    return sys.exit(said.strip()) if status else json.loads(said)
