"""What `.ci/rt_ci` leaves for `.ci/refusals`: what the prover said of each must-fail edit that was tried, and what a check of each crate as it stands
proved, over which the edits were tried (its seed)."""
import contextlib
import hashlib
import os
import shutil
import tempfile

import kit

SAID = f"{kit.ROOT}/target/refusals/said"
SEEDS = f"{kit.ROOT}/target/refusals/seeds"


def place(rt, crate, texts):
    """The file for what is said of the crate with these texts in place of its own. Its name is a sum of them and of all that a check of the crate
    reads: whatever has changed since, what was said then is not found."""
    sum = hashlib.sha256(repr((rt.stamp_of(crate, {}), sorted(texts.items()))).encode())
    return f"{SAID}/{crate.name}/{sum.hexdigest()}.log"


def record(path, text):
    """Writes what was said apart and then renames it, so that no half of it is read. Where that fails, the edit is only tried once more."""
    with contextlib.suppress(OSError):
        os.makedirs(os.path.dirname(path), exist_ok=True)
        with tempfile.NamedTemporaryFile("w", dir=os.path.dirname(path), delete=False, encoding="utf-8") as it:
            it.write(text)
        os.replace(it.name, path)


def recorded(path):
    """What was said, or nothing where it was not recorded."""
    if not os.path.exists(path):
        return ""
    with open(path, encoding="utf-8") as it:
        return it.read()


def keep_seed(rt, crate, folder):
    """Keeps the crate's seed, mostly by links. Where that fails, a later try only proves more."""
    with contextlib.suppress(OSError, shutil.Error):
        os.makedirs(SEEDS, exist_ok=True)
        with tempfile.TemporaryDirectory(dir=SEEDS) as room:
            rt.linked(folder, f"{room}/seed")
            shutil.rmtree(f"{SEEDS}/{crate.name}", ignore_errors=True)
            os.rename(f"{room}/seed", f"{SEEDS}/{crate.name}")


def give_seed(rt, crate, to):
    """Makes the folder to, and puts the crate's seed there if it was kept. What has changed since, the prover does not take from it."""
    with contextlib.suppress(OSError, shutil.Error):
        rt.linked(f"{SEEDS}/{crate.name}", to)
        return
    os.makedirs(to, exist_ok=True)


def drop_seeds():
    shutil.rmtree(SEEDS, ignore_errors=True)
