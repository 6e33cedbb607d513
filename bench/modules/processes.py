"""What builds start, and the folders in which they work: both go with what began them."""
import contextlib
import os
import shutil
import signal
import subprocess
import tempfile

import prover


@contextlib.contextmanager
def started(words, **how):
    """A command that is started, and ends with all that it has started where the block fails, or this process ends, however that is."""
    how = {"stdin": subprocess.DEVNULL, "stdout": subprocess.PIPE, "stderr": subprocess.STDOUT, **how}
    with subprocess.Popen([*prover.toolchain().rtlib.guarded(), *words], **how) as running:
        try:
            yield running
        except BaseException:
            if running.poll() is None:
                group = os.getpgid(running.pid)
                running.kill()
                # at first it is in the group of this process
                if group != os.getpgrp():
                    os.killpg(group, signal.SIGKILL)
            raise


@contextlib.contextmanager
def room(prefix):
    """A folder for a build, which goes at its end. Where the build fails nobody waits for that: on a busy disk it takes a while."""
    top = tempfile.mkdtemp(prefix=prefix)
    try:
        yield top
    except BaseException:
        nothing = subprocess.DEVNULL
        subprocess.Popen(["rm", "-rf", top], stdin=nothing, stdout=nothing, stderr=nothing, start_new_session=True)
        raise
    shutil.rmtree(top)
