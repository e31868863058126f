"""Work in a thread of its own, and what is said of it meanwhile: the library is one call, so that is the time gone by."""
import sys
import threading
import time

FIRST, EVERY = 2.0, 5.0   # seconds


def with_progress(work, about, err=None):
    """The answer of `work`, with a line on standard error now and then. It can be stopped from the keyboard."""
    err = err or sys.stderr
    answer, raised, done = [], [], threading.Event()

    def run():
        try:
            answer.append(work())
        except BaseException as error:
            raised.append(error)
        finally:
            done.set()
    start = time.monotonic()
    threading.Thread(target=run, daemon=True).start()
    wait = FIRST
    while not done.wait(wait):
        print(f"building: {time.monotonic() - start:.0f} s of about {about}", file=err, flush=True)
        wait = EVERY
    if raised:
        raise raised[0]
    return answer[0]
