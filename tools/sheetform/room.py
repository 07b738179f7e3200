"""Room for the deepest trees: a rewritten sheet may have expressions of 8,192 levels, more than a thread's usual stack holds."""
import sys
import threading

LEVELS = 200000
STACK_BYTES = 128 << 20


def with_room(work, *given):
    """What the work gives, or raises, on a stack that is deep enough."""
    ended = []

    def run():
        try:
            ended.append((work(*given), None))
        except BaseException as e:  # handed on to the caller, whatever it is
            ended.append((None, e))

    sys.setrecursionlimit(LEVELS)
    before = threading.stack_size(STACK_BYTES)
    thread = threading.Thread(target=run)
    thread.start()
    threading.stack_size(before)
    thread.join()
    result, raised = ended[0]
    if raised is not None:
        raise raised
    return result
