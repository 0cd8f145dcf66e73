"""All that `checks/run` tries, and how it is run: many at once, each kept from stopping the others."""
import multiprocessing
import time
import traceback

import cases
import contracts
import documents
import hostile
import live
import order
import peers
import random_history
import random_scripts
import tables
import trial

SEEDS = {'hostile': 40, 'scripts': 6, 'history': 16}
LOOK_UPS = (documents.look_up, contracts.try_all, order.try_all)
# What a process of the pool has from the one that made it.
found_jobs = []


def jobs():
    """Each is a call that tells how many runs there were and what failed; those that take long first."""
    return (live.jobs() + peers.jobs() + random_history.jobs(SEEDS['history']) + random_scripts.jobs(SEEDS['scripts']) + cases.jobs() + tables.jobs()
            + documents.jobs() + hostile.jobs(SEEDS['hostile']))


def do(place):
    """One job, by its place; a job that stumbles over an answer has failed."""
    call, *what = found_jobs[place]
    try:
        return call(*what)
    except Exception:
        return 1, [(f'{call.__module__}.{call.__name__} {str(what)[:80]}', traceback.format_exc(limit=-2), 'no such end')]


def look_up(place):
    """One kind of look-ups: how many were right, and what failed."""
    try:
        return LOOK_UPS[place]()
    except Exception:
        return 0, [(LOOK_UPS[place].__module__, traceback.format_exc(limit=-2), 'no such end')]


def gathered(answers, count, ends=None):
    """What comes of so many jobs in time; a job that does not come has failed. A fault that ends it ends it."""
    numbers, failed = 0, []
    for place in range(count):
        try:
            number, faults = answers.next(timeout=max(0.1, trial.settings['until'] + 10 - time.monotonic()))
        except multiprocessing.TimeoutError:
            return numbers, failed + [(f'{count - place} jobs', 'no end in time', 'an end')]
        numbers, failed = numbers + number, failed + faults
        if ends is not None and any(map(ends, faults)):
            break
    return numbers, failed


def pool_of(workers, these):
    """Processes, and not threads: half of the work is that of the judges."""
    found_jobs[:] = these
    return multiprocessing.get_context('fork').Pool(workers)


def run_all(workers):
    """The numbers of runs and of look-ups, each with what failed."""
    with pool_of(workers, jobs()) as pool:
        looked = pool.imap_unordered(look_up, range(len(LOOK_UPS)))
        runs = gathered(pool.imap_unordered(do, range(len(found_jobs))), len(found_jobs))
        names = gathered(looked, len(LOOK_UPS))
        pool.terminate()
    return runs, names


def run_some(workers, these, ends):
    """What fails of these jobs, up to the first fault that ends it."""
    with pool_of(workers, these) as pool:
        _, failed = gathered(pool.imap_unordered(do, range(len(these))), len(these), ends)
        pool.terminate()
    return failed
