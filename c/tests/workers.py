#!/usr/bin/env python3
"""derrimas.workers over the library: threads run each entry once and release the lock meanwhile; exceptions of procedures; time limits; refusals; the ends of a
scope and of a program."""
import os, subprocess, sys, threading, time
HERE = os.path.dirname(os.path.abspath(__file__))
sys.path.insert(0, os.path.normpath(os.path.join(HERE, '..', 'python')))
from derrimas.finalizers import Finalizers, Kind, Refused
from derrimas.workers import Workers
checks, failures = 0, 0


def check(found, wanted, where):
    global checks, failures
    checks += 1
    if found != wanted:
        failures += 1
        print(f'{where}: {found}, not {wanted}')


def refusal(call, *arguments):
    try:
        return call(*arguments)
    except Refused as why:
        return why.name


def queue(finalizers, lock, workers, numbers):
    """Queues an entry for each number, and publishes them."""
    with lock:
        for number in numbers:
            finalizers.register(number, proc=0, cd=number * number)
        finalizers.queue_all()
        workers.publish()


def runs_each_once():
    finalizers, lock, ran, threads = Finalizers(), threading.Lock(), [], set()

    def run(entry):
        with lock:  # a procedure may hold it and make calls
            ran.append((entry.obj, entry.cd, finalizers.counts().held > 0))
        threads.add(threading.get_ident())
        time.sleep(.001)
    with Workers(finalizers, lock, run, 4) as workers:
        check(workers.started, 4, 'started')
        for round in range(5):
            queue(finalizers, lock, workers, range(1 + 100 * round, 101 + 100 * round))
        check(workers.wait(), True, 'all are run')
        counts = workers.count()
        check((counts.workers, counts.published, counts.finished, counts.abandoned), (4, 500, 500, 0), 'the counts')
    check(sorted(ran), [(number, number * number, True) for number in range(1, 501)], 'each is run once')
    check(threading.get_ident() in threads or not threads, False, 'by threads of their own')
    check((finalizers.counts().waiting, finalizers.counts().held), (0, 0), 'none is left')
    for call, arguments in ((workers.publish, ()), (workers.wait, ()), (workers.wait, (1,)), (workers.stop, ()), (workers.count, ())):
        check(refusal(call, *arguments), 'NotOpen', f'{call.__name__} of workers that were stopped')


def cleanups():
    finalizers, lock, ran = Finalizers(), threading.Lock(), []
    with Workers(finalizers, lock, lambda entry: ran.append((entry.reg, entry.obj, entry.cd)), 2) as workers:
        with lock:
            numbers = [finalizers.add_cleanup(7, proc=0, cd=10 * n) for n in range(50)]
            finalizers.queue_cleanups()
            workers.publish()
        check((workers.wait(), workers.count().finished), (True, 50), 'cleanups are run')
    check(sorted(ran), [(number, 0, 10 * n) for n, number in enumerate(numbers)], 'each once, without its object')


def raises():
    finalizers, lock = Finalizers(), threading.Lock()

    def run(entry):
        raise OSError(entry.obj)
    with Workers(finalizers, lock, run, 1) as workers:
        queue(finalizers, lock, workers, [1, 2])
        raised = []
        for _ in range(2):
            try:
                workers.wait()
            except OSError as why:
                raised.append(why.args[0])
        check((raised, workers.wait(), workers.count().finished), ([1, 2], True, 2), 'what procedures raise')
        queue(finalizers, lock, workers, [3])
        try:
            workers.stop()
        except OSError as why:
            raised.append(why.args[0])
    check((raised, refusal(workers.count)), ([1, 2, 3], 'NotOpen'), 'what is raised by a stop, which stops')


def limits():
    finalizers, lock, goes = Finalizers(), threading.Lock(), threading.Event()
    with Workers(finalizers, lock, lambda entry: goes.wait(), 2) as workers:
        queue(finalizers, lock, workers, [1])
        start = time.monotonic()
        check((workers.wait(20), workers.stop(20), refusal(workers.publish)), (False, None, 'NotOpen'), 'a procedure that waits')
        check(time.monotonic() - start < 5, True, 'within the time')
        goes.set()
        check(workers.stop().finished, 1, 'stopped at last')


def refusals():
    finalizers, lock, found = Finalizers(), threading.Lock(), []
    for count in (0, 9, 2 ** 32, 2 ** 64 - 1):
        check(refusal(Workers, finalizers, lock, print, count), 'BadCount', f'{count} workers')
    with Workers(finalizers, lock, lambda entry: found.extend((refusal(workers.wait, 1), refusal(workers.stop, 1))), 1) as workers:
        queue(finalizers, lock, workers, [1])
        workers.wait()
    check(found, ['InProcedure', 'InProcedure'], 'from within a procedure')


def an_open_pass():
    finalizers, lock, ran = Finalizers(), threading.Lock(), []
    with Workers(finalizers, lock, lambda entry: ran.append(entry.obj), 2) as workers, lock:
        for number in range(1, 141):
            finalizers.register(number, proc=0, kind=Kind.UNREACHABLE if number > 70 else Kind.NORMAL)
        with finalizers.open_pass() as questions:
            while questions.next() and finalizers.counts().waiting < 10:
                continue
            workers.publish()
            lock.release()
            check(workers.wait(), True, 'what an open pass has queued is run')
            lock.acquire()
            check((len(ran) >= 10, finalizers.counts().held, questions.is_open), (True, 0, True), 'and finished')
            while questions.next():
                continue
        check(questions.did.picked, 140, 'the pass goes on')
    check((len(ran), finalizers.counts().waiting), (len(ran), 140 - len(ran)), 'what waits stays')


FORGOTTEN = """import threading
from derrimas.finalizers import Finalizers
from derrimas.workers import Workers
finalizers, lock = Finalizers(), threading.Lock()
workers = Workers(finalizers, lock, lambda entry: print('ran', entry.obj, flush=True), 3)
with lock:
    finalizers.register(7, proc=0)
    finalizers.queue_all()
    workers.publish()
"""


FREED = """import gc, threading
from derrimas.finalizers import Finalizers
from derrimas.workers import Workers
finalizers, lock, goes = Finalizers(), threading.Lock(), threading.Event()

def run(entry):
    goes.wait()
    gc.collect()
    print('ran', entry.obj, flush=True)
ring = [Workers(finalizers, lock, run, 1)]
ring.append(ring)
with lock:
    finalizers.register(7, proc=0)
    finalizers.register(8, proc=0)
    finalizers.queue_all()
    ring[0].publish()
gc.disable()
del ring
goes.set()
"""


# The program ends while the procedure runs that has freed the workers.
FREED_AT_THE_END = """import atexit, gc, threading, time
from derrimas.finalizers import Finalizers
from derrimas.workers import Workers
finalizers, lock, ends, freed = Finalizers(), threading.Lock(), threading.Event(), threading.Event()

def run(entry):
    ends.wait()
    gc.collect()
    freed.set()
    time.sleep(.2)
    print('ran', entry.obj, flush=True)
ring = [Workers(finalizers, lock, run, 1)]
ring.append(ring)
with lock:
    finalizers.register(7, proc=0)
    finalizers.register(8, proc=0)
    finalizers.queue_all()
    ring[0].publish()
gc.disable()
del ring
atexit.register(lambda: (ends.set(), freed.wait()))
"""


FORKED = """import os, sys, threading
from derrimas.finalizers import Finalizers, Refused
from derrimas.workers import Workers
finalizers, lock = Finalizers(), threading.Lock()
with Workers(finalizers, lock, print, 2) as workers:
    child = os.fork()
    if child == 0:
        try:
            workers.count()
        except Refused as why:
            print(why.name, flush=True)
        sys.exit(3)
    print(os.WEXITSTATUS(os.waitpid(child, 0)[1]), workers.count().workers)
"""


def programs():
    for program, printed, where in (
            (FORGOTTEN, 'ran 7\n', 'a program that stops no workers'), (FREED, 'ran 7\nran 8\n', 'a procedure that frees the workers'),
            (FREED_AT_THE_END, 'ran 7\nran 8\n', 'a procedure that frees the workers while the program ends'),
            (FORKED, 'NotOpen\n3 2\n', 'a forked child')):
        ended = subprocess.run([sys.executable, '-B', '-W', 'ignore', '-c', program], env={**os.environ, 'PYTHONPATH': os.path.join(HERE, '..', 'python')},
                               capture_output=True, text=True, timeout=60)
        check((ended.returncode, ended.stdout, ended.stderr), (0, printed, ''), where)


for test in (runs_each_once, cleanups, raises, limits, refusals, an_open_pass, programs):
    test()
print(f'{checks} checks, {failures} failed')
sys.exit(failures > 0)
