"""Waits in Python: prints `NAME MILLISECONDS MICROSECONDS RESULT` for each wait. See ../main.c."""

import asyncio
import concurrent.futures
import contextlib
import fcntl
import multiprocessing
import os
import pty
import queue
import select
import selectors
import signal
import socket
import subprocess
import sys
import tempfile
import threading
import time

SOON = 0.03
LONG = 4.0
CASES = []


def case(milliseconds=30):
    """Registers a wait, and its expected duration."""

    def note(call):
        CASES.append((call.__name__, milliseconds, call))
        return call

    return note


class Rung(Exception):
    """The exception that the handler of SIGALRM raises."""


def ring(*_):
    """A signal handler that raises an exception."""
    raise Rung


def alarm():
    """Sends SIGALRM after SOON; its handler raises an exception."""
    signal.signal(signal.SIGALRM, ring)
    signal.setitimer(signal.ITIMER_REAL, SOON)


def late(call, *words):
    """Calls this function in another thread after SOON."""
    threading.Timer(SOON, call, words).start()


def raises(kind, call, *words, **options):
    """Makes a call, and returns the name of the exception that it raises."""
    try:
        return call(*words, **options)
    except kind as error:
        return type(error).__name__


@case()
def sleep():
    return time.sleep(SOON)


@case()
def os_read_alarm():
    alarm()
    return raises(Rung, os.read, os.pipe()[0], 1)


@case()
def os_read():
    reader, writer = os.pipe()
    late(os.write, writer, b"x")
    return os.read(reader, 5)


@case()
def file_readline():
    reader, writer = os.pipe()
    late(os.write, writer, b"line\n")
    return os.fdopen(reader).readline()


@case()
def select_timeout():
    return select.select([os.pipe()[0]], [], [], SOON)


@case()
def poll_timeout():
    return select.poll().poll(30)


@case()
def epoll_timeout():
    return select.epoll().poll(SOON)


@case()
def selector():
    reader, writer = os.pipe()
    chosen = selectors.DefaultSelector()
    chosen.register(reader, selectors.EVENT_READ)
    late(os.write, writer, b"x")
    return len(chosen.select(LONG))


@case()
def event_timeout():
    return threading.Event().wait(SOON)


@case()
def event():
    one = threading.Event()
    late(one.set)
    return one.wait()


@case()
def condition():
    one = threading.Condition()
    with one:
        return one.wait(SOON)


@case()
def lock_timeout():
    one = threading.Lock()
    one.acquire()
    return one.acquire(timeout=SOON)


@case()
def semaphore():
    one = threading.Semaphore(0)
    late(one.release)
    return one.acquire()


@case()
def barrier():
    one = threading.Barrier(2)
    late(one.wait)
    return one.wait()


@case()
def barrier_broken():
    return raises(threading.BrokenBarrierError, threading.Barrier(2).wait, SOON)


@case()
def join():
    thread = threading.Thread(target=time.sleep, args=(LONG,), daemon=True)
    thread.start()
    return thread.join(SOON)


@case()
def queue_empty():
    return raises(queue.Empty, queue.Queue().get, timeout=SOON)


@case()
def queue_get():
    one = queue.Queue()
    late(one.put, 5)
    return one.get()


@case()
def queue_full():
    one = queue.Queue(1)
    one.put(1)
    return raises(queue.Full, one.put, 2, timeout=SOON)


@case()
def executor():
    with concurrent.futures.ThreadPoolExecutor() as pool:
        return pool.submit(time.sleep, SOON).result()


@case()
def future_timeout():
    return raises(concurrent.futures.TimeoutError, concurrent.futures.Future().result, SOON)


@case()
def socket_timeout():
    one, _other = socket.socketpair()
    one.settimeout(SOON)
    return raises(socket.timeout, one.recv, 1)


@case()
def socket_recv():
    one, other = socket.socketpair()
    late(other.send, b"xyz")
    return one.recv(5)


@case()
def server_accept():
    server = socket.create_server(("127.0.0.1", 0))
    late(socket.create_connection, server.getsockname())
    return bool(server.accept())


@case()
def subprocess_run():
    return subprocess.run(["sh", "-c", "sleep 0.03; exit 3"], check=False).returncode


@case()
def subprocess_output():
    return subprocess.check_output(["sh", "-c", "sleep 0.03; echo hi"])


@case()
def subprocess_timeout():
    child = subprocess.Popen(["sleep", "4"])
    result = raises(subprocess.TimeoutExpired, child.wait, SOON)
    child.kill()
    return result


@case()
def fork_waitpid():
    pid = os.fork()
    if pid == 0:
        time.sleep(SOON)
        os._exit(7)
    return os.waitstatus_to_exitcode(os.waitpid(pid, 0)[1])


@case()
def pty_fork():
    pid, terminal = pty.fork()
    if pid == 0:
        time.sleep(SOON)
        os.write(1, b"hello\n")
        os._exit(0)
    return os.read(terminal, 5)


@case()
def multiprocessing_queue():
    context = multiprocessing.get_context("fork")
    one = context.Queue()
    child = context.Process(target=lambda: (time.sleep(SOON), one.put(8)))
    child.start()
    result = one.get()
    child.join()
    return result


#: This wait reads the clock in a loop until its time has passed. Virtual time advances in steps.
@case(30.01)
def multiprocessing_join():
    child = multiprocessing.get_context("fork").Process(target=time.sleep, args=(LONG,))
    child.start()
    result = child.join(SOON)
    child.kill()
    return result


@case()
def multiprocessing_lock():
    one = multiprocessing.get_context("fork").Lock()
    one.acquire()
    return one.acquire(timeout=SOON)


@case()
def signal_pause():
    signal.signal(signal.SIGALRM, lambda *_: None)
    signal.setitimer(signal.ITIMER_REAL, SOON)
    return signal.pause()


@case()
def sigwait():
    signal.pthread_sigmask(signal.SIG_BLOCK, [signal.SIGUSR1])
    late(os.kill, os.getpid(), signal.SIGUSR1)
    return int(signal.sigwait([signal.SIGUSR1]))


@case()
def sigtimedwait():
    return signal.sigtimedwait([signal.SIGUSR1], SOON)


@case()
def wakeup_fd():
    one, other = socket.socketpair()
    other.setblocking(False)
    signal.set_wakeup_fd(other.fileno())
    signal.signal(signal.SIGALRM, lambda *_: None)
    signal.setitimer(signal.ITIMER_REAL, SOON)
    return len(select.select([one], [], [], LONG)[0])


@case()
def flock():
    with tempfile.NamedTemporaryFile() as one, open(one.name, "rb") as again:
        fcntl.flock(one, fcntl.LOCK_EX)
        late(fcntl.flock, one, fcntl.LOCK_UN)
        return fcntl.flock(again, fcntl.LOCK_EX)


@case()
def asyncio_sleep():
    return asyncio.run(asyncio.sleep(SOON))


@case()
def asyncio_timeout():
    async def wait():
        await asyncio.wait_for(asyncio.Event().wait(), SOON)

    return raises(asyncio.TimeoutError, asyncio.run, wait())


@case()
def asyncio_gather():
    async def wait():
        return await asyncio.gather(asyncio.sleep(SOON, 1), asyncio.sleep(SOON / 2, 2))

    return asyncio.run(wait())


@case()
def asyncio_process():
    async def wait():
        child = await asyncio.create_subprocess_exec("sh", "-c", "sleep 0.03; exit 4")
        return await child.wait()

    return asyncio.run(wait())


@case()
def asyncio_executor():
    return asyncio.run(asyncio.to_thread(time.sleep, SOON))


@case()
def asyncio_signal():
    async def wait():
        come = asyncio.Event()
        asyncio.get_running_loop().add_signal_handler(signal.SIGALRM, come.set)
        signal.setitimer(signal.ITIMER_REAL, SOON)
        await come.wait()
        return "come"

    return asyncio.run(wait())


def main():
    """Performs all waits at the same time, each in a separate process."""
    children = []
    for name, milliseconds, call in CASES:
        reader, writer = os.pipe()
        if os.fork() == 0:
            signal.alarm(0)
            begun = time.monotonic()
            with contextlib.suppress(OSError):
                result = call()
                micro = round((time.monotonic() - begun) * 1e6)
                os.write(writer, f"{name} {milliseconds} {micro} {result}".replace("\n", " ").encode())
            os._exit(0)
        os.close(writer)
        children.append(reader)
    for reader in children:
        with os.fdopen(reader) as file:
            print(file.read())


if __name__ == "__main__":
    sys.exit(main())
