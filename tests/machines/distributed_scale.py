"""Tests distributed runs of many tasks and inputs: the scheduler stays awake, the driver small, and fifty machines
busy. These are simulated: threads that sleep while a store would answer. tests/machines/distributed.py says what it
needs.
"""
import os
import pathlib
import resource
import subprocess
import tempfile

import dask_cluster
import distributed as runs
import preload

LINE = runs.LINE
STORE = pathlib.Path(__file__).resolve().with_name("simulated_store")
TASKS, FILES = 1000, 1500
EMPTY_TASKS, MOST_SILENT = 20_000, 2  # seconds
# Objects of 100 MB in blocks of 64 MB, of which a connection to the store takes 50 MB a second. Here a byte is a
# thousand. 100,000 of them are 10 TB, and of these the test answers some.
OBJECTS, SOME, BYTES, BLOCK, SPEED = 100_000, 1000, 100_000, 64_000, 50_000
MACHINES, THREADS, PROCESSES = 50, 4, 4
MOST_MEGABYTES = 400
# The scheduler looks ten times a second how long it has worked since, by processor time, which other programs do not
# take. Meanwhile it answers nobody.
WATCH = """
def watch(dask_scheduler):
    import asyncio, time
    dask_scheduler.worst = 0.0
    async def look():
        while True:
            began = time.process_time()
            await asyncio.sleep(0.1)
            dask_scheduler.worst = max(dask_scheduler.worst, time.process_time() - began)
    dask_scheduler.looking = asyncio.ensure_future(look())
client.run_on_scheduler(watch)
"""
# A run of tasks that take no time. Each byte of the input is a block, and a worker answers without a look at it.
EMPTY = """
import argparse, sys
from distributed import Client, get_worker
from fsspec.implementations.local import LocalFileSystem
from sdtool.distributed import engine, work
address, out, size = sys.argv[1], sys.argv[2], int(sys.argv[3])
given = work.Given(LocalFileSystem(), "/empty", None, out + "/empty", out, {"size": size, "ino": 1}, True)
wanted = argparse.Namespace(block=1, retries=0, wait=600, slowest=1)
made = engine.Engine(work.Work("sdtool-1", ["convert"], "", "", out, False), [given], wanted, print)
done = "done", {"lines": 1, "errors": 0, "bytes": 1}
made.do = lambda count, *given: (get_worker().address, [done] * count)
made.run(Client(address, set_as_default=False))
assert made.jobs[0].came == done[1]
print(made.blocks_done)
"""
# What a driver has in memory when it has taken all inputs and each has its counts.
DRIVER = """
import argparse, resource
from sdtool.distributed import bounded, engine, inputs, work
place = work.Place(*inputs.opened("s3://out"))
taking = inputs.Taking(place, False, bounded.Bounded(600))
taking.take_all(["s3://inputs"])
wanted = argparse.Namespace(block=64_000_000, retries=0, wait=60, slowest=1)
made = engine.Engine(work.Work("sdtool-1", ["convert"], "", "", "s3://out", False), taking.inputs, wanted, print)
for job in made.jobs:
    made.begin(job)
    made.finished(made.waiting.popleft(), {"lines": 1, "errors": 0, "bytes": 5})
assert not made.left
print(len(made.jobs), resource.getrusage(resource.RUSAGE_SELF).ru_maxrss // 1024)
"""


def processor_seconds(child):
    """What a process that runs has taken."""
    fields = pathlib.Path(f"/proc/{child.pid}/stat").read_text(encoding="ascii").rpartition(")")[2].split()
    return (int(fields[11]) + int(fields[12])) / os.sysconf("SC_CLK_TCK")


def start_worker(place, address, threads, environment=None):
    place.start_of_dask("dask_worker", address, "--nthreads", str(threads), "--no-nanny", "--memory-limit", "0",
                        environment=environment)


def test_tasks(count, place):
    """Many tasks, each of one line, and many small files."""
    place.write("tasks", LINE * TASKS)
    for number in range(FILES):
        place.write(f"files/{number}", LINE * 16)
    _, address = place.start_scheduler()
    for _ in range(2):
        start_worker(place, address, 8)
    place.wait_for_workers(address, 2)
    for given, block, made in ("tasks", str(len(LINE)), 1), ("files", "64000000", FILES):
        out = place.out()
        began = runs.time.monotonic()
        got = place.run(out, ["convert"], [given], ["--scheduler", address, "--block", block])
        print(f"{made if made > 1 else TASKS:,} {given}: {runs.time.monotonic() - began:.0f} s")
        files = {"tasks": "tasks"} if made == 1 else {str(number): f"files/{number}" for number in range(0, FILES, 100)}
        answers = runs.answers_in(out)
        is_right = all(answers[name] == place.wanted(["convert"], file)[0] for name, file in files.items())
        count.add(got.status == 0 and len(answers) == made and is_right, f"many {given}: {got}")


def test_silence(count, place):
    """So many tasks of Dask: the scheduler looks at other things too."""
    _, address = place.start_scheduler()
    for _ in range(2):
        start_worker(place, address, 2)
    place.wait_for_workers(address, 2)
    place.asked(address, WATCH)
    began = runs.time.monotonic()
    got = runs.ended(place.start([place.python, "-c", EMPTY, address, place.out(), str(EMPTY_TASKS)],
                                 stdout=subprocess.PIPE, stderr=subprocess.PIPE))
    silent = float(place.asked(address, "print(client.run_on_scheduler(lambda dask_scheduler: dask_scheduler.worst))"))
    print(f"{EMPTY_TASKS:,} empty tasks: {runs.time.monotonic() - began:.0f} s, and the scheduler was silent for at "
          f"most {silent:.2f} s")
    count.add(got.stdout.split()[-1:] == [str(EMPTY_TASKS)], f"many tasks: {got}")
    count.add(0 < silent < MOST_SILENT, f"the scheduler was silent for {silent} seconds")


def simulated(place, name, objects, length, seconds=0.02):
    folder = place.folder / name
    folder.mkdir()
    return {"SIMULATED": str(objects), "SIMULATED_BYTES": str(length), "SIMULATED_SPEED": str(SPEED),
            "SIMULATED_SECONDS": str(seconds), "SIMULATED_FOLDER": str(folder),
            "PYTHONPATH": f"{place.modules}:{STORE}"}


def test_driver(count, place):
    """A driver of so many inputs needs little memory."""
    environment = {**simulated(place, "many objects", OBJECTS, len(LINE), 0), "SIMULATED_SPEED": "1e9"}
    got = runs.ended(place.start([place.python, "-c", DRIVER], environment, stdout=subprocess.PIPE,
                                 stderr=subprocess.PIPE))
    made, megabytes = map(int, got.stdout.split() or (0, 0))
    print(f"a driver of {made:,} inputs has had {megabytes} MB")
    count.add(made == OBJECTS and megabytes < MOST_MEGABYTES, f"a driver of many inputs: {megabytes} MB: {got}")


def test_machines(count, place):
    """So many machines: the scheduler and the driver take less time for a task than the machines do."""
    environment = simulated(place, "store", SOME, BYTES)
    scheduler, address = place.start_scheduler()
    for _ in range(PROCESSES):
        start_worker(place, address, MACHINES * THREADS // PROCESSES, environment)
    place.wait_for_workers(address, PROCESSES)
    before, children = processor_seconds(scheduler), resource.getrusage(resource.RUSAGE_CHILDREN)
    began = runs.time.monotonic()
    words = ["convert", "--to", "hex"]
    child = place.start_run("s3://out", words, ["s3://inputs"], ["--scheduler", address, "--block", str(BLOCK)],
                            environment)
    got = runs.ended(child)
    taken, after = runs.time.monotonic() - began, resource.getrusage(resource.RUSAGE_CHILDREN)
    place.write("one", (LINE * (BYTES // len(LINE) + 1))[:BYTES])
    wanted, _ = place.wanted(words, "one")
    answers = [path.read_bytes() for path in (place.folder / "store/out").iterdir() if path.is_file()]
    count.add(got.status == 1 and answers == [wanted] * SOME, f"many machines: {len(answers)} answers: {got}")
    driver_asked, *asked = sorted((path.stat().st_size for path in (place.folder / "store").glob("asked-*")),
                                  key=lambda size: size != (place.folder / f"store/asked-{child.pid}").stat().st_size)
    blocks = SOME * -(-BYTES // BLOCK)
    tasks = blocks + SOME
    # All bytes go from the store and there as parts, and once more when they are joined.
    ideal = SOME * 4 * BYTES / SPEED / (MACHINES * THREADS)
    of_scheduler = (processor_seconds(scheduler) - before) / tasks
    of_driver = (after.ru_utime + after.ru_stime - children.ru_utime - children.ru_stime) / tasks
    print(f"{MACHINES} machines, {SOME:,} of {OBJECTS:,} objects: {taken:.0f} seconds, {ideal:.0f} for bytes alone; "
          f"{tasks / ideal:.0f} tasks a second keep all busy. Processor time of a task: scheduler "
          f"{1000 * of_scheduler:.1f} ms, driver {1000 * of_driver:.1f} ms. Requests: driver {driver_asked / SOME:.2f} "
          f"an object, workers {sum(asked) / blocks:.2f} a block")
    count.add(driver_asked <= 1.1 * SOME and sum(asked) <= 8 * blocks, f"requests: {driver_asked} and {asked}")
    for what, seconds in ("scheduler", of_scheduler), ("driver", of_driver):
        count.add(0 < seconds < ideal / tasks, f"the {what} takes {seconds:.4f} seconds for a task, and there is one "
                  f"every {ideal / tasks:.4f}")


def main(count: preload.Count, wanted: preload.Given) -> None:
    with tempfile.TemporaryDirectory(ignore_cleanup_errors=True) as folder:
        python = dask_cluster.python_with_dask(folder)
        if python is None:
            return
        for test in test_tasks, test_silence, test_driver, test_machines:
            if preload.is_chosen(test):
                place = runs.Place(pathlib.Path(folder, test.__name__), python, wanted.program, preload.LIBRARY)
                try:
                    runs.timed(test.__name__, test, count, place)
                finally:
                    place.end_all()
