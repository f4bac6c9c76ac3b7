#!/usr/bin/env python3
"""Times a turn, which is a `take` and a `give`, beside a lock and an unlock of the C library's mutex.

`mx_threads` adds 1 to a counter behind a turn, and a program that is compiled here adds 1 under a
`pthread_mutex_t`. One thread makes all turns, and then four threads make as many each. A line is the
fastest of five runs, which take turns themselves, in nanoseconds for one turn.
"""

import subprocess
import sys
import tempfile
from pathlib import Path

CRATE = Path(__file__).resolve().parent.parent / "crates" / "mx_threads"
PROGRAM = CRATE / "out" / "mx_threads"
ROUNDS = 5
THREADS = 4
TIMES = {"alone": 10_000_000, "together": 1_000_000}
# The C library leaves out the atomic steps of a mutex until a second thread was made, so it makes one first.
MUTEX = r"""
#include <pthread.h>
#include <stdio.h>
#include <stdlib.h>
#include <time.h>

static pthread_mutex_t lock = PTHREAD_MUTEX_INITIALIZER;
static volatile unsigned long sum;
static unsigned long times;

static void *rest(void *unused) { return unused; }

static void *add(void *unused)
{
    for (unsigned long i = 0; i < times; i++) {
        pthread_mutex_lock(&lock);
        sum++;
        pthread_mutex_unlock(&lock);
    }
    return unused;
}

int main(int argc, char **argv)
{
    int threads = atoi(argv[1]);
    pthread_t other, all[16];
    struct timespec start, end;
    times = strtoul(argv[2], NULL, 10);
    pthread_create(&other, NULL, rest, NULL);
    pthread_join(other, NULL);
    clock_gettime(CLOCK_MONOTONIC, &start);
    if (threads == 1)
        add(NULL);
    for (int i = 0; threads > 1 && i < threads; i++)
        pthread_create(&all[i], NULL, add, NULL);
    for (int i = 0; threads > 1 && i < threads; i++)
        pthread_join(all[i], NULL);
    clock_gettime(CLOCK_MONOTONIC, &end);
    printf("%ld\n", (end.tv_sec - start.tv_sec) * 1000000000L + end.tv_nsec - start.tv_nsec);
    return sum != times * threads;
}
"""


def build():
    """Builds `mx_threads`, which proves it and what is below it where that hasn't been done."""
    run = subprocess.run(["rt", "run"], cwd=CRATE, stdin=subprocess.DEVNULL, capture_output=True)
    if run.returncode != 0:
        sys.exit(run.stdout.decode(errors="replace") + run.stderr.decode(errors="replace"))


def nanoseconds(*words):
    return int(subprocess.run(list(map(str, words)), capture_output=True, check=True).stdout)


def main():
    build()
    with tempfile.TemporaryDirectory() as folder:
        mutex = Path(folder) / "mutex"
        subprocess.run(["gcc", "-O2", "-pthread", "-x", "c", "-", "-o", mutex], input=MUTEX.encode(), check=True)
        for word, threads in [("alone", 1), ("together", THREADS)]:
            times = TIMES[word]
            runs = [(nanoseconds(PROGRAM, word, times), nanoseconds(mutex, threads, times)) for _ in range(ROUNDS)]
            turn, lock = (min(column) / (times * threads) for column in zip(*runs))
            print(f"{threads} thread{'s'[: threads > 1]}: {turn:.1f} ns a turn, {lock:.1f} ns a mutex, {turn / lock:.2f} times")


if __name__ == "__main__":
    main()
