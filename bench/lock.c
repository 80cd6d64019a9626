// What a bare lock leaves of the throughput, to compare with bench/desk.sh: THREADS threads, each of which ROUNDS times works
// WORK rounds of arithmetic and then adds one number under a lock, beside BUSY busy processes.
// Usage: gcc -O2 -o lock bench/lock.c -lpthread; ./lock KIND THREADS BUSY ROUNDS WORK
// (KIND: 0 no lock, 1 a mutex of the C library, 2 a lock that yields the processor until it is had)
#include <pthread.h>
#include <sched.h>
#include <signal.h>
#include <stdatomic.h>
#include <stdio.h>
#include <stdlib.h>
#include <sys/wait.h>
#include <time.h>
#include <unistd.h>

static pthread_mutex_t lock = PTHREAD_MUTEX_INITIALIZER;
static atomic_int held;
static volatile unsigned long sum;
static int kind, rounds, work_rounds;

static unsigned long work(unsigned long x) {
    for (int i = 0; i < work_rounds; i++) x = x * 6364136223846793005ul + 1442695040888963407ul;
    return x;
}

static void *run(void *seed) {
    unsigned long x = (unsigned long)seed;
    for (int i = 0; i < rounds; i++) {
        x = work(x);
        if (kind == 1) {
            pthread_mutex_lock(&lock);
            sum += x;
            pthread_mutex_unlock(&lock);
        } else if (kind == 2) {
            while (atomic_exchange(&held, 1)) sched_yield();
            sum += x;
            atomic_store(&held, 0);
        }
    }
    return (void *)x;
}

int main(int argc, char **argv) {
    if (argc != 6) return 1;
    kind = atoi(argv[1]);
    int threads = atoi(argv[2]), busy = atoi(argv[3]);
    rounds = atoi(argv[4]);
    work_rounds = atoi(argv[5]);
    pid_t *kids = malloc(sizeof(pid_t) * (busy + 1));
    pthread_t *workers = malloc(sizeof(pthread_t) * (threads + 1));
    for (int i = 0; i < busy; i++)
        if (!(kids[i] = fork()))
            for (;;) sum++;
    struct timespec start, end;
    clock_gettime(CLOCK_MONOTONIC, &start);
    for (long i = 0; i < threads; i++) pthread_create(&workers[i], 0, run, (void *)i);
    for (int i = 0; i < threads; i++) pthread_join(workers[i], 0);
    clock_gettime(CLOCK_MONOTONIC, &end);
    for (int i = 0; i < busy; i++) {
        kill(kids[i], SIGKILL);
        waitpid(kids[i], 0, 0);
    }
    double seconds = (end.tv_sec - start.tv_sec) + (end.tv_nsec - start.tv_nsec) / 1e9;
    printf("%.0f rounds a second\n", (double)threads * rounds / seconds);
    return 0;
}
