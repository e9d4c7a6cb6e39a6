/*
 * Threads and what they wait for each other with; the answers are Linux's, and check.sh runs it under both. Then, with a port, a server with a thread
 * for each client.
 */
#include <arpa/inet.h>
#include <errno.h>
#include <pthread.h>
#include <semaphore.h>
#include <stdio.h>
#include <stdlib.h>
#include <string.h>
#include <sys/socket.h>
#include <time.h>
#include <unistd.h>

enum { THREADS = 4, TIMES = 500, ROOM = 3, AFTER_EACH_OTHER = 20 };

static pthread_mutex_t mutex = PTHREAD_MUTEX_INITIALIZER;
static pthread_cond_t changed = PTHREAD_COND_INITIALIZER;
static _Thread_local int own = 7;

/* What the work gives to each of some threads that run beside each other, in sum. */
static long sum_of(void *(*work)(void *))
{
    pthread_t threads[THREADS];
    long sum = 0;
    for (long i = 0; i < THREADS; i++)
        if (pthread_create(&threads[i], NULL, work, (void *)i))
            exit(1);
    for (int i = 0; i < THREADS; i++) {
        void *result;
        pthread_join(threads[i], &result);
        sum += (long)result;
    }
    return sum;
}

/* ---- a mutex, an atomic number, and a variable of each thread's own */

static int counted, added;

static void *count(void *number)
{
    for (int i = 0; i < TIMES; i++) {
        pthread_mutex_lock(&mutex);
        int before = counted;
        counted = before + 1;
        pthread_mutex_unlock(&mutex);
        __atomic_fetch_add(&added, 2, __ATOMIC_SEQ_CST);
        own += (long)number;
    }
    return (void *)(long)own;
}

/* ---- two that hand over by a condition: 1 to 100 through a queue of three places */

static int queue[ROOM], first, used;

static void *hand_over(void *unused)
{
    (void)unused;
    for (int i = 1; i <= 100; i++) {
        pthread_mutex_lock(&mutex);
        while (used == ROOM)
            pthread_cond_wait(&changed, &mutex);
        queue[(first + used++) % ROOM] = i;
        pthread_cond_broadcast(&changed);
        pthread_mutex_unlock(&mutex);
    }
    return NULL;
}

static long take_all(void)
{
    pthread_t other;
    long sum = 0;
    pthread_create(&other, NULL, hand_over, NULL);
    for (int i = 1; i <= 100; i++) {
        pthread_mutex_lock(&mutex);
        while (used == 0)
            pthread_cond_wait(&changed, &mutex);
        sum += i * queue[first];
        first = (first + 1) % ROOM;
        used--;
        pthread_cond_broadcast(&changed);
        pthread_mutex_unlock(&mutex);
    }
    pthread_join(other, NULL);
    return sum;
}

/* ---- a barrier, a lock for readers and writers, what is done once, and a thread's end */

static pthread_barrier_t barrier;
static pthread_rwlock_t readers = PTHREAD_RWLOCK_INITIALIZER;
static pthread_once_t once = PTHREAD_ONCE_INIT;
static pthread_key_t key;
static int made, ended;

static void end(void *value)
{
    __atomic_fetch_add(&ended, (int)(long)value, __ATOMIC_SEQ_CST);
}

static void make(void)
{
    made++;
    pthread_key_create(&key, end);
}

static void *meet(void *number)
{
    pthread_once(&once, make);
    pthread_setspecific(key, (void *)((long)number + 1));
    pthread_rwlock_wrlock(&readers);
    counted += (long)number;
    pthread_rwlock_unlock(&readers);
    pthread_barrier_wait(&barrier);
    pthread_rwlock_rdlock(&readers);
    long all = counted;
    pthread_rwlock_unlock(&readers);
    pthread_exit((void *)all);
}

/* ---- threads that nobody joins */

static sem_t done;

static void *alone(void *text)
{
    char *copy = strdup(text);
    free(copy);
    sem_post(&done);
    return NULL;
}

static void let_go(void)
{
    pthread_attr_t attributes;
    pthread_attr_init(&attributes);
    pthread_attr_setdetachstate(&attributes, PTHREAD_CREATE_DETACHED);
    sem_init(&done, 0, 0);
    for (int i = 0; i < AFTER_EACH_OTHER; i++) {
        pthread_t thread;
        while (pthread_create(&thread, &attributes, alone, "text"))
            sched_yield();
        sem_wait(&done);
    }
}

/* ---- waits with an end */

static const char *wait_in_vain(void)
{
    struct timespec until;
    clock_gettime(CLOCK_REALTIME, &until);
    until.tv_nsec = (until.tv_nsec + 1000000) % 1000000000;
    pthread_mutex_lock(&mutex);
    int result = pthread_cond_timedwait(&changed, &mutex, &until);
    pthread_mutex_unlock(&mutex);
    return strerror(result);
}

static void tell(void)
{
    printf("own: %ld\n", sum_of(count));
    printf("counted: %d %d; own here %d\n", counted, added, own);
    printf("handed over: %ld\n", take_all());
    pthread_barrier_init(&barrier, NULL, THREADS);
    counted = 0;
    printf("met: %ld\n", sum_of(meet));
    printf("once: %d; ended: %d\n", made, ended);
    let_go();
    printf("in vain: %s\n", wait_in_vain());
    printf("trylock: %d\n", pthread_mutex_trylock(&mutex));
    printf("trylock again: %s\n", strerror(pthread_mutex_trylock(&mutex)));
}

/* ---- the server */

static void *serve(void *given)
{
    int client = (long)given;
    char bytes[32];
    ssize_t length;
    while ((length = read(client, bytes, sizeof bytes)) > 0) {
        for (int i = 0; i < length; i++)
            bytes[i] ^= bytes[i] >= 'a' && bytes[i] <= 'z' ? 32 : 0;
        write(client, bytes, length);
    }
    close(client);
    return NULL;
}

static int serve_at(int port)
{
    struct sockaddr_in address = {.sin_family = AF_INET, .sin_port = htons(port), .sin_addr.s_addr = htonl(INADDR_LOOPBACK)};
    int listener = socket(AF_INET, SOCK_STREAM, 0);
    if (bind(listener, (struct sockaddr *)&address, sizeof address) < 0 || listen(listener, 8) < 0)
        return 1;
    for (;;) {
        pthread_t thread;
        long client = accept(listener, NULL, NULL);
        if (client < 0)
            return 1;
        while (pthread_create(&thread, NULL, serve, (void *)client))
            sched_yield();
        pthread_detach(thread);
    }
}

int main(int count, char **words)
{
    setvbuf(stdout, NULL, _IOLBF, BUFSIZ);
    tell();
    return count > 1 ? serve_at(atoi(words[1])) : 0;
}
