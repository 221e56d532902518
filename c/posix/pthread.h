// As much of POSIX threads as small test programs want, on harts: hart 0 runs the program, and each other hart runs one thread at a time. A program
// that needs more threads at once than there are other harts waits for ever.
#ifndef PTHREAD_H
#define PTHREAD_H

typedef struct {
    int unused;
} pthread_attr_t;
typedef unsigned pthread_t;
typedef unsigned pthread_key_t;

// Each answers 0, or an error number: 11 (EAGAIN) if there are too many threads or keys.
int pthread_create(pthread_t *thread, const pthread_attr_t *attributes, void *(*start)(void *), void *argument);
int pthread_join(pthread_t thread, void **result);
int pthread_key_create(pthread_key_t *key, void (*destructor)(void *));
int pthread_setspecific(pthread_key_t key, const void *value);
void *pthread_getspecific(pthread_key_t key);

#endif
