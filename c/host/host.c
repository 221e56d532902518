// What logtm.h declares, for a computer of one's own: harts are threads, as many as the first word says. The program's main has to be called
// hart_main (-Dmain=hart_main), but in this file. Each thread's exit has to be 0.
#undef main
#include <logtm.h>
#include <pthread.h>
#include <stdint.h>
#include <stdio.h>
#include <stdlib.h>

__thread struct logtm_hart logtm_hart;
static pthread_mutex_t running = PTHREAD_MUTEX_INITIALIZER;
static unsigned harts = 1;

int hart_main(void);

int tx_begin(void)
{
    pthread_mutex_lock(&running);
    return TX_STARTED;
}

void tx_commit(void)
{
    pthread_mutex_unlock(&running);
}

void put_byte(char byte)
{
    putchar(byte);
}

void put_text(const char *text)
{
    fputs(text, stdout);
}

void put_decimal(unsigned number)
{
    printf("%u", number);
}

static void *run(void *hart)
{
    logtm_hart.id = (uintptr_t)hart;
    logtm_hart.count = harts;
    return (void *)(intptr_t)hart_main();
}

int main(int count, char **words)
{
    pthread_t threads[8];
    void *status, *any = NULL;
    if (count > 1)
        harts = atoi(words[1]);
    for (uintptr_t hart = 0; hart < harts; hart++)
        pthread_create(&threads[hart], NULL, run, (void *)hart);
    for (unsigned hart = 0; hart < harts; hart++) {
        pthread_join(threads[hart], &status);
        any = status ? status : any;
    }
    return any != NULL;
}
