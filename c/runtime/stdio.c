// What picolibc asks of a machine: where its streams put bytes. There is no input.
#include <logtm.h>
#include <stdio.h>

static int put(char byte, FILE *stream)
{
    (void)stream;
    put_byte(byte);
    return (unsigned char)byte;
}

static FILE output = FDEV_SETUP_STREAM(put, NULL, NULL, _FDEV_SETUP_WRITE);

FILE *const stdout = &output;
FILE *const stderr = &output;
FILE *const stdin = &output;
