// What the interface has and this library hasn't: each call puts out its name, and ends the hart with status 70.
#include "transaction.h"

enum { REFUSED = 70 };

// Lets the other harts go on when this one ends in a transaction.
void logtm_give_up(void)
{
    if (logtm_transaction.depth > 0)
        logtm_end();
}

// What was stored so far becomes visible, since nothing can be put out in a transaction.
_Noreturn void logtm_refuse(const char *what)
{
    logtm_give_up();
    put_text("libitm: ");
    put_text(what);
    put_byte('\n');
    logtm_exit(REFUSED);
}

const char *_ITM_libraryVersion(void)
{
    return "libitm of logtm, interface " _ITM_VERSION;
}

int _ITM_versionCompatible(int version)
{
    return version == _ITM_VERSION_NO;
}

void _ITM_error(const _ITM_srcLocation *location, int code)
{
    (void)code;
    logtm_refuse(location && location->psource ? location->psource : "_ITM_error");
}

void _ITM_dropReferences(void *start, size_t size)
{
    (void)start, (void)size;
    logtm_refuse("_ITM_dropReferences");
}

#define ABSENT(NAME) \
    void NAME(void) \
    { \
        logtm_refuse(#NAME); \
    }

ABSENT(_ITM_userError)
ABSENT(_ITM_commitTransactionEH)
ABSENT(_ITM_registerThrownObject)
ABSENT(_ITM_cxa_allocate_exception)
ABSENT(_ITM_cxa_free_exception)
ABSENT(_ITM_cxa_throw)
ABSENT(_ITM_cxa_begin_catch)
ABSENT(_ITM_cxa_end_catch)
