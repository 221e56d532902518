// What the tests share. A test exits with 0 on each hart if all of its checks hold, and puts out the line of the first that doesn't.
#include <libitm.h>
#include <logtm.h>

enum { HARTS = 8 };

static unsigned failed[HARTS];

static inline void check(int holds, unsigned line)
{
    if (holds || failed[hart_id()])
        return;
    failed[hart_id()] = line;
    put_text("line ");
    put_decimal(line);
    put_byte('\n');
}

#define CHECK(HOLDS) check(HOLDS, __LINE__)

static inline int status(void)
{
    return failed[hart_id()] != 0;
}
