// What the library hasn't ends the hart with status 70, after its name was put out.
#include "check.h"

int main(void)
{
    unsigned local = 0;
    __transaction_atomic {
        local++;
        _ITM_dropReferences(&local, sizeof local);
    }
    return 0;
}
