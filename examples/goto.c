#include <threads.h>
static mtx_t m;
int main(void)
{
    (void)mtx_init(&m, mtx_plain);
    goto end;
    return 0;
}
