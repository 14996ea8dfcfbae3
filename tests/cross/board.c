/* How a program starts on the board of board.ld: its variables get their values, and main is called; what it prints goes
 * by semihosting to whoever runs the board. A fault ends the run. */
#include <stdint.h>
#include <stdlib.h>
#include <string.h>

extern uint8_t stack_top[], data_start[], data_end[], data_kept[], bss_start[], bss_end[];
extern void initialise_monitor_handles(void);
extern int main(void);

void reset(void) {
    memcpy(data_start, data_kept, (size_t)(data_end - data_start));
    memset(bss_start, 0, (size_t)(bss_end - bss_start));
    initialise_monitor_handles();
    exit(main());
}

static void fault(void) { abort(); }

/* What newlib's exit calls. */
void _init(void) {}
void _fini(void) {}

__attribute__((section(".vectors"), used)) static void (*const vectors[])(void) = {
    (void (*)(void))stack_top, reset, fault, fault, fault, fault, fault};
