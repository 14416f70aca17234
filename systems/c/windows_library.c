// Windows, for the library: it has no state, so nothing is to be done when a process or a thread begins or ends.
#define WIN32_LEAN_AND_MEAN
#include <windows.h>

BOOL WINAPI start_library(HINSTANCE library, DWORD reason, LPVOID reserved)
{
    (void)library;
    (void)reason;
    (void)reserved;
    return TRUE;
}
