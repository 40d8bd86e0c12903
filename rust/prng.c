/* What Rust's library takes from bcryptprimitives.dll of Windows, for a wine that lacks it. The program needs no real randomness. */
__declspec(dllexport) int ProcessPrng(unsigned char *bytes, unsigned long long count)
{
    while (count > 0)
        bytes[--count] = 4;
    return 1;
}
