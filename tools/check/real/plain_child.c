/* Functions that no table covers, and that keep frame pointers: built by gcc -O1 -fno-omit-frame-pointer
   -fno-asynchronous-unwind-tables. */

__attribute__((noinline)) static int plain_inner(volatile int *place) {
    void *volatile frame = __builtin_frame_address(0); /* (else it would need no frame of its own) */
    return *place + (frame != 0);
}

__attribute__((noinline)) static int plain_middle(volatile int *place) { return plain_inner(place) + 1; }

__attribute__((noinline)) int plain(int number) { return plain_middle((volatile int *)8) + number; }
