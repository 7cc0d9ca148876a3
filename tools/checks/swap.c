/* swap SECONDS ONE OTHER: exchanges two files again and again, without a pause, and prints how often. Built by in_place.sh. */
#define _GNU_SOURCE
#include <fcntl.h>
#include <linux/fs.h>
#include <stdio.h>
#include <stdlib.h>
#include <sys/syscall.h>
#include <time.h>
#include <unistd.h>

int main(int count, char **words) {
    if (count != 4) return 2;
    long swaps = 0;
    for (time_t end = time(NULL) + atoi(words[1]); time(NULL) < end; swaps++)
        syscall(SYS_renameat2, AT_FDCWD, words[2], AT_FDCWD, words[3], RENAME_EXCHANGE);
    printf("%ld\n", swaps);
}
