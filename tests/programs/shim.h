/* What the shim counts of a program's reads and of its writes on descriptor 1. It shares this with failures.c by a mapped file. */
#ifndef SHIM_H
#define SHIM_H

/* The variables with the script and with the name of the file. */
#define SHIM_SCRIPT "KINOHAZEL_SHIM"
#define SHIM_REPORT "KINOHAZEL_SHIM_REPORT"

struct report {
    unsigned long reads, writes; /* calls on descriptors 0 and 1 */
    unsigned long file_reads; /* reads of other descriptors */
    unsigned long interrupted;
    unsigned long ended; /* reads of descriptor 0 that found the end */
    unsigned long failed_reads, failed_writes; /* not by an interruption */
    unsigned long after_end; /* reads behind the end of the same stream */
    unsigned long after_failed_read; /* reads behind one that failed */
    unsigned long after_failed_write; /* reads and writes behind a write that failed */
};

#endif
