"""What C has and the profile has not, by the words that it is written with: what it is called, and what to write for it
(docs/USING.md)."""
from __future__ import annotations

THREADS = "mutexes and barriers"
NOTHING_READ = "constants, initialisers and assignments: a program reads nothing"

# Words of C: how they are named, and what to write.
WORDS = {
    "struct": ("a `struct`", "an array for each member"),
    "union": ("a `union`", "an array for each member"),
    "enum": ("an `enum`", "`#define NAME integer` for each constant, and `int` for the type"),
    "typedef": ("a `typedef`", "the type itself, or `#define NAME unsigned char`, which the preprocessor takes"),
    "float": ("the type `float`", "integers with a fixed number of fraction bits"),
    "double": ("the type `double`", "integers with a fixed number of fraction bits"),
    "_Bool": ("the type `_Bool`", "`unsigned char`, of 0 and 1"),
    "_Complex": ("a complex type", "two integers"),
    "_Imaginary": ("an imaginary type", "an integer"),
    "goto": ("a `goto`", "a loop with `break`, or a flag"),
    "sizeof": ("`sizeof`", "its number"),
    "volatile": (
        "`volatile`",
        "a mutex or a barrier: accesses of globals are reordered between two acts on these, as C with threads allows",
    ),
    "extern": ("`extern`", "the declaration without the word, and the definition in the same text"),
    "inline": ("`inline`", "the declaration without the word: all calls are inlined"),
    "register": ("`register`", "the declaration without the word"),
    "restrict": ("`restrict`", "the declaration without the word"),
    "auto": ("`auto`", "the declaration without the word"),
    "asm": ("`asm`", "the operations in C"),
    "__asm__": ("`asm`", "the operations in C"),
    "__attribute__": ("an attribute", "the declaration without it"),
    "_Static_assert": ("an assertion", "nothing"),
}

# Names of types that headers of C and POSIX define: what stands for each, and the header of hlsc that says so.
TYPES = {
    **{
        f"{sign}int{bits}_t": (f"`{'unsigned ' if sign else 'signed ' if bits == 8 else ''}{word}`", "stdint.h")
        for sign in ("", "u")
        for bits, word in ((8, "char"), (16, "short"), (32, "int"), (64, "long"))
    },
    "intptr_t": ("`long`", "stdint.h"),
    "uintptr_t": ("`unsigned long`", "stdint.h"),
    "intmax_t": ("`long`", "stdint.h"),
    "uintmax_t": ("`unsigned long`", "stdint.h"),
    "size_t": ("`unsigned long`", "stddef.h"),
    "ptrdiff_t": ("`long`", "stddef.h"),
    "ssize_t": ("`long`", ""),
    "bool": ("`unsigned char`, of 0 and 1", "stdbool.h"),
    "uint": ("`unsigned`", ""),
    "pthread_cond_t": (f"{THREADS}: there are no condition variables", ""),
    "pthread_rwlock_t": (f"{THREADS}: there are no read-write locks", ""),
    "pthread_spinlock_t": ("`pthread_mutex_t`", ""),
    "pthread_attr_t": ("`NULL` for the attributes of a create", ""),
    "pthread_mutexattr_t": ("`NULL` for the attributes of a mutex", ""),
    "pthread_barrierattr_t": ("`NULL` for the attributes of a barrier", ""),
    "pthread_once_t": ("a call in `main` before the threads are created", ""),
    "pthread_key_t": ("an element of a global array for each thread", ""),
    "sem_t": (f"{THREADS}: there are no semaphores", ""),
    "FILE": ("`printf` alone", ""),
    "va_list": ("a function of a fixed number of integers", ""),
}

# Names of functions and constants of C and POSIX: what to write.
NAMES = {
    **dict.fromkeys(
        ("malloc", "calloc", "realloc", "free", "alloca"), "a global array of the greatest length: there is no heap"
    ),
    **dict.fromkeys(
        ("scanf", "fscanf", "sscanf", "getchar", "getc", "fgetc", "gets", "fgets", "read", "fread", "getline"),
        NOTHING_READ,
    ),
    **dict.fromkeys(
        ("puts", "putchar", "putc", "fputs", "fputc", "fprintf", "sprintf", "snprintf", "write", "fwrite", "perror"),
        '`printf` with a literal, as `printf("hi\\n")`',
    ),
    **dict.fromkeys(("exit", "abort", "_exit", "quick_exit"), "`return` from `main`"),
    **dict.fromkeys(
        ("memset", "memcpy", "memmove", "memcmp", "strlen", "strcpy", "strcmp"), "a loop over the elements"
    ),
    **dict.fromkeys(
        ("rand", "srand", "random", "abs", "labs", "qsort", "sqrt", "pow", "sin", "cos"), "a function of your own"
    ),
    **dict.fromkeys(("sleep", "usleep", "nanosleep", "sched_yield"), "nothing: threads wait at mutexes and barriers"),
    **dict.fromkeys(
        (
            "pthread_cond_wait",
            "pthread_cond_signal",
            "pthread_cond_broadcast",
            "pthread_cond_init",
            "sem_wait",
            "sem_post",
            "sem_init",
            "pthread_rwlock_rdlock",
            "pthread_rwlock_wrlock",
            "pthread_rwlock_unlock",
        ),
        THREADS,
    ),
    **dict.fromkeys(("true", "false"), "`#include <stdbool.h>` for hlsc, or 1 and 0"),
    "pthread_mutex_trylock": "`pthread_mutex_lock`",
    "pthread_self": "a number as the thread's argument",
    "pthread_detach": "`pthread_join`",
    "pthread_cancel": "a global that the thread looks at under a mutex",
    "PTHREAD_BARRIER_SERIAL_THREAD": "a thread that is chosen by its argument",
    "assert": "`if (!(c)) printf(..)`, or nothing",
    "EOF": NOTHING_READ,
    "stdin": NOTHING_READ,
    "stdout": "`printf`",
    "stderr": "`printf`",
}

# The constants of <limits.h> and <stdint.h> by how they end.
LIMIT_NAMES = ("_MAX", "_MIN", "CHAR_BIT")

# What C calls and nests without a limit, by the name of the limit: a word that it begins with, and what to write.
LIMITS = {
    "tokens": ("", "a loop or a function in place of copies"),
    "name length": ("", "a shorter name"),
    "nesting": (
        "",
        "a `switch`, or a table in a global array, in place of a long chain of `else if`; fewer blocks and parentheses "
        "in one another",
    ),
    "functions": ("main", "fewer functions: a function with one more parameter in place of copies"),
    "thread ids": (
        "pthread_t",
        "fewer elements: threads that do the same one after another share one `pthread_t`, joined in between",
    ),
    "mutex elements": ("pthread_mutex_t", "fewer elements: objects that are not held at once share a mutex"),
    "barrier elements": ("pthread_barrier_t", "fewer elements: a barrier is met again and again"),
    "one array": ("", "a shorter array, or several"),
    "global elements": ("", "shorter arrays: elements that are not alive at once share one"),
    "printf sites": ("printf", "one `printf` in a function or a loop in place of copies"),
    "local elements": ("", "global arrays: a local one counts once for each call that is inlined"),
    "weight": ("main", "a call in a loop in place of several calls: each call is inlined, with the calls in it"),
}

# The causes that stop a walk, and what is behind each.
CAUSES = {
    "join": "the thread to be joined has not ended",
    "mutex": "another thread holds the mutex",
    "barrier": "the thread waits until as many have come as the barrier's count",
    "not running": "the thread is not created yet, has ended, or there is none of that number",
}
UNDEFINED = {
    "overflow": "a signed result out of its type, `MIN / -1` or `MIN % -1`",
    "divisor": "a division by 0",
    "shift": "a count below 0 or not below the width, or a left shift of a negative value or past a signed type's end",
    "index": "an index outside of its array, or of its own dimension",
    "unwritten": "a local is read that was never written",
    "no value": "the value of a call is used that returned none",
    "thread id": "a create of a thread that was not joined, a join of one not created, or a thread that joins itself",
    "mutex": "a mutex initialised twice, not initialised, destroyed while held, locked again, or unlocked by another",
    "barrier": "a barrier initialised twice, not initialised, destroyed while threads wait, or of a count below 1",
    "live thread": "`main` returns and a created thread is not joined",
}
