/* The trusted edge of the shipped program: the only code in it that Rattle's compiler didn't make from proved
   sources. It is linked to the object argue.o and stands between that and the machine's C library. The object calls
   the six functions below by name; what each has to do is what the kit's own archive does, and the contracts of the
   kit's crates libc and os say it. All else that the object calls is the C library's own (read, write, pthread_create
   ..). */

#define _GNU_SOURCE
#include <errno.h>
#include <fcntl.h>
#include <stdint.h>
#include <stdlib.h>
#include <unistd.h>

/* What a call for memory answers: 1 and the block, or 0 and a pointer to a byte that nobody reads or writes. The flag
   is a whole register, of which the object reads the low byte. */
struct tried {
    uint64_t ok;
    void *block;
};

static char nothing;

static struct tried tried(void *block)
{
    struct tried answer = {block != NULL, block != NULL ? block : &nothing};
    return answer;
}

/* A new block of so many bytes. The alignment divides 16, which malloc gives to every block. A block of no bytes is
   asked for as one of `align` bytes, so that it is a block of its own that can be freed. */
struct tried rattle_alloc(size_t bytes, size_t align)
{
    return tried(malloc(bytes != 0 ? bytes : align));
}

/* The block with another size. How many of its bytes have to be kept is of no use here: realloc keeps all that fit.
   Where it fails, the block is as it was. */
struct tried rattle_realloc(void *block, size_t kept, size_t bytes, size_t align)
{
    (void)kept;
    return tried(realloc(block, bytes != 0 ? bytes : align));
}

void rattle_dealloc(void *block)
{
    free(block);
}

/* The words that the program was started with, its own name first. */
static int word_count;
static char **words;

/* Puts the word with this number at the start of the buffer and answers its length; -1 where there is no such word,
   and -2 where it doesn't fit, with the buffer full of its first bytes. */
intptr_t rattle_arg(size_t number, unsigned char *buffer, size_t room)
{
    size_t length = 0;
    if (number >= (size_t)word_count || words[number] == NULL)
        return -1;
    for (const char *word = words[number]; word[length] != '\0'; length++) {
        if (length == room)
            return -2;
        buffer[length] = (unsigned char)word[length];
    }
    return (intptr_t)length;
}

int rattle_errno(void)
{
    return errno;
}

void rattle_set_errno(int error)
{
    errno = error;
}

/* Before main: keeps the words, and takes the numbers of those of the descriptors 0 to 2 that are closed. Else the
   first file that the program opens would be, say, its standard output, and the answer would land in it. What takes
   the number is no open file (O_PATH): reading and writing fail there with EBADF, as where it is closed, so that an
   answer with no standard output is a write fault. Where a number can't be taken, the program ends with the status of
   a write fault. */
__attribute__((constructor)) static void begin(int count, char **given)
{
    word_count = count;
    words = given;
    for (int number = 0; number <= 2; number++) {
        if (fcntl(number, F_GETFD) != -1 || errno != EBADF)
            continue;
        if (open("/", O_PATH) != number)
            _exit(4);
    }
    errno = 0;
}
