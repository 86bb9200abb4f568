/* Plays a script as `xv6vm play` does, without a program beside yours: reads FILE, prints its text, or the line at fault. With a
   release:

     gcc examples/c/play.c $(pkg-config --cflags --libs xv6vm) -o play
     ./play examples/c/store_and_load.script

   docs/C_LIBRARY.md says how in a clone. What it prints of that script is at the end of this file. */
#include "xv6vm.h"
#include <inttypes.h>
#include <stdio.h>
#include <stdlib.h>

static const char *const CAUSES[10] = {"",      "TooLong", "NotAscii", "Word",   "Order",
                                       "Count", "Number",  "Field",    "Limits", "TooMany"};

/* Reads a file whole. Returns its bytes, which the caller frees; NULL if that fails. */
static char *read_file(const char *name, size_t *length) {
    FILE *file = fopen(name, "rb");
    if (file == NULL)
        return NULL;
    char *bytes = NULL;
    if (fseek(file, 0, SEEK_END) == 0) {
        long size = ftell(file);
        rewind(file);
        bytes = size < 0 ? NULL : malloc((size_t)size + 1);
        if (bytes != NULL)
            *length = fread(bytes, 1, (size_t)size, file);
    }
    fclose(file);
    return bytes;
}

/* Plays a script into a text that is as long as it must be: the first call says how long that is, and the second one plays it. */
static struct xv6vm_played play(const char *script, size_t length, char **text, size_t *written) {
    char none;
    *text = NULL;
    struct xv6vm_played played = xv6vm_play(script, length, &none, 0, written);
    if (played.status != XV6VM_NO_ROOM)
        return played;
    *text = malloc(*written);
    if (*text == NULL) {
        perror("malloc");
        exit(XV6VM_NO_MEMORY);
    }
    return xv6vm_play(script, length, *text, *written, written);
}

int main(int count, char **words) {
    size_t length = 0, written = 0;
    char *script = count == 2 ? read_file(words[1], &length) : NULL, *text;
    if (script == NULL) {
        fprintf(stderr, "usage: play FILE (one that can be read)\n");
        return 2;
    }
    struct xv6vm_played played = play(script, length, &text, &written);
    if (played.status == XV6VM_PLAYED)
        fwrite(text, 1, written, stdout);
    else if (played.status == XV6VM_SCRIPT)
        fprintf(stderr, "refused 23 Script line %" PRIu64 " %s\n", played.line, CAUSES[played.cause]);
    else
        fprintf(stderr, "out of memory\n");
    free(text);
    free(script);
    return (int)played.status;
}

/* Prints of examples/c/store_and_load.script:
ok
slot 0
ok
stored
value 0x1122334455667788
value 0x3344
*/
