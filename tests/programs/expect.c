/* `expect PROGRAM` prints what the program has to print for the input on standard input, `expect PROGRAM MAKER SITE` what it has
   to print if it is called with the names of two texts. */
#include "../reference/inputs.h"

/* False if it cannot be read, or is too long. */
static bool read_file(FILE *file, struct buffer *to)
{
    *to = new_buffer();
    if (file == NULL)
        return false;
    to->length = fread(to->bytes, 1, ROOM, file);
    return !ferror(file) && to->length < ROOM;
}

int main(int argc, char **argv)
{
    struct buffer input, maker, site;
    if ((argc != 2 && argc != 4) || !read_file(stdin, &input))
        return 2;
    if (argc == 2)
        return print_program(argv[1], input.bytes, input.length, stdout) ? 0 : 2;
    if (!read_file(fopen(argv[2], "rb"), &maker) || !read_file(fopen(argv[3], "rb"), &site))
        return 2;
    return print_on_texts(argv[1], texts_of(&maker, &site), input.bytes, input.length, stdout) ? 0 : 2;
}
