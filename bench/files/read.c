/* Reads each file that is named into fresh memory of its size. */
#include <fcntl.h>
#include <stdlib.h>
#include <sys/stat.h>
#include <unistd.h>

static int read_whole(const char *name) {
    struct stat found;
    int file = open(name, O_RDONLY);
    if (file < 0 || fstat(file, &found) != 0)
        return 1;
    char *bytes = malloc(found.st_size);
    off_t so_far = 0;
    while (bytes && so_far < found.st_size) {
        ssize_t count = read(file, bytes + so_far, found.st_size - so_far);
        if (count <= 0)
            return 1;
        so_far += count;
    }
    return bytes == NULL;
}

int main(int count, char **names) {
    for (int at = 1; at < count; at++)
        if (read_whole(names[at]))
            return 1;
    return 0;
}
