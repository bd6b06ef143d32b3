/* A signer for tests: for every 32 bytes that it reads it writes 64, the same twice. After ANSWERS of them it does otherwise:
 *   end    it ends, with status 3
 *   short  it writes 10 bytes and ends
 *   more   it writes 65 bytes
 *   zeros  it writes 64 zeros
 *   last   it goes on, and ends with status 4 when there is nothing more to read
 * usage: signer [ANSWERS HOW]
 */
#include <stdlib.h>
#include <string.h>
#include <unistd.h>

int main(int count, char **words) {
    unsigned char bytes[65] = {0};
    long answers = count > 2 ? atol(words[1]) : -1;
    const char *how = count > 2 ? words[2] : "";
    for (long at = 0;; at++) {
        for (size_t got = 0; got < 32;) {
            ssize_t more = read(0, bytes + got, 32 - got);
            if (more <= 0) return !strcmp(how, "last") ? 4 : 0;
            got += more;
        }
        memcpy(bytes + 32, bytes, 32);
        size_t length = 64;
        if (at == answers) {
            if (!strcmp(how, "end")) return 3;
            if (!strcmp(how, "short")) length = 10;
            if (!strcmp(how, "more")) length = 65;
            if (!strcmp(how, "zeros")) memset(bytes, 0, 64);
        }
        if (write(1, bytes, length) < 0) return 5;
        if (length == 10) return 0;
    }
}
