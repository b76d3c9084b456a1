// Packs a long text by a zlib that it loads, and unpacks it: it must be the same.
#include <dlfcn.h>
#include <stdio.h>
#include <string.h>

typedef unsigned long length;
typedef int coder(unsigned char *, length *, const unsigned char *, length);

int main(int count, char **words) {
    static unsigned char text[100000], packed[101000], unpacked[100000];
    void *library = count == 2 ? dlopen(words[1], RTLD_NOW) : 0;
    if (!library) {
        printf("%s\n", dlerror());
        return 1;
    }
    coder *pack = (coder *)dlsym(library, "compress");
    coder *unpack = (coder *)dlsym(library, "uncompress");
    const char *(*version)(void) = (const char *(*)(void))dlsym(library, "zlibVersion");
    for (unsigned i = 0; i < sizeof text; i++)
        text[i] = "relink links libraries anew "[i * i % 28] + i / 9999;
    length short_len = sizeof packed, len = sizeof unpacked;
    if (pack(packed, &short_len, text, sizeof text) || unpack(unpacked, &len, packed, short_len))
        return 1;
    if (len != sizeof text || memcmp(text, unpacked, len))
        return 1;
    printf("zlib %s: %zu bytes packed into %lu and unpacked\n", version(), sizeof text, short_len);
    return 0;
}
