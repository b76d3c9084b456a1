// Prints the SHA-256 digest of a text, by a libcrypto that it loads, and the library's version.
#include <dlfcn.h>
#include <stdio.h>
#include <string.h>

typedef unsigned char *digester(const unsigned char *, unsigned long, unsigned char *);

int main(int count, char **words) {
    void *library = count == 3 ? dlopen(words[1], RTLD_NOW) : 0;
    if (!library) {
        printf("%s\n", dlerror());
        return 1;
    }
    digester *sha256 = (digester *)dlsym(library, "SHA256");
    const char *(*version)(int) = (const char *(*)(int))dlsym(library, "OpenSSL_version");
    unsigned char digest[32];
    sha256((const unsigned char *)words[2], strlen(words[2]), digest);
    for (unsigned i = 0; i < sizeof digest; i++)
        printf("%02x", digest[i]);
    printf(" by %s\n", version(0));
    return 0;
}
