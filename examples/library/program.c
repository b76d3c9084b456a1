// Loads a library, calls its functions and reads its data, and unloads it.
#include <dlfcn.h>
#include <stdio.h>
#include <stdlib.h>

static int plus_one(int n) { return n + 1; }

static void *symbol(void *library, const char *name) {
    void *found = dlsym(library, name);
    if (!found) {
        printf("%s\n", dlerror());
        exit(1);
    }
    return found;
}

int main(int count, char **words) {
    if (count != 2)
        return 2;
    void *library = dlopen(words[1], RTLD_NOW);
    if (!library) {
        printf("%s\n", dlerror());
        return 1;
    }
    ((void (*)(int (*)(int)))symbol(library, "tell"))(plus_one);
    int (*counted)(void) = (int (*)(void))symbol(library, "counted");
    for (int i = 0; i < 3; i++)
        printf("counted %d\n", counted());
    printf("shared %d\n", *(int *)symbol(library, "shared"));
    printf("thrice %d\n", ((int (*)(int))symbol(library, "thrice"))(14));
    printf("hidden %s\n", dlsym(library, "hidden_sum") ? "found" : "not found");
    return dlclose(library);
}
