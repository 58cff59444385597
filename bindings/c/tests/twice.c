/* twice LIBRARY COPY SCRIPT TEXT: a library that is loaded twice, under two names: both run, one after the other and in turn, and one
   goes on where the other is closed and opened again. */
#include "common.h"
#include <dlfcn.h>
#include <stdlib.h>

struct library {
    void *handle;
    library_function *run;
};

static struct library opened(const char *path) {
    void *handle = dlopen(path, RTLD_NOW | RTLD_LOCAL);
    if (handle == NULL) wrong("%s", dlerror());
    /* POSIX has a function's address in a pointer to void */
    union { void *symbol; library_function *run; } found = {dlsym(handle, "mainctx_run")};
    if (found.symbol == NULL) wrong("%s", dlerror());
    return (struct library){handle, found.run};
}

static void try_it(const char *what, struct library library, struct bytes script, struct bytes wanted) {
    struct bytes text = text_of((struct call){library.run, MAINCTX_TEXT}, script);
    same(what, text, wanted);
    free(text.at);
}

int main(int count, char **words) {
    if (count != 5) wrong("usage: twice LIBRARY COPY SCRIPT TEXT");
    struct bytes script = file(words[3]), text = file(words[4]);
    struct library one = opened(words[1]), other = opened(words[2]), again = opened(words[1]);
    if (one.run == other.run) wrong("the copy is the library itself");
    if (one.run != again.run) wrong("one name is two libraries");
    for (int round = 0; round < 2; round++) {
        try_it("the library", one, script, text);
        try_it("the copy", other, script, text);
    }
    dlclose(again.handle);
    dlclose(one.handle);
    try_it("the copy, after the library is closed", other, script, text);
    one = opened(words[1]);
    try_it("the library, opened again", one, script, text);
    dlclose(one.handle);
    dlclose(other.handle);
    free(script.at);
    free(text.at);
    return 0;
}
