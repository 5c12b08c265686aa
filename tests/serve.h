// What the shims of tests/ share: serve.c runs a program again and again, each time with other settings.

#define HIDDEN __attribute__((visibility("hidden")))

// The value of a setting of this run, or of the environment where the program runs once; NULL if there is none.
HIDDEN const char *setting(const char *name);

// Tells that the run came to what the shim does.
HIDDEN void tell(void);

// The shim's own preparations for a run, if it has any.
HIDDEN void begin(void) __attribute__((weak));
