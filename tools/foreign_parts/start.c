/* Constructors run at the first entry. Destructors never run, since a compartment has no end. */
#define WEAK __attribute__((weak))

extern void (*const secomp_constructors[])(void);
extern void (*const secomp_constructors_end[])(void);

void secomp_construct(void) {
  static int constructed;
  if (constructed) return;
  constructed = 1;
  for (void (*const *next)(void) = secomp_constructors; next < secomp_constructors_end; next++) (*next)();
}

WEAK void *__dso_handle;
WEAK int atexit(void (*function)(void)) { (void)function; return 0; }
WEAK int __cxa_atexit(void (*function)(void *), void *argument, void *handle) {
  (void)function; (void)argument; (void)handle;
  return 0;
}
